/* Runs a scanner over a file through a buffer that is made anew at each refill, and prints the lines of the program's own run: for each match,
   also for one that ends by a jump to a condition, with its tags, histories, groups and condition, and for the end.

   A source defines before it: YYCTYPE; COUNTS, whether a run ends where the file does and not by a rule; WHOLE, whether the buffer has the whole
   file from the start; REFILL, how many units a refill adds at most; TELL(rule), which prints the tags of a rule by TAG and HISTORY. What is to be
   known of the emitted text it includes before, too: FIRST, the condition of the first scanner; PADDING, how many units of zero stand behind the file; JUMPS, the lines in which a
   condition is set before a jump, each with its rule; REGISTERS(DO), the registers. NAMES are the names of conditions. */
#include <setjmp.h>
#include <stdio.h>
#include <stdlib.h>
#include <string.h>
#include "custom.h"

static FILE *file;
static long padding = PADDING, before, size, started;
static YYCTYPE *buffer, *token;
static const YYCTYPE *YYCURSOR, *YYMARKER, *YYCTXMARKER, *YYLIMIT;
static jmp_buf leave;
static unsigned int yyaccept; /* that of a scanner that stores its state */
static YYCTYPE yych;
static int state = -1, cond = FIRST, ended, went = -1;
static size_t yynmatch;
static const YYCTYPE *yypmatch[130];
static const char *const condition_names[] = { NAMES NULL };
static const int jump_lines[][2] = { JUMPS { 0, 0 } };

#define DECLARE(name) static const YYCTYPE *name;
REGISTERS(DECLARE)

#define SHIFT(name) \
	if (name) \
		name = fresh + (name - token);

static long here(void)
{
	return before + (long)(YYCURSOR - buffer);
}

/* ---- units, the least byte first */

static int next_unit(YYCTYPE *unit)
{
	unsigned char bytes[sizeof(YYCTYPE)];
	size_t count, place;

	if (fread(bytes, 1, sizeof bytes, file) < sizeof bytes) {
		if (padding == 0)
			return 0;
		padding--;
		*unit = 0;
		return 1;
	}
	count = sizeof bytes;
	*unit = 0;
	for (place = 0; place < count; place++)
		*unit |= (YYCTYPE)((unsigned long)bytes[place] << (8 * place));
	return 1;
}

/* Adds one to REFILL units, in a fresh buffer that begins with the match; 1 where there is no more. */
static int fill(void)
{
	size_t kept = (size_t)(YYLIMIT - token), added = 0;
	YYCTYPE *fresh = (YYCTYPE *)malloc((kept + REFILL + 1) * sizeof(YYCTYPE));

	if (!fresh)
		exit(1);
	while (added < REFILL && next_unit(&fresh[kept + added]))
		added++;
	if (!added) {
		free(fresh);
		return 1;
	}
	memcpy(fresh, token, kept * sizeof(YYCTYPE));
	fresh[kept + added] = 0;
	SHIFT(YYCURSOR)
	SHIFT(YYMARKER)
	SHIFT(YYCTXMARKER)
	REGISTERS(SHIFT)
	before += token - buffer;
	free(buffer);
	buffer = token = fresh;
	YYLIMIT = fresh + kept + added;
	return 0;
}

/* Fills until so many units are there; 1 where there are fewer. */
int fill_to(long units)
{
	while (YYLIMIT - YYCURSOR < units)
		if (fill())
			return 1;
	return 0;
}

/* Leaves the scanner, which comes back where it stored its state. */
int wait_for_units(void)
{
	longjmp(leave, 1);
	return 1;
}

/* ---- histories: the number of the last entry; entry 0 is the empty one */

struct entry {
	int before;
	long offset;
};
static struct entry entries[100000];
static int count_of_entries = 1;

int append(int history, long offset)
{
	if (count_of_entries == 100000)
		exit(1);
	entries[count_of_entries].before = history;
	entries[count_of_entries].offset = offset;
	return count_of_entries++;
}

#define YYMTAGP(history) ((history) = append(history, here()))
#define YYMTAGN(history) ((history) = append(history, -1))

void print_entries(int history)
{
	if (!history)
		return;
	print_entries(entries[history].before);
	if (entries[history].before)
		printf(",");
	if (entries[history].offset < 0)
		printf("-");
	else
		printf("%ld", entries[history].offset);
}

/* ---- lines */

static void print_offset(const YYCTYPE *at)
{
	if (at)
		printf("%ld", before + (long)(at - buffer));
	else
		printf("-");
}

#define TAG(name) \
	printf(" " #name "="); \
	print_offset(name);
#define HISTORY(name) \
	printf(" " #name "=["); \
	print_entries(name); \
	printf("]");

/* A line for a match that ends here; the run ends where the match is empty, or where the file ends if units are counted. */
static void print_match(const char *outcome, int rule)
{
	long end = here();
	size_t group;

	printf("%s %d %ld %ld", outcome, rule, started, end);
	TELL(rule)
	for (group = 0; group < yynmatch; group++) {
		printf(" (");
		print_offset(yypmatch[2 * group]);
		printf(",");
		print_offset(yypmatch[2 * group + 1]);
		printf(")");
	}
	if (went >= 0)
		printf(" => %s", condition_names[went]);
	printf("\n");
	went = -1;
	ended = 0;
	yynmatch = 0;
	if (end == started) {
		printf("stop %ld\n", end);
		exit(0);
	}
	started = end;
	if (COUNTS && started >= size) {
		printf("end %ld %ld\n", started, started);
		exit(0);
	}
}

/* Sets the condition in this line, before an action or before a jump, by which the match ends. */
static void set_condition(int number, int line)
{
	int place;

	cond = number;
	went = number;
	for (place = 0; jump_lines[place][0]; place++)
		if (jump_lines[place][0] == line)
			print_match("jump", jump_lines[place][1]);
}

#define YYGETCONDITION() cond
#define YYSETCONDITION(number) set_condition(number, __LINE__)
#define YYGETSTATE() state
#define YYSETSTATE(number) state = number

static int match(void);

/* Matches up to an action, from the start or from the state that is stored. The scanner may be left many times, and in each match it comes back
   once more where there are no more units. */
static int whole_match(void)
{
	state = -1;
	yyaccept = 0;
	if (setjmp(leave)) {
		if (ended)
			return -1;
		ended = fill();
	}
	return match();
}

int main(int count, char **words)
{
	file = count == 2 ? fopen(words[1], "rb") : NULL;
	if (!file || fseek(file, 0, SEEK_END))
		return 1;
	size = ftell(file) / (long)sizeof(YYCTYPE);
	rewind(file);
	buffer = (YYCTYPE *)calloc(1, sizeof(YYCTYPE));
	YYCURSOR = YYLIMIT = YYMARKER = YYCTXMARKER = token = buffer;
	while (WHOLE && !fill())
		;
	if (COUNTS && size == 0) {
		printf("end 0 0\n");
		return 0;
	}
	for (;;) {
		int rule;

		token = buffer + (YYCURSOR - buffer);
		rule = whole_match();
		if (rule <= 0) {
			printf("%s %ld %ld\n", rule ? "end" : "none", started, here());
			return 0;
		}
		print_match("rule", rule);
	}
}
