/* Prints the numbers and words of a file: the scanner counts units before it reads them, so zeros stand behind the last one. */
#include <stdio.h>
#include <string.h>

/*!max:re2c*/

#define YYCTYPE unsigned char
#define SIZE 16 /* longer than each token */

struct input {
	FILE *file;
	unsigned char buffer[SIZE + YYMAXFILL];
	unsigned char *token, *cursor, *marker, *limit;
	long before; /* how many bytes of the file were dropped from the buffer */
	int padded; /* whether the zeros stand there */
};

enum kind { END, NUMBER, WORD, BLANK, OTHER };

static void begin(struct input *input, FILE *file)
{
	input->file = file;
	input->token = input->cursor = input->marker = input->limit = input->buffer;
	input->before = 0;
	input->padded = 0;
}

/* Drops what stands before the token, and reads what fits behind the rest; 0 where so many units stand behind the cursor then. */
static int fill(struct input *input, long units)
{
	size_t dropped = (size_t)(input->token - input->buffer), kept = (size_t)(input->limit - input->token), added;

	if (input->padded || kept >= SIZE)
		return 1;
	memmove(input->buffer, input->token, kept);
	added = fread(input->buffer + kept, 1, SIZE - kept, input->file);
	input->token -= dropped;
	input->cursor -= dropped;
	if (input->marker >= input->buffer + dropped)
		input->marker -= dropped;
	input->limit = input->buffer + kept + added;
	input->before += (long)dropped;
	if (kept + added < SIZE) {
		memset(input->limit, 0, YYMAXFILL);
		input->limit += YYMAXFILL;
		input->padded = 1;
	}
	return input->limit - input->cursor < units;
}

#define YYFILL(units) do { if (fill(input, units)) return END; } while (0)

static enum kind token(struct input *input)
{
	input->token = input->cursor;
	/*!re2c
	re2c:define:YYCURSOR = "input->cursor";
	re2c:define:YYMARKER = "input->marker";
	re2c:define:YYLIMIT = "input->limit";

	"\x00"               { return input->padded && input->limit - input->token == YYMAXFILL ? END : OTHER; }
	"0x" [0-9a-f]{1,4}   { return NUMBER; }
	[0-9]+               { return NUMBER; }
	[a-z]+               { return WORD; }
	[ \n]+               { return BLANK; }
	*                    { return OTHER; }
	*/
	return OTHER;
}

int main(void)
{
	static const char *const names[] = { "end", "number", "word", "blank", "other" };
	static const char text[] = "0xff and 0xg and\n255, 12345678 a\0b 0x";
	FILE *file = tmpfile();
	struct input input;
	enum kind kind;

	if (!file || fwrite(text, 1, sizeof text - 1, file) != sizeof text - 1)
		return 1;
	rewind(file);
	begin(&input, file);
	do {
		kind = token(&input);
		if (kind != BLANK) {
			long start = input.before + (long)(input.token - input.buffer), end = input.before + (long)(input.cursor - input.buffer);

			printf("%s:%ld-%ld\n", names[kind], start, end);
		}
	} while (kind != END);
	fclose(file);
	return 0;
}
