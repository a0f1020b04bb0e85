/* Runs a scanner over a file, and prints a line for each match; the rule RULE has the tags TAGS. COUNTS says whether the run ends where the
   file does, and not by a rule; WHOLE whether the buffer has the whole file from the start. */
#define TAG(name) \
	if (name) \
		printf(" " #name "=%ld", before + (long)(name - buffer)); \
	else \
		printf(" " #name "=-");

/* A match, from the start or from the state that is stored; the scanner may be left many times, and once more where there is no more. */
static int whole_match(void)
{
	volatile int ended = 0;

	state = -1;
	yyaccept = 0;
	if (setjmp(leave)) {
		if (ended)
			return 0;
		ended = fill();
	}
	return match();
}

int main(int count, char **words)
{
	long size;

	file = count == 2 ? fopen(words[1], "rb") : NULL;
	if (!file || fseek(file, 0, SEEK_END))
		return 1;
	size = ftell(file);
	rewind(file);
	buffer = (unsigned char *)calloc(1, 1);
	YYCURSOR = YYLIMIT = YYMARKER = YYCTXMARKER = token = buffer;
	while (WHOLE && !fill())
		;
	while (!COUNTS || before + (YYCURSOR - buffer) < size) {
		long start = before + (long)(YYCURSOR - buffer), end;
		int rule;

		token = buffer + (YYCURSOR - buffer);
		rule = whole_match();
		end = before + (long)(YYCURSOR - buffer);
		if (rule == 0) {
			printf("none %ld %ld\n", start, end);
			break;
		}
		printf("rule %d %ld %ld", rule, start, end);
		if (rule == RULE) {
			TAGS
		}
		printf("\n");
		if (end == start) {
			printf("stop %ld\n", end);
			break;
		}
	}
	if (COUNTS && before + (YYCURSOR - buffer) >= size)
		printf("end %ld %ld\n", size, size);
	free(buffer);
	fclose(file);
	return 0;
}
