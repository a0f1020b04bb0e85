/* Runs a scanner over a file, and prints a line for each match; the rule RULE has the tags TAGS. */
#define TAG(name) \
	if (name) \
		printf(" " #name "=%ld", (long)(name - stream)); \
	else \
		printf(" " #name "=-");

int main(int count, char **words)
{
	static YYCTYPE units[4096];
	FILE *file = count == 2 ? fopen(words[1], "rb") : NULL;
	const YYCTYPE *end;

	if (!file)
		return 1;
	end = units + fread(units, sizeof units[0], sizeof units / sizeof units[0] - 1, file);
	fclose(file);
	stream = YYCURSOR = units;
	while (YYCURSOR < end) {
		const YYCTYPE *start = YYCURSOR;
		int rule = match();

		if (rule == 0) {
			printf("none %ld %ld\n", (long)(start - stream), (long)(YYCURSOR - stream));
			return 0;
		}
		printf("rule %d %ld %ld", rule, (long)(start - stream), (long)(YYCURSOR - stream));
		if (rule == RULE) {
			TAGS
		}
		printf("\n");
		if (YYCURSOR == start) {
			printf("stop %ld\n", (long)(YYCURSOR - stream));
			return 0;
		}
	}
	printf("end %ld %ld\n", (long)(YYCURSOR - stream), (long)(YYCURSOR - stream));
	return 0;
}
