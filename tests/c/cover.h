/* Feeds each covering word of the standard input to a scanner, and prints the line of what the scanner does; the rule RULE has the tags
   TAGS. Behind the word stands a unit of zero, at the limit. */
#include <string.h>

#define TAG(name) \
	if (name) \
		printf(" " #name "=%ld", (long)(name - stream)); \
	else \
		printf(" " #name "=-");

int main(void)
{
	static YYCTYPE units[4096];
	static char line[65536];

	while (fgets(line, sizeof line, stdin)) {
		char *sign = strstr(line, " : "), *at = line;
		size_t count = 0;
		int rule;

		if (!sign)
			continue;
		for (; *at == '0' && count < sizeof units / sizeof units[0] - 1; at++)
			units[count++] = (YYCTYPE)strtoul(at, &at, 16);
		units[count] = 0;
		stream = YYCURSOR = units;
		YYLIMIT = units + count;
		rule = match();
		printf("%.*s : ", (int)(sign - line), line);
		if (rule == 0)
			printf("none 0 %ld", (long)(YYCURSOR - stream));
		else
			printf("rule %d 0 %ld", rule, (long)(YYCURSOR - stream));
		if (rule == RULE && rule != 0) {
			TAGS
		}
		printf("\n");
	}
	return 0;
}
