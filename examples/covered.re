/* Feeds covering words to a scanner of numbers, and prints how many there were: covering.sh makes them. Where the scanner does something
   else than the line of a word tells, both are printed. Compile it with -T. */
#include <stdio.h>
#include <stdlib.h>
#include <string.h>

#define YYCTYPE unsigned char

struct found {
	int rule; /* 0 where none matches */
	const unsigned char *end, *dot;
};

/* What stands at the front of a text; at its end is a zero that is no part of it. */
static struct found number(const unsigned char *text, const unsigned char *end)
{
	const unsigned char *YYCURSOR = text, *YYLIMIT = end, *YYMARKER, *dot;
	/*!stags:re2c format = "const unsigned char *@@;"; separator = "\n\t"; */

	/*!re2c
	re2c:yyfill:enable = 0;
	re2c:eof = 0;
	digit = [0-9];

	$                        { return (struct found){ 1, YYCURSOR, NULL }; }
	"0" | [1-9] digit*       { return (struct found){ 2, YYCURSOR, NULL }; }
	'0x' [0-9A-Fa-f]+        { return (struct found){ 3, YYCURSOR, NULL }; }
	digit+ @dot "." digit+   { return (struct found){ 4, YYCURSOR, dot }; }
	digit+ / ".."            { return (struct found){ 5, YYCURSOR, NULL }; }
	*/
	return (struct found){ 0, YYCURSOR, NULL };
}

/* Writes what was found as the line of a word does. */
static void write_line(char *line, const unsigned char *text, struct found found)
{
	if (found.rule == 0)
		sprintf(line, "none 0 %d", (int)(found.end - text));
	else if (found.dot)
		sprintf(line, "rule %d 0 %d dot=%d", found.rule, (int)(found.end - text), (int)(found.dot - text));
	else
		sprintf(line, "rule %d 0 %d", found.rule, (int)(found.end - text));
}

int main(void)
{
	char line[512], told[64];
	int words = 0, differ = 0;

	while (fgets(line, sizeof line, stdin)) {
		unsigned char text[64] = { 0 };
		const char *wanted = strstr(line, " : ");
		char *at = line;
		size_t count = 0;

		line[strcspn(line, "\n")] = 0;
		if (!wanted)
			continue; /* the line of the scanner */
		while (*at == '0' && count < sizeof text - 1) {
			text[count++] = (unsigned char)strtoul(at, &at, 16);
			at++;
		}
		write_line(told, text, number(text, text + count));
		words++;
		if (strcmp(told, wanted + 3) != 0) {
			printf("%s, but it gives %s\n", line, told);
			differ++;
		}
	}
	printf("%d words, %d differ\n", words, differ);
	return differ != 0;
}
