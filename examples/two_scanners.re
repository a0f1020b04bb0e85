/* Two scanners in one file: the second one uses a name of the first. */
#include <stdio.h>

#define YYCTYPE unsigned char

/* How many bytes open a comment of one line or a string. */
static int opener(const unsigned char *YYCURSOR)
{
	/*!re2c
	re2c:yyfill:enable = 0;
	slashes = "//";
	slashes { return 2; }
	"\""    { return 1; }
	*       { return 0; }
	*/
	return -1;
}

/* How many bytes open a comment of one line, or a banner of four slashes and `!`. */
static int banner(const unsigned char *YYCURSOR)
{
	const unsigned char *YYMARKER;

	/*!re2c
	slashes slashes "\x21" { return 5; }
	slashes                { return 2; }
	*                      { return 0; }
	*/
	return -1;
}

int main(void)
{
	static const char *texts[] = { "//!", "\"a\"", "////!", "///", "x" };
	int at;

	for (at = 0; at < 5; at++) {
		const unsigned char *text = (const unsigned char *)texts[at];

		printf("%d\n%d\n", opener(text), banner(text));
	}
	return 0;
}
