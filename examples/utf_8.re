/* Prints the name of each currency sign of a text in UTF-8, one on each line, and `.` for each byte of anything else. */
#include <stdio.h>

#define YYCTYPE unsigned char

/* What stands at a place, behind which the scanner leaves the place. */
static const char *sign(const unsigned char **at)
{
	const unsigned char *YYCURSOR = *at, *YYMARKER;

	/*!re2c
	re2c:yyfill:enable = 0;

	"$"          { *at = YYCURSOR; return "dollar"; }
	"\u00A3"     { *at = YYCURSOR; return "pound"; }
	"\u20AC"     { *at = YYCURSOR; return "euro"; }
	"\U0001F4B0" { *at = YYCURSOR; return "money bag"; }
	*            { *at = YYCURSOR; return "."; }
	*/
	return "none";
}

int main(void)
{
	/* a dollar, a pound, a yen of two bytes, a euro, a money bag of four bytes, and the beginning of another one */
	static const unsigned char text[] = "$\xC2\xA3\xC2\xA5\xE2\x82\xAC\xF0\x9F\x92\xB0\xF0\x9F";
	const unsigned char *at = text;

	while (at != text + sizeof text - 1) {
		printf("%s\n", sign(&at));
	}
	return 0;
}
