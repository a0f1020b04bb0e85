/* Prints the sign that each operator of a text has, one on each line; its scanner stands between two macros. */
#include <stdio.h>

#define YYCTYPE unsigned char
#define SCANNER(NAME) static char NAME(const unsigned char **at) { const unsigned char *YYCURSOR = *at, *YYMARKER;
#define FOUND(SIGN) do { *at = YYCURSOR; return SIGN; } while (0)
#define SCANNER_END return '?'; }

SCANNER(sign) /*!re2c
	re2c:yyfill:enable = 0;
	equals = "=";
	"<"          { FOUND('l'); }
	"<" equals   { FOUND('L'); }
	"<<" equals  { FOUND('s'); /* needs one unit more than "<" */ }
	equals       { FOUND('a'); }
	* { FOUND('?'); }
*/ SCANNER_END

int main(void)
{
	static const unsigned char text[] = "<=<<=<<=!";
	const unsigned char *at = text;

	while (at != text + sizeof text - 1) {
		printf("%c\n", sign(&at));
	}
	return 0;
}
