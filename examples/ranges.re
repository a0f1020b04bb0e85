/* Prints the numbers, ranges, names and calls of a text: trailing contexts tell a number before `..` from `1.`, and a name before `(`. */
#include <stdio.h>

#define YYCTYPE unsigned char

enum kind { END, NUMBER, FRACTION, RANGE, CALL, NAME, BLANK, OTHER };

/* What stands at a place, behind which the scanner leaves the place. */
static enum kind token(const unsigned char **at)
{
	const unsigned char *YYCURSOR = *at, *YYMARKER, *YYCTXMARKER;
	/*!stags:re2c format = "const unsigned char *@@;"; separator = " "; */

	/*!re2c
	re2c:yyfill:enable = 0;
	digits = [0-9]+;
	name = [A-Za-z_][A-Za-z_0-9]*;
	blanks = [ \t\n]+;

	"\x00"              { *at = YYCURSOR; return END; }
	digits              { *at = YYCURSOR; return NUMBER; }
	digits / ".."       { *at = YYCURSOR; return NUMBER; /* the next one begins with the dots */ }
	digits "." digits?  { *at = YYCURSOR; return FRACTION; }
	".."                { *at = YYCURSOR; return RANGE; }
	name / blanks? "("  { *at = YYCURSOR; return CALL; }
	name                { *at = YYCURSOR; return NAME; }
	blanks              { *at = YYCURSOR; return BLANK; }
	*                   { *at = YYCURSOR; return OTHER; }
	*/
	return OTHER;
}

int main(void)
{
	static const char *const names[] = { "end", "number", "fraction", "range", "call", "name", "blank", "other" };
	static const unsigned char text[] = "1..25 3.5 4. f(x) g  (y)";
	const unsigned char *at = text, *start;
	enum kind kind;

	do {
		start = at;
		kind = token(&at);
		if (kind != BLANK && kind != OTHER)
			printf("%s:%d-%d\n", names[kind], (int)(start - text), (int)(at - text));
	} while (kind != END);
	return 0;
}
