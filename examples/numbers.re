/* Prints what stands in a list and in a sum: two scanners share the rules of numbers, which another file has. */
#include <stdio.h>

#define YYCTYPE unsigned char

enum kind { END, OCTAL, DECIMAL, HEXADECIMAL, FRACTION, COMMA, NAME, SIGN, OTHER };

/*!include:re2c "shared_rules.re" */

/* What stands at a place of a list, behind which the scanner leaves the place. */
static enum kind of_list(const unsigned char **at)
{
	const unsigned char *YYMARKER;

	/*!use:re2c
	"\x00"        { return END; }
	"," " "*      { return COMMA; }
	*             { return OTHER; }
	*/
	return OTHER;
}

/* The same of a sum, which has names and signs too. */
static enum kind of_sum(const unsigned char **at)
{
	const unsigned char *YYMARKER;

	/*!use:re2c
	"\x00"             { return END; }
	[a-z] [a-z0-9]*    { return NAME; }
	[-+]               { return SIGN; }
	*                  { return OTHER; }
	*/
	return OTHER;
}

static void print(enum kind (*token)(const unsigned char **), const char *text)
{
	static const char *const names[] = { "end", "octal", "decimal", "hexadecimal", "fraction", "comma", "name", "sign", "other" };
	const unsigned char *begin = (const unsigned char *)text, *at = begin, *start;
	enum kind kind;

	do {
		start = at;
		kind = token(&at);
		printf("%s:%d-%d\n", names[kind], (int)(start - begin), (int)(at - begin));
	} while (kind != END);
}

int main(void)
{
	print(of_list, "7, 0x1F,017,2.50, x");
	print(of_sum, "x2+0.5-0Xa9+08");
	return 0;
}
