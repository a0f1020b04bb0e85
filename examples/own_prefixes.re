/* Prints the names and the values of a list. Labels and numbers of conditions and the scanner's registers have prefixes of the program's own,
   and actions jump to such a label. Compile it with -c -T. */
#include <stdio.h>
#include <string.h>

#define YYCTYPE unsigned char

enum { IN_name, IN_value };

#define YYGETCONDITION() condition
#define YYSETCONDITION(name) condition = name

/* Prints a part of the list, and looks whether it is the one that is wanted next. */
static int is_next(const char *const **wanted, const unsigned char *from, const unsigned char *to)
{
	size_t size = (size_t)(to - from);

	printf("%.*s\n", (int)size, (const char *)from);
	return **wanted && strlen(**wanted) == size && memcmp(*(*wanted)++, from, size) == 0;
}

static int list(const unsigned char *YYCURSOR, const char *const *wanted)
{
	const unsigned char *YYMARKER, *from, *to;
	int condition = IN_name;
	/*!stags:re2c format = "const unsigned char *@@;"; separator = "\n\t"; */

	/*!re2c
	re2c:yyfill:enable = 0;
	re2c:condprefix = at_;
	re2c:condenumprefix = IN_;
	re2c:tags:prefix = place;
	blank = [ \t]*;
	word = [a-z]+;

	<name> blank @from word @to blank "="              { if (!is_next(&wanted, from, to)) return 0; yyaccept = 0; goto at_value; }
	<name> blank "\x00"                                { return !*wanted; }
	<value> blank @from [0-9]+ ("." [0-9]+)? @to ";"?  { if (!is_next(&wanted, from, to)) return 0; yyaccept = 0; goto at_name; }
	<value> blank @from word @to                       { if (!is_next(&wanted, from, to)) return 0; yyaccept = 0; goto at_name; }
	<name, value> *                                    { return 0; }
	*/
	return 0;
}

int main(void)
{
	static const char *const wanted[] = { "width", "80", "ratio", "1.5", "colour", "red", NULL };

	return !list((const unsigned char *)"width = 80; ratio=1.5 colour =red", wanted) || list((const unsigned char *)"width = ;", wanted);
}
