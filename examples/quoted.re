/* Prints the numbers of the rules that are met in a text, one on each line: 2, 3 and 1. */
#include <stdio.h>

#define YYCTYPE unsigned char

static const unsigned char *YYCURSOR;

static int next_rule(void)
{
/*!re2c
re2c:yyfill:enable = 0;
"if" { return 1; }
"ifx" { return 2; }
* { return 3; }
*/
	return 0;
}

int main(void)
{
	static const unsigned char text[] = "ifx if";
	const unsigned char *end = text + sizeof text - 1;

	YYCURSOR = text;
	while (YYCURSOR != end) {
		printf("%d\n", next_rule());
	}
	return 0;
}
