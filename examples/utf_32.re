/* Prints a letter for each code point or pair of a text in UTF-32, one on each line. */
#include <stdio.h>

#define YYCTYPE unsigned int

/* The letter of what stands at a place, behind which the scanner leaves the place. */
static char letter(const unsigned int **at)
{
	const unsigned int *YYCURSOR = *at;

	/*!re2c
	re2c:yyfill:enable = 0;

	"e\u0301"    { *at = YYCURSOR; return 'a'; /* an accent on a letter */ }
	"e"          { *at = YYCURSOR; return 'e'; }
	"\U0001F600" { *at = YYCURSOR; return 'f'; /* a face */ }
	"\U0010FFFF" { *at = YYCURSOR; return 'l'; /* the last code point */ }
	*            { *at = YYCURSOR; return '?'; }
	*/
	return '-';
}

int main(void)
{
	static const unsigned int text[] = { 'e', 0x301, 'e', 'e', 0x1F600, 0x301, 0x10FFFF, 0x110000, 0xFFFFFFFF, 0 };
	const unsigned int *at = text;

	while (*at != 0) {
		printf("%c\n", letter(&at));
	}
	return 0;
}
