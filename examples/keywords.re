/* Prints for each word of a text what it is: a keyword by its number, or the letters of something else. */
#include <stdio.h>

#define YYCTYPE unsigned char

static const unsigned char *next; /* where the scanner goes on */

/* The number of the keyword that is met, or 0 for one letter of anything else. */
static int keyword(void)
{
	const unsigned char *YYCURSOR = next;
	const unsigned char *YYMARKER;

	/*!re2c
	re2c:yyfill:enable = 0;

	// what all loops begin with
	loop = "while";

	"if"       { next = YYCURSOR; return 1; }
	"else"     { next = YYCURSOR; return 2; }
	"else if"  { next = YYCURSOR; return 3; /* the longest one counts */ }
	loop       { next = YYCURSOR; return 4; }
	"do " loop { next = YYCURSOR; return 5; }
	*          { next = YYCURSOR; return 0; }
	*/
	return -1;
}

int main(void)
{
	static const unsigned char text[] = "if else if else while do while do";
	const unsigned char *end = text + sizeof text - 1;

	next = text;
	while (next != end) {
		const unsigned char *start = next;
		int number = keyword();

		if (number != 0) {
			printf("%d\n", number);
		} else if (*start != ' ') {
			printf("%c\n", *start);
		}
	}
	return 0;
}
