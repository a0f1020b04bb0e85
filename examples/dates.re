/* Prints the dates in a text, day first: the tags tell where the month and the day begin. Compile it with -T. */
#include <stdio.h>

#define YYCTYPE unsigned char

static const unsigned char *next; /* where the scanner goes on */

/* Passes a date and prints it, or passes one letter of anything else. */
static void date(void)
{
	const unsigned char *YYCURSOR = next;
	const unsigned char *YYMARKER;
	const unsigned char *yyt1, *yyt2; /* what holds the tags on the way */
	const unsigned char *month, *day;

	/*!re2c
	re2c:yyfill:enable = 0;
	two = [0-9]{2};

	two{2} "-" @month two "-" @day two {
		printf("%.2s.%.2s.%.4s\n", (const char *)day, (const char *)month, (const char *)next);
		next = YYCURSOR;
		return;
	}
	* { next = YYCURSOR; return; }
	*/
}

int main(void)
{
	static const unsigned char text[] = "from 2024-12-24 to 2025-1-6, or 2025-01-31";
	const unsigned char *end = text + sizeof text - 1;

	next = text;
	while (next != end)
		date();
	return 0;
}
