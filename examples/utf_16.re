/* Prints how many units of UTF-16 each musical sign of a text has, one on each line, and 0 for a unit of anything else. */
#include <stdio.h>

typedef unsigned short YYCTYPE;

/* How many units the sign at a place has, behind which the scanner leaves the place. */
static int sign(const YYCTYPE **at)
{
	const YYCTYPE *start = *at, *YYCURSOR = start;

	/*!re2c
	re2c:yyfill:enable = 0;
	flat = "\u266D";
	clef = "\U0001D11E";

	flat      { *at = YYCURSOR; return (int)(YYCURSOR - start); }
	flat flat { *at = YYCURSOR; return (int)(YYCURSOR - start); }
	clef      { *at = YYCURSOR; return (int)(YYCURSOR - start); }
	clef flat { *at = YYCURSOR; return (int)(YYCURSOR - start); }
	*         { *at = YYCURSOR; return 0; }
	*/
	return -1;
}

int main(void)
{
	/* a flat, a sharp, a clef with a flat, a clef, the first unit of a clef, and two flats */
	static const YYCTYPE text[] = { 0x266D, 0x266F, 0xD834, 0xDD1E, 0x266D, 0xD834, 0xDD1E, 0xD834, 0x266D, 0x266D, 0 };
	const YYCTYPE *at = text;

	while (*at != 0) {
		printf("%d\n", sign(&at));
	}
	return 0;
}
