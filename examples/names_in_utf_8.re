/* Prints the names of a text in UTF-8, with the offsets of their bytes: letters are those of Unicode. Compile it with -8. */
#include <stdio.h>

#define YYCTYPE unsigned char

/*!include:re2c "unicode_letters.re" */

/* Whether a name stands at a place, behind which the scanner leaves the place. */
static int name(const unsigned char **at)
{
	const unsigned char *YYCURSOR = *at, *YYMARKER;

	/*!re2c
	re2c:yyfill:enable = 0;

	(xid_start | "_") xid_continue*    { *at = YYCURSOR; return 1; }
	[^]                                { *at = YYCURSOR; return 0; /* one code point of anything else */ }
	*                                  { *at = YYCURSOR; return 0; /* a byte that begins none */ }
	*/
	return 0;
}

int main(void)
{
	/* a name with two letters of two bytes, an arrow, a name in Cyrillic with a digit, a name of one letter of four bytes (a deseret
	   letter), a musical sign of four bytes, an accent without a letter, the same accent in a name, and the first byte of a letter */
	static const unsigned char text[] =
		"gr\xC3\xB6\xC3\x9F" "e_1 \xE2\x86\x92 \xD1\x85\xD0\xB5" "2 \xF0\x90\x90\x80 \xF0\x9D\x84\x9E \xCC\x81 e\xCC\x81x\xC3";
	const unsigned char *at = text, *start;

	while (at != text + sizeof text - 1) {
		start = at;
		if (name(&at))
			printf("%d-%d\n", (int)(start - text), (int)(at - text));
	}
	return 0;
}
