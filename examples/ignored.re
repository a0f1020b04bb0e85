/* Prints the signs of a sum. A block that is ignored holds what the block was before; nothing is asked of what stands in it. */
#include <stdio.h>

#define YYCTYPE unsigned char

/*!ignore:re2c
The rules were these, of which the last is not whole:
	[0-9]    { return DIGIT; }
	"+"      { return
*/

enum kind { END, NUMBER, SIGN, OTHER };

static enum kind sign(const unsigned char **at)
{
	const unsigned char *YYCURSOR = *at;
	enum kind kind;

	/*!re2c
	re2c:yyfill:enable = 0;

	"\x00"     { kind = END; goto found; }
	[0-9]+     { kind = NUMBER; goto found; }
	[-+]       { kind = SIGN; goto found; }
	*          { kind = OTHER; goto found; }
	*/
	return OTHER;
found:
	*at = YYCURSOR;
	return kind;
}

int main(void)
{
	static const char *const names[] = { "end", "number", "sign", "other" };
	static const unsigned char text[] = "12+345-x";
	static const enum kind wanted[] = { NUMBER, SIGN, NUMBER, SIGN, OTHER, END };
	const unsigned char *at = text;
	int count = 0;
	enum kind kind;

	do {
		int start = (int)(at - text);

		kind = sign(&at);
		printf("%s:%d-%d\n", names[kind], start, (int)(at - text));
		if (kind != wanted[count++])
			return 1;
	} while (kind != END);
	return 0;
}
