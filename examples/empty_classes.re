/* Prints the forms of numbers in a text. A class without points matches nothing, so one form is switched off by its definition. Compile it
   with --empty-class match-none. */
#include <stdio.h>

#define YYCTYPE unsigned char

enum kind { END, NUMBER, GROUPED, OTHER };

static enum kind form(const unsigned char **at)
{
	const unsigned char *YYCURSOR = *at;
	enum kind kind;

	/*!re2c
	re2c:yyfill:enable = 0;
	digit = [0-9];
	mark = [_'] \ [_']; // no mark groups the digits of a number

	"\x00"                    { kind = END; goto found; }
	digit+                    { kind = NUMBER; goto found; }
	digit+ (mark digit{3})+   { kind = GROUPED; goto found; }
	*                         { kind = OTHER; goto found; }
	*/
	return OTHER;
found:
	*at = YYCURSOR;
	return kind;
}

int main(void)
{
	static const char *const names[] = { "end", "number", "grouped", "other" };
	static const unsigned char text[] = "1_000 25000";
	static const enum kind wanted[] = { NUMBER, OTHER, NUMBER, OTHER, NUMBER, END };
	const unsigned char *at = text;
	int count = 0;
	enum kind kind;

	do {
		int start = (int)(at - text);

		kind = form(&at);
		printf("%s:%d-%d\n", names[kind], start, (int)(at - text));
		if (kind != wanted[count++])
			return 1;
	} while (kind != END);
	return 0;
}
