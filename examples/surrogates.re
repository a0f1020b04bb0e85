/* Prints what the letters of a text in UTF-8 are. A surrogate in a rule stands for U+FFFD, and one in the text is no letter. Compile it with
   -8 --encoding-policy substitute. */
#include <stdio.h>

#define YYCTYPE unsigned char

enum kind { END, SMALL, REPLACED, LETTER, WRONG };

static enum kind letter(const unsigned char **at)
{
	const unsigned char *YYCURSOR = *at, *YYMARKER;
	enum kind kind;

	/*!re2c
	re2c:yyfill:enable = 0;

	"\x00"      { kind = END; goto found; }
	[a-z]       { kind = SMALL; goto found; }
	"\uD800"    { kind = REPLACED; goto found; }
	[^]         { kind = LETTER; goto found; }
	*           { kind = WRONG; goto found; }
	*/
	return WRONG;
found:
	*at = YYCURSOR;
	return kind;
}

int main(void)
{
	static const char *const names[] = { "end", "small", "replaced", "letter", "wrong" };
	/* an a, U+FFFD, a euro sign, U+D800 as three bytes, and a z */
	static const unsigned char text[] = "a\xEF\xBF\xBD\xE2\x82\xAC\xED\xA0\x80z";
	static const enum kind wanted[] = { SMALL, REPLACED, LETTER, WRONG, WRONG, WRONG, SMALL, END };
	const unsigned char *at = text;
	int count = 0;
	enum kind kind;

	do {
		int start = (int)(at - text);

		kind = letter(&at);
		printf("%s:%d-%d\n", names[kind], start, (int)(at - text));
		if (kind != wanted[count++])
			return 1;
	} while (kind != END);
	return 0;
}
