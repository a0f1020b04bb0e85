/* Prints which script the words of a text in UCS-2 are in; each unit is a letter of its own. Compile it with -w. */
#include <stdio.h>

typedef unsigned short YYCTYPE;

enum kind { END, LATIN, GREEK, CYRILLIC, BLANK, SURROGATE, OTHER };

static enum kind word(const YYCTYPE **at)
{
	const YYCTYPE *YYCURSOR = *at;
	enum kind kind;

	/*!re2c
	re2c:yyfill:enable = 0;

	"\x00"                 { kind = END; goto found; }
	[A-Za-z\xC0-\u024F]+   { kind = LATIN; goto found; }
	[\u0370-\u03FF]+       { kind = GREEK; goto found; }
	[\u0400-\u04FF]+       { kind = CYRILLIC; goto found; }
	" "+                   { kind = BLANK; goto found; }
	[\uD800-\uDFFF]        { kind = SURROGATE; goto found; }
	*                      { kind = OTHER; goto found; }
	*/
	return OTHER;
found:
	*at = YYCURSOR;
	return kind;
}

int main(void)
{
	static const char *const names[] = { "end", "latin", "greek", "cyrillic", "blank", "surrogate", "other" };
	/* caf and an acute e, logos, da, a clef, which is two surrogates, and the last unit that there is */
	static const YYCTYPE text[] = { 'c', 'a', 'f', 0xE9, ' ', 0x3BB, 0x3CC, 0x3B3, 0x3BF, 0x3C2, 0x434, 0x430, 0xD834, 0xDD1E, 0xFFFF, 0 };
	static const enum kind wanted[] = { LATIN, BLANK, GREEK, CYRILLIC, SURROGATE, SURROGATE, OTHER, END };
	const YYCTYPE *at = text;
	int count = 0;
	enum kind kind;

	do {
		int start = (int)(at - text);

		kind = word(&at);
		printf("%s:%d-%d\n", names[kind], start, (int)(at - text));
		if (kind != wanted[count++])
			return 1;
	} while (kind != END);
	return 0;
}
