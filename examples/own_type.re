/* Prints the words of a text. The type of a code unit is configured, so the program declares no YYCTYPE. */
#include <stdio.h>

enum kind { END, WORD, OTHER };

static enum kind word(const unsigned char **at)
{
	const unsigned char *YYCURSOR = *at;
	enum kind kind;

	/*!re2c
	re2c:yyfill:enable = 0;
	re2c:define:YYCTYPE = "unsigned char";

	"\x00"                { kind = END; goto found; }
	[a-z\x80-\xFF]+       { kind = WORD; goto found; }
	*                     { kind = OTHER; goto found; }
	*/
	return OTHER;
found:
	*at = YYCURSOR;
	return kind;
}

int main(void)
{
	static const char *const names[] = { "end", "word", "other" };
	static const unsigned char text[] = "caf\xC3\xA9 ol\xC3\xA9";
	static const enum kind wanted[] = { WORD, OTHER, WORD, END };
	const unsigned char *at = text;
	int count = 0;
	enum kind kind;

	do {
		int start = (int)(at - text);

		kind = word(&at);
		printf("%s:%d-%d\n", names[kind], start, (int)(at - text));
		if (kind != wanted[count++])
			return 1;
	} while (kind != END);
	return 0;
}
