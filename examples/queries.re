/* Prints the words of a query: those in single quotes count in capital and in small letters, the one in double quotes as it stands. */
#include <stdio.h>

#define YYCTYPE unsigned char

enum kind { END, SELECT, FROM, WHERE, MARK, NAME, BLANK, OTHER };

static enum kind word(const unsigned char **at)
{
	const unsigned char *YYCURSOR = *at;
	enum kind kind;

	/*!re2c
	re2c:yyfill:enable = 0;

	"\x00"           { kind = END; goto found; }
	'select'         { kind = SELECT; goto found; }
	'from'           { kind = FROM; goto found; }
	'where'          { kind = WHERE; goto found; }
	"N'"             { kind = MARK; goto found; }
	[A-Za-z_]+       { kind = NAME; goto found; }
	" "+             { kind = BLANK; goto found; }
	*                { kind = OTHER; goto found; }
	*/
	return OTHER;
found:
	*at = YYCURSOR;
	return kind;
}

int main(void)
{
	static const char *const names[] = { "end", "select", "from", "where", "mark", "name", "blank", "other" };
	static const unsigned char text[] = "Select x FROM selected wherE y=N'z' n'";
	static const enum kind wanted[] = { SELECT, NAME, FROM, NAME, WHERE, NAME, OTHER, MARK, NAME, OTHER, NAME, OTHER, END };
	const unsigned char *at = text;
	int count = 0;
	enum kind kind;

	do {
		int start = (int)(at - text);

		kind = word(&at);
		if (kind == BLANK)
			continue;
		printf("%s:%d-%d\n", names[kind], start, (int)(at - text));
		if (kind != wanted[count++])
			return 1;
	} while (kind != END);
	return 0;
}
