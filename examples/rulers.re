/* Prints what the lines of a text are: some are made of three signs or more, with no greatest number. */
#include <stdio.h>

#define YYCTYPE unsigned char

enum kind { END, HEADING, RULER, FENCE, LINE, OTHER };

static enum kind line(const unsigned char **at)
{
	const unsigned char *YYCURSOR = *at, *YYMARKER;
	enum kind kind;

	/*!re2c
	re2c:yyfill:enable = 0;
	letter = [^\n\x00];

	"\x00"                                      { kind = END; goto found; }
	"#"{1,6} " " letter+ "\n"                   { kind = HEADING; goto found; }
	("-"{3,} | "*"{3,} | "_"{3,}) " "* "\n"     { kind = RULER; goto found; }
	"`"{3,} [a-z]* "\n"                         { kind = FENCE; goto found; }
	letter* "\n"                                { kind = LINE; goto found; }
	*                                           { kind = OTHER; goto found; }
	*/
	return OTHER;
found:
	*at = YYCURSOR;
	return kind;
}

int main(void)
{
	static const char *const names[] = { "end", "heading", "ruler", "fence", "line", "other" };
	static const unsigned char text[] = "## two\n--\n---\n------------ \n-*-\n####### seven\n```c\n``\n\n";
	static const enum kind wanted[] = { HEADING, LINE, RULER, RULER, LINE, LINE, FENCE, LINE, LINE, END };
	const unsigned char *at = text;
	int count = 0;
	enum kind kind;

	do {
		kind = line(&at);
		printf("%s:%d\n", names[kind], (int)(at - text));
		if (kind != wanted[count++])
			return 1;
	} while (kind != END);
	return 0;
}
