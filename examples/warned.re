/* Prints the words and numbers of a text, by rules of which three warnings tell where -W is given: a rule is never chosen, a rule matches the
   empty string, and some inputs have no rule. The program knows of the last two: it never asks for a word where none stands. */
#include <stdio.h>

#define YYCTYPE unsigned char

enum kind { NONE, IF, ELSE, WORD, NUMBER };

static enum kind word(const unsigned char **at)
{
	const unsigned char *YYCURSOR = *at;

	/*!re2c
	re2c:yyfill:enable = 0;

	"if"       { *at = YYCURSOR; return IF; }
	[a-z]+     { *at = YYCURSOR; return WORD; }
	"else"     { *at = YYCURSOR; return ELSE; }
	*/
	return NONE;
}

static enum kind number(const unsigned char **at)
{
	const unsigned char *YYCURSOR = *at;

	/*!re2c
	[0-9]*     { *at = YYCURSOR; return NUMBER; }
	*/
	return NONE;
}

int main(void)
{
	static const char *const names[] = { "none", "if", "else", "word", "number" };
	static const unsigned char text[] = "if12else345x";
	static const enum kind wanted[] = { IF, NUMBER, WORD, NUMBER, WORD, NUMBER };
	const unsigned char *at = text;
	int count = 0;

	while (count < 6) {
		int start = (int)(at - text);
		enum kind kind;

		kind = count % 2 == 0 ? word(&at) : number(&at); /* behind a word there is a number, which may be empty */
		printf("%s:%d-%d\n", names[kind], start, (int)(at - text));
		if (kind != wanted[count++])
			return 1;
	}
	return *at != 0;
}
