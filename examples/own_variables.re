/* Prints the numbers of a list, for a parser whose header has the names yych and yyaccept already: the scanner's two variables have
   others. */
#include <stdio.h>

#define YYCTYPE unsigned char

/* What a step of the parser did, and the letter that it waits for. */
enum step { yyaccept, yyshift, yyerror };
static const unsigned char yych = ',';

static enum step step(const unsigned char **at)
{
	const unsigned char *YYCURSOR = *at, *YYMARKER;

	/*!re2c
	re2c:yyfill:enable = 0;
	re2c:variable:yych = unit;
	re2c:variable:yyaccept = accepted;
	digits = [0-9]+;

	"\x00"                          { *at = YYCURSOR; return yyaccept; }
	digits | digits "." digits      { *at = YYCURSOR; return yyshift; }
	","                             { if (YYCURSOR[-1] != yych) return yyerror; *at = YYCURSOR; return yyshift; }
	*                               { return yyerror; }
	*/
	return yyerror;
}

int main(void)
{
	static const unsigned char text[] = "1.5,22.,7", good[] = "1.5,22,7";
	static const enum step wanted[] = { yyshift, yyshift, yyshift, yyerror };
	const unsigned char *at = text;
	enum step found;
	int count = 0;

	do {
		int start = (int)(at - text);

		found = step(&at);
		printf("%s:%d-%d\n", found == yyshift ? "shift" : found == yyaccept ? "accept" : "error", start, (int)(at - text));
		if (found != wanted[count++])
			return 1;
	} while (found == yyshift);
	for (at = good; (found = step(&at)) == yyshift;)
		;
	printf("%s:%d\n", found == yyaccept ? "accept" : "error", (int)(at - good));
	return found != yyaccept;
}
