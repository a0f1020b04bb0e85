/* Prints the words and strings of a program and passes over its comments, each by a condition of its own. Compile it with -c. */
#include <stdio.h>

#define YYCTYPE unsigned char

/*!types:re2c*/

struct input {
	const unsigned char *token, *cursor, *marker, *limit;
	enum YYCONDTYPE condition;
};

enum kind { END, UNCLOSED, WORD, TEXT, ESCAPE, SIGN };

#define YYGETCONDITION() input->condition
#define YYSETCONDITION(name) input->condition = name

static enum kind token(struct input *input)
{
begin:
	input->token = input->cursor;
	/*!re2c
	re2c:yyfill:enable = 0;
	re2c:eof = 0;
	re2c:define:YYCURSOR = "input->cursor";
	re2c:define:YYMARKER = "input->marker";
	re2c:define:YYLIMIT = "input->limit";

	<code> "/*"                  :=> comment
	<code> "\""                  => string { goto begin; }
	<code> [a-z]+                { return WORD; }
	<code> [ \n]+                { goto begin; }
	<code> $                     { return END; }

	<comment> "*/"               => code { goto begin; }
	<comment> *                  :=> comment

	<string> "\""                => code { goto begin; }
	<string> [^"\\\n]+           { return TEXT; }
	<string> "\\" [^\n]          { return ESCAPE; }
	<string> "\n"                => code { return UNCLOSED; }

	<code, string> *             { return SIGN; }
	<comment, string> $          => code { return UNCLOSED; }
	*/
	return UNCLOSED;
}

int main(void)
{
	static const char *const names[] = { "end", "unclosed", "word", "text", "escape", "sign" };
	static const unsigned char text[] = "say /* not \"this\" **/ \"a /* b\\n\"; /**/ stop \"no\n/*";
	struct input input;
	enum kind kind;

	input.cursor = input.marker = text;
	input.limit = text + sizeof text - 1;
	input.condition = yyccode;
	do {
		kind = token(&input);
		printf("%s:%d-%d\n", names[kind], (int)(input.token - text), (int)(input.cursor - text));
	} while (kind != END);
	return 0;
}
