/* Prints the words of a text with the numbers of their lines: some rules hold in code and in comments alike. Compile it with -c. */
#include <stdio.h>

#define YYCTYPE unsigned char

/*!types:re2c*/

struct input {
	const unsigned char *token, *cursor, *marker, *limit;
	enum YYCONDTYPE condition;
	int line;
};

enum kind { END, WORD };

#define YYGETCONDITION() input->condition
#define YYSETCONDITION(name) input->condition = name

static enum kind token(struct input *input)
{
begin:
	input->token = input->cursor;
	/*!re2c
	re2c:yyfill:enable = 0;
	re2c:eof = 0;
	re2c:define:YYCURSOR = "input->cursor";
	re2c:define:YYMARKER = "input->marker";
	re2c:define:YYLIMIT = "input->limit";

	<code> [a-z]+      { return WORD; }
	<code> "/*"        => comment { goto begin; }
	<comment> "*/"     => code { goto begin; }

	<*> "\n"           { input->line++; goto begin; }
	<*> *              { goto begin; }
	<*> $              { return END; }
	*/
	return END;
}

int main(void)
{
	static const unsigned char text[] = "one /* two\nthree\n*/ four\n\n/* five */six /*\n";
	static const struct {
		int line, start, end;
	} wanted[] = { { 1, 0, 3 }, { 3, 20, 24 }, { 5, 36, 39 }, { 6, 43, 43 } };
	struct input input;
	enum kind kind;
	int count = 0;

	input.cursor = input.marker = text;
	input.limit = text + sizeof text - 1;
	input.condition = yyccode;
	input.line = 1;
	do {
		int start, end;

		kind = token(&input);
		start = (int)(input.token - text);
		end = (int)(input.cursor - text);
		printf("%s:%d:%d-%d\n", kind == WORD ? "word" : "end", input.line, start, end);
		if (input.line != wanted[count].line || start != wanted[count].start || end != wanted[count].end)
			return 1;
		count++;
	} while (kind != END);
	return count != 4;
}
