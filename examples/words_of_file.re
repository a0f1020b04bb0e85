/* Prints the words and strings of a file, which is read through a buffer of 16 bytes; at the end of the input stands a rule of its own. */
#include <stdio.h>
#include <string.h>

#define YYCTYPE unsigned char
#define YYFILL() fill(input)
#define SIZE 16

struct input {
	FILE *file;
	unsigned char buffer[SIZE + 1]; /* one more for the unit at the end */
	unsigned char *token, *cursor, *marker, *limit;
	long before; /* how many bytes of the file were dropped from the buffer */
	int too_long; /* whether a token did not fit into the buffer */
};

enum kind { END, WORD, STRING, BLANK, OTHER };

static void begin(struct input *input, FILE *file)
{
	input->file = file;
	input->token = input->cursor = input->marker = input->limit = input->buffer;
	*input->limit = 0;
	input->before = 0;
	input->too_long = 0;
}

/* Drops what stands before the token, and reads what fits behind the rest; 0 where there was more. */
static int fill(struct input *input)
{
	size_t dropped = (size_t)(input->token - input->buffer), kept = (size_t)(input->limit - input->token), added;

	if (kept == SIZE) {
		input->too_long = 1;
		return 1;
	}
	memmove(input->buffer, input->token, kept);
	added = fread(input->buffer + kept, 1, SIZE - kept, input->file);
	input->token -= dropped;
	input->cursor -= dropped;
	if (input->marker >= input->buffer + dropped)
		input->marker -= dropped;
	input->limit = input->buffer + kept + added;
	*input->limit = 0;
	input->before += (long)dropped;
	return added == 0;
}

static enum kind token(struct input *input)
{
	input->token = input->cursor;
	/*!re2c
	re2c:eof = 0;
	re2c:define:YYCURSOR = "input->cursor";
	re2c:define:YYMARKER = "input->marker";
	re2c:define:YYLIMIT = "input->limit";

	$                     { return END; }
	[a-z]+ ("-" [a-z]+)*  { return WORD; }
	["] [^"\n]* ["]       { return STRING; }
	[ \n]+                { return BLANK; }
	*                     { return OTHER; /* also a zero byte that is not the end */ }
	*/
	return OTHER;
}

int main(void)
{
	static const char *const names[] = { "end", "word", "string", "blank", "other" };
	static const char text[] = "a well-known \"file\" has\nmore than one-\0\"buffer";
	FILE *file = tmpfile();
	struct input input;
	enum kind kind;

	if (!file || fwrite(text, 1, sizeof text - 1, file) != sizeof text - 1)
		return 1;
	rewind(file);
	begin(&input, file);
	do {
		kind = token(&input);
		if (kind != BLANK) {
			long start = input.before + (long)(input.token - input.buffer), end = input.before + (long)(input.cursor - input.buffer);

			printf("%s:%ld-%ld\n", names[kind], start, end);
		}
	} while (kind != END && !input.too_long);
	fclose(file);
	return input.too_long;
}
