/* Prints where the name and the value of each setting of a file stand; what holds the tags moves with the buffer. Compile it with -T. */
#include <stdio.h>
#include <string.h>

#define YYCTYPE unsigned char
#define SIZE 24 /* longer than each line */

struct input {
	FILE *file;
	unsigned char buffer[SIZE + 1]; /* one more for the unit at the end */
	unsigned char *token, *cursor, *marker, *limit;
	long before; /* how many bytes of the file were dropped from the buffer */
};

enum kind { END, SETTING, FAULT };

/*!stags:re2c format = "static unsigned char *@@;"; separator = "\n"; */
static unsigned char *name_end, *value, *value_end;

static void begin(struct input *input, FILE *file)
{
	input->file = file;
	input->token = input->cursor = input->marker = input->limit = input->buffer;
	*input->limit = 0;
	input->before = 0;
}

/* Moves a place of the match, not one that is left from an earlier match. */
static void move(unsigned char **place, const unsigned char *token, size_t dropped)
{
	if (*place && *place >= token)
		*place -= dropped;
}

/* Drops what stands before the token, and reads what fits behind the rest; 0 where there was more. */
static int fill(struct input *input)
{
	unsigned char *token = input->token;
	size_t dropped = (size_t)(token - input->buffer), kept = (size_t)(input->limit - token), added;

	memmove(input->buffer, token, kept);
	added = fread(input->buffer + kept, 1, SIZE - kept, input->file);
	move(&input->token, token, dropped);
	move(&input->cursor, token, dropped);
	move(&input->marker, token, dropped);
	/*!stags:re2c format = "move(&@@, token, dropped);"; separator = "\n\t"; */
	input->limit = input->buffer + kept + added;
	*input->limit = 0;
	input->before += (long)dropped;
	return added == 0;
}

#define YYFILL() fill(input)

static enum kind token(struct input *input)
{
begin:
	input->token = input->cursor;
	/*!re2c
	re2c:eof = 0;
	re2c:define:YYCURSOR = "input->cursor";
	re2c:define:YYMARKER = "input->marker";
	re2c:define:YYLIMIT = "input->limit";
	blanks = " "*;
	comment = "#" [^\n]*;

	[a-z]+ @name_end blanks "=" blanks (@value [^ #\n]+ @value_end blanks)? comment? "\n"   { return SETTING; }
	blanks comment? "\n"                                                                    { goto begin; }
	$                                                                                       { return END; }
	*                                                                                       { return FAULT; }
	*/
	return FAULT;
}

int main(void)
{
	static const char text[] = "# what is read\nwidth = 80 # columns\ncolour=\n\ntitle   =   a-b\n=";
	FILE *file = tmpfile();
	struct input input;
	enum kind kind;

	if (!file || fwrite(text, 1, sizeof text - 1, file) != sizeof text - 1)
		return 1;
	rewind(file);
	begin(&input, file);
	while ((kind = token(&input)) != END) {
		long start = input.before + (long)(input.token - input.buffer);

		if (kind == FAULT)
			printf("fault:%ld\n", start);
		else if (value)
			printf("%ld-%ld=%ld-%ld\n", start, start + (long)(name_end - input.token), start + (long)(value - input.token),
				start + (long)(value_end - input.token));
		else
			printf("%ld-%ld=-\n", start, start + (long)(name_end - input.token));
	}
	fclose(file);
	return 0;
}
