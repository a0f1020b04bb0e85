/* Prints the settings of two files by turns. All that a scanner needs from call to call stands in a struct, also what holds the tags, and
   moves with the buffer of that struct. Compile it with -T. */
#include <stdio.h>
#include <string.h>

#define YYCTYPE unsigned char
#define SIZE 24 /* longer than each line */

struct scanner {
	FILE *file;
	unsigned char buffer[SIZE + 1]; /* one more for the unit at the end */
	unsigned char *token, *cursor, *marker, *limit;
	unsigned char *name_end, *value, *value_end;
	/*!stags:re2c format = "unsigned char *@@;"; separator = "\n\t"; */
};

enum kind { END, SETTING, FAULT };

static int begin(struct scanner *scanner, const char *text)
{
	size_t size = strlen(text);

	memset(scanner, 0, sizeof *scanner);
	scanner->token = scanner->cursor = scanner->marker = scanner->limit = scanner->buffer;
	scanner->file = tmpfile();
	if (!scanner->file || fwrite(text, 1, size, scanner->file) != size)
		return 0;
	rewind(scanner->file);
	return 1;
}

/* Moves a place of the match, not one that is left from an earlier match. */
static void move(unsigned char **place, const unsigned char *token, size_t dropped)
{
	if (*place && *place >= token)
		*place -= dropped;
}

/* Drops what stands before the token, and reads what fits behind the rest; 0 where there was more. */
static int fill(struct scanner *scanner)
{
	unsigned char *token = scanner->token;
	size_t dropped = (size_t)(token - scanner->buffer), kept = (size_t)(scanner->limit - token), added;

	memmove(scanner->buffer, token, kept);
	added = fread(scanner->buffer + kept, 1, SIZE - kept, scanner->file);
	move(&scanner->token, token, dropped);
	move(&scanner->cursor, token, dropped);
	move(&scanner->marker, token, dropped);
	/*!stags:re2c format = "move(&scanner->@@, token, dropped);"; separator = "\n\t"; */
	scanner->limit = scanner->buffer + kept + added;
	*scanner->limit = 0;
	return added == 0;
}

/* From here on a tag, and what holds it on the way, is the one of the scanner that runs. */
#define name_end scanner->name_end
#define value scanner->value
#define value_end scanner->value_end
/*!stags:re2c format = "#define @@ scanner->@@"; separator = "\n"; */
#define YYFILL() fill(scanner)

static enum kind token(struct scanner *scanner)
{
begin:
	scanner->token = scanner->cursor;
	/*!re2c
	re2c:eof = 0;
	re2c:define:YYCURSOR = "scanner->cursor";
	re2c:define:YYMARKER = "scanner->marker";
	re2c:define:YYLIMIT = "scanner->limit";
	blanks = " "*;
	comment = "#" [^\n]*;

	[a-z]+ @name_end blanks "=" blanks (@value [^ #\n]+ @value_end blanks)? comment? "\n"   { return SETTING; }
	blanks comment? "\n"                                                                    { goto begin; }
	$                                                                                       { return END; }
	*                                                                                       { return FAULT; }
	*/
	return FAULT;
}

/* Prints the next setting of a scanner as one text, which is the next one that is wanted; 0 where it is another. */
static int next(struct scanner *scanner, const char *const **wanted, enum kind *kind)
{
	char text[2 * SIZE];

	*kind = token(scanner);
	if (*kind == SETTING)
		sprintf(text, "%.*s=%.*s", (int)(name_end - scanner->token), (const char *)scanner->token, value ? (int)(value_end - value) : 1,
			value ? (const char *)value : "-");
	else
		strcpy(text, *kind == END ? "end" : "fault");
	printf("%s\n", text);
	return **wanted && strcmp(*(*wanted)++, text) == 0;
}

int main(void)
{
	static const char *const of_first[] = { "width=80", "colour=-", "title=a-b", "fault", "end", NULL };
	static const char *const of_second[] = { "depth=12", "x=y", "shape=round", "last=1", "end", NULL };
	const char *const *first_wanted = of_first, *const *second_wanted = of_second;
	struct scanner first, second;
	enum kind of_one = SETTING, of_other = SETTING;

	if (!begin(&first, "# what is read\nwidth = 80 # columns\ncolour=\n\ntitle   =   a-b\n=")
		|| !begin(&second, "depth=12\n\n\nx   =        y    \nshape = round# or not\nlast=1\n"))
		return 1;
	while (of_one != END || of_other != END) {
		if (of_one != END && !next(&first, &first_wanted, &of_one))
			return 1;
		if (of_other != END && !next(&second, &second_wanted, &of_other))
			return 1;
	}
	fclose(first.file);
	fclose(second.file);
	return 0;
}
