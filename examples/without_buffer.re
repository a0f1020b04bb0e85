/* Prints the words and numbers of a file, by primitives that read it byte by byte. Compile it with --input custom. */
#include <stdio.h>

#define YYCTYPE unsigned char

static int peek(FILE *file)
{
	int byte = getc(file);

	ungetc(byte, file);
	return byte == EOF ? 0 : byte;
}

#define YYPEEK() (unsigned char)peek(file)
#define YYSKIP() getc(file)
#define YYBACKUP() backup = ftell(file)
#define YYRESTORE() fseek(file, backup, SEEK_SET)

enum kind { END, NUMBER, FRACTION, WORD, BLANK, OTHER };

static enum kind token(FILE *file)
{
	long backup;

	/*!re2c
	re2c:yyfill:enable = 0;
	digits = [0-9]+;

	"\x00"             { return END; }
	digits             { return NUMBER; }
	digits "." digits  { return FRACTION; }
	[a-z]+             { return WORD; }
	[ \n]+             { return BLANK; }
	*                  { return OTHER; }
	*/
	return OTHER;
}

int main(void)
{
	static const char *const names[] = { "end", "number", "fraction", "word", "blank", "other" };
	static const char text[] = "from 1.5 to\n20.";
	FILE *file = tmpfile();
	enum kind kind;
	long start;

	if (!file || fwrite(text, 1, sizeof text - 1, file) != sizeof text - 1)
		return 1;
	rewind(file);
	do {
		start = ftell(file);
		kind = token(file);
		if (kind != BLANK)
			printf("%s:%ld-%ld\n", names[kind], start, ftell(file));
	} while (kind != END);
	fclose(file);
	return 0;
}
