/* Prints the words and numbers of a text that comes one byte at a time: the scanner leaves where it wants more. Compile it with -f. */
#include <stdio.h>
#include <string.h>

#define YYCTYPE unsigned char
#define SIZE 16 /* longer than each token */

struct lexer {
	unsigned char buffer[SIZE + 1]; /* one more for the unit at the end */
	unsigned char *token, *cursor, *marker, *limit;
	long before; /* how many bytes of the text were dropped from the buffer */
	int state; /* -1 before a match */
	unsigned int accept;
	int closed; /* whether no more bytes come */
};

enum kind { WAITING, END, WORD, NUMBER, FRACTION, BLANK, OTHER };

static void begin(struct lexer *lexer)
{
	lexer->token = lexer->cursor = lexer->marker = lexer->limit = lexer->buffer;
	*lexer->limit = 0;
	lexer->before = 0;
	lexer->closed = 0;
}

static void begin_token(struct lexer *lexer)
{
	lexer->token = lexer->cursor;
	lexer->state = -1;
	lexer->accept = 0;
}

/* A scanner leaves where it stores its state. Where no more bytes come it goes on, and YYFILL says so. */
#define YYGETSTATE() lexer->state
#define YYSETSTATE(number) do { lexer->state = number; if (!lexer->closed) return WAITING; } while (0)
#define YYFILL() 1
#define yyaccept lexer->accept

/* Goes on with a match from where it was left, or from its start. */
static enum kind token(struct lexer *lexer)
{
	unsigned char yych; /* read anew where the scanner comes back */

	/*!getstate:re2c*/
	/*!re2c
	re2c:eof = 0;
	re2c:define:YYCURSOR = "lexer->cursor";
	re2c:define:YYMARKER = "lexer->marker";
	re2c:define:YYLIMIT = "lexer->limit";
	digits = [0-9]+;

	$                                       { return END; }
	[a-z]+                                  { return WORD; }
	digits                                  { return NUMBER; }
	digits "." digits ("e" "-"? digits)?    { return FRACTION; }
	" "+                                    { return BLANK; }
	*                                       { return OTHER; }
	*/
	return OTHER;
}

/* Drops what stands before the token, and puts a byte behind the rest; 0 where there is no room. */
static int push(struct lexer *lexer, unsigned char byte)
{
	size_t dropped = (size_t)(lexer->token - lexer->buffer), kept = (size_t)(lexer->limit - lexer->token);

	if (kept == SIZE)
		return 0;
	memmove(lexer->buffer, lexer->token, kept);
	lexer->token -= dropped;
	lexer->cursor -= dropped;
	if (lexer->marker >= lexer->buffer + dropped)
		lexer->marker -= dropped;
	lexer->limit = lexer->buffer + kept;
	*lexer->limit++ = byte;
	*lexer->limit = 0;
	lexer->before += (long)dropped;
	return 1;
}

int main(void)
{
	static const char *const names[] = { "waiting", "end", "word", "number", "fraction", "blank", "other" };
	static const char text[] = "pi is 3.14159, or 31.4e-1; 7. and 2.5e-";
	size_t sent = 0;
	struct lexer lexer;
	enum kind kind = WAITING;

	begin(&lexer);
	begin_token(&lexer);
	while (kind != END) {
		kind = token(&lexer);
		if (kind == WAITING) {
			if (sent == sizeof text - 1)
				lexer.closed = 1;
			else if (!push(&lexer, (unsigned char)text[sent++]))
				return 1;
		} else {
			if (kind != BLANK) {
				long start = lexer.before + (long)(lexer.token - lexer.buffer), end = lexer.before + (long)(lexer.cursor - lexer.buffer);

				printf("%s:%ld-%ld\n", names[kind], start, end);
			}
			begin_token(&lexer);
		}
	}
	return 0;
}
