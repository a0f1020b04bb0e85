/* Prints the words of two texts, each of which comes in parts of its own: the refill has the name of a macro of the program. */
#include <stdio.h>
#include <string.h>

#define YYCTYPE unsigned char
#define SIZE 16 /* longer than each word */

struct input {
	const char *const *parts; /* the parts that are to come, of which the last is NULL; none is longer than the buffer */
	unsigned char buffer[SIZE + 1]; /* one more for the unit at the end */
	unsigned char *token, *cursor, *limit;
};

enum kind { END, WORD, OTHER };

/* Drops what stands before the token, and puts the next part behind the rest; 0 where there was one that fits. */
static int next_part(struct input *input)
{
	size_t dropped = (size_t)(input->token - input->buffer), kept = (size_t)(input->limit - input->token), added;

	if (!*input->parts)
		return 1;
	added = strlen(*input->parts);
	if (added > SIZE - kept)
		return 1;
	memmove(input->buffer, input->token, kept);
	memcpy(input->buffer + kept, *input->parts++, added);
	input->token -= dropped;
	input->cursor -= dropped;
	input->limit = input->buffer + kept + added;
	*input->limit = 0;
	return 0;
}

#define more() next_part(input)

static enum kind word(struct input *input)
{
	input->token = input->cursor;
	/*!re2c
	re2c:eof = 0;
	re2c:define:YYFILL = more;
	re2c:define:YYCURSOR = "input->cursor";
	re2c:define:YYLIMIT = "input->limit";

	$          { return END; }
	[a-z]+     { return WORD; }
	*          { return OTHER; }
	*/
	return OTHER;
}

static int words(const char *const *parts, const char *const *wanted)
{
	struct input input;
	enum kind kind;

	input.parts = parts;
	input.token = input.cursor = input.limit = input.buffer;
	*input.limit = 0;
	while ((kind = word(&input)) != END) {
		size_t size = (size_t)(input.cursor - input.token);

		if (kind == OTHER)
			continue;
		printf("%.*s\n", (int)size, (const char *)input.token);
		if (!*wanted || strlen(*wanted) != size || memcmp(*wanted++, input.token, size) != 0)
			return 0;
	}
	return !*wanted;
}

int main(void)
{
	static const char *const first[] = { "a b", "ird s", "", "ings; ", NULL }, *const birds[] = { "a", "bird", "sings", NULL };
	static const char *const second[] = { "one", "word", NULL }, *const one[] = { "oneword", NULL };

	return !words(first, birds) || !words(second, one);
}
