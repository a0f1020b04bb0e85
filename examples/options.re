/* Prints where the options of a command and their values begin: history tags keep each place where they stood. Compile it with -T. */
#include <stdio.h>
#include <stdlib.h>

#define YYCTYPE unsigned char
#define COUNT 100

/* A history is the number of its last entry, and 0 the empty one. Histories share entries, so they are a tree. */
struct entry {
	int before; /* the history without this entry */
	const unsigned char *place; /* NULL where the tag was passed by */
};

static struct entry entries[COUNT];
static int used; /* the number of the last entry that there is */

static int longer(int history, const unsigned char *place)
{
	if (++used == COUNT)
		exit(1);
	entries[used].before = history;
	entries[used].place = place;
	return used;
}

#define YYMTAGP(history) history = longer(history, YYCURSOR)
#define YYMTAGN(history) history = longer(history, NULL)

/* Prints the options and the values of two histories, the oldest first. */
static void print(const unsigned char *text, int options, int values)
{
	if (options == 0 || !entries[options].place)
		return;
	print(text, entries[options].before, entries[values].before);
	printf("%d", (int)(entries[options].place - text));
	if (entries[values].place)
		printf("=%d", (int)(entries[values].place - text));
	printf("\n");
}

/* Prints what a command is given; 0 where the text is no command. */
static int command(const unsigned char *text)
{
	const unsigned char *YYCURSOR = text, *YYMARKER, *name_end;
	int option, value;
	/*!stags:re2c format = "const unsigned char *@@;"; separator = "\n\t"; */
	/*!mtags:re2c format = "int @@ = 0;"; separator = "\n\t"; */

	/*!re2c
	re2c:yyfill:enable = 0;
	word = [a-z]+;

	word @name_end (" --" #option word ("=" #value [a-z0-9]+)?)* "\n" {
		printf("%.*s\n", (int)(name_end - text), (const char *)text);
		print(text, option, value);
		return 1;
	}
	* { return 0; }
	*/
	return 0;
}

int main(void)
{
	return !command((const unsigned char *)"build --jobs=8 --quiet --mode=fast\n") || !command((const unsigned char *)"clean\n");
}
