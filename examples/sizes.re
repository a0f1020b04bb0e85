/* Prints the parts of each size of a text, each part as long as it can be, from the left. Compile it with -P. */
#include <stdio.h>

#define YYCTYPE unsigned char

/*!maxnmatch:re2c*/

static const unsigned char *yypmatch[2 * YYMAXNMATCH]; /* where each group begins and ends */
static int yynmatch; /* how many groups the rule has, the whole match counted */

/* Whether a size stands at a place, behind which the scanner leaves the place. */
static int size(const unsigned char **at)
{
	const unsigned char *YYCURSOR = *at;
	/*!stags:re2c format = "const unsigned char *@@;"; separator = "\n\t"; */

	/*!re2c
	re2c:yyfill:enable = 0;

	([0-9]+) ("k" | "ki" | "m" | "mi")? ("b" | "ib") { *at = YYCURSOR; return 1; }
	[a-z0-9]+                                        { *at = YYCURSOR; return 0; }
	*                                                { *at = YYCURSOR; return 0; }
	*/
	return 0;
}

int main(void)
{
	static const unsigned char text[] = "512b of 4kib, 16mb and 3mib, not 7kb1";
	const unsigned char *at = text;
	int group;

	while (*at != 0) {
		if (!size(&at))
			continue;
		for (group = 1; group < yynmatch; group++) {
			if (yypmatch[2 * group])
				printf("%.*s\n", (int)(yypmatch[2 * group + 1] - yypmatch[2 * group]), (const char *)yypmatch[2 * group]);
			else
				printf("-\n");
		}
	}
	return 0;
}
