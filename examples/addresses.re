/* Prints the parts of each address of a text by their offsets, or `-` for a part that is not there. Compile it with --captures. */
#include <stdio.h>

#define YYCTYPE unsigned char

/*!maxnmatch:re2c*/

static const unsigned char *yypmatch[2 * YYMAXNMATCH]; /* where each group begins and ends */
static int yynmatch; /* how many groups the rule has, the whole match counted */

/* Whether an address stands at a place, behind which the scanner leaves the place. */
static int address(const unsigned char **at)
{
	const unsigned char *YYCURSOR = *at, *YYMARKER;
	/*!stags:re2c format = "const unsigned char *@@;"; separator = "\n\t"; */

	/*!re2c
	re2c:yyfill:enable = 0;
	letters = [a-z]+;
	host = [a-z0-9.-]+;

	(letters) "://" ((letters) "@")? (host) (":" ([0-9]+))? (("/" [a-z0-9.]*)*) { *at = YYCURSOR; return 1; }
	letters                                                                    { *at = YYCURSOR; return 0; }
	*                                                                          { *at = YYCURSOR; return 0; }
	*/
	return 0;
}

int main(void)
{
	static const unsigned char text[] = "at http://example.org/a/b.html or ssh://me@10.0.0.1:2222 now";
	const unsigned char *at = text;
	int group;

	while (*at != 0) {
		if (!address(&at))
			continue;
		printf("%d\n", yynmatch);
		for (group = 0; group < yynmatch; group++) {
			if (yypmatch[2 * group])
				printf("%d-%d\n", (int)(yypmatch[2 * group] - text), (int)(yypmatch[2 * group + 1] - text));
			else
				printf("-\n");
		}
	}
	return 0;
}
