/* Counts keywords, names and numbers. */
#include "words.h"

#define YYCTYPE unsigned char

/*!include:re2c "forms.re" */

int count_words(const char *text, struct counts *counts)
{
	const unsigned char *YYCURSOR = (const unsigned char *)text;
	const unsigned char *YYMARKER;

	counts->keywords = counts->names = counts->numbers = 0;
	for (;;) {
		/*!re2c
		re2c:yyfill:enable = 0;

		"\x00"                     { return 1; }
		[ \t\n]+                   { continue; }
		"if" | "else" | "while"    { counts->keywords++; continue; }
		name                       { counts->names++; continue; }
		number                     { counts->numbers++; continue; }
		*                          { return 0; }
		*/
	}
}
