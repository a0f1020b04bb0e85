/* A user's declarations: units of two bytes, groups, and a check that returns where there are too few. */
#include <stddef.h>

struct scanner {
    const unsigned short *cursor, *limit;
    int state;
};

int fill(struct scanner *scanner, int units);
int scan(struct scanner *scanner, const unsigned short **yypmatch);

#define YYCURSOR scanner->cursor
#define YYLIMIT scanner->limit
#define YYFILL(units) do { if (fill(scanner, (units)) != 0) return -1; } while (0)
#define YYGETSTATE() scanner->state
#define YYSETSTATE(number) scanner->state = (number)

int scan(struct scanner *scanner, const unsigned short **yypmatch)
{
    const unsigned short *yyt1, *yyt2;
    unsigned short yych;
    int yynmatch;
