/* A user's declarations: a scanner that is left with its state stored, and comes back. */
#include <stddef.h>

enum YYCONDTYPE { yycA, yycB };

struct scanner {
    const unsigned char *cursor, *limit;
    unsigned char yych;
    unsigned int yyaccept;
    enum YYCONDTYPE condition;
    int state;
};

int fill(struct scanner *scanner);
int scan(struct scanner *scanner);

#define YYCTYPE unsigned char
#define YYCURSOR scanner->cursor
#define YYLIMIT scanner->limit
#define YYFILL() fill(scanner)
#define YYGETSTATE() scanner->state
#define YYSETSTATE(number) scanner->state = (number)
#define YYGETCONDITION() scanner->condition
#define YYSETCONDITION(number) scanner->condition = (number)
#define yych scanner->yych
#define yyaccept scanner->yyaccept

int scan(struct scanner *scanner)
{
