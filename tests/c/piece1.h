/* A user's declarations: registers hold places in the text, histories are numbers of a pool. */
#include <stddef.h>

#define YYCTYPE unsigned char

static int history;
#define YYMTAGP(tag) (tag) = ++history
#define YYMTAGN(tag) (tag) = -1

int scan(const char *text);

int scan(const char *text)
{
    const unsigned char *YYCURSOR = (const unsigned char *)text;
    const unsigned char *YYMARKER, *YYCTXMARKER, *yyt2, *s;
    int yytm1 = 0, yytm2 = 0, yytm3 = 0, h;
