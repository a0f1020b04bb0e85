/* The primitives of custom scanners, over the pointers of the others. */
#define YYPEEK() (*YYCURSOR)
#define YYSKIP() (++YYCURSOR)
#define YYBACKUP() (YYMARKER = YYCURSOR)
#define YYRESTORE() (YYCURSOR = YYMARKER)
#define YYSTAGP(tag) ((tag) = YYCURSOR)
#define YYSTAGN(tag) ((tag) = NULL)
#define YYRESTORETAG(tag) (YYCURSOR = (tag))
#define YYLESSTHAN(units) ((YYLIMIT - YYCURSOR) < (units))

