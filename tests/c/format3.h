/* jumps.h without the variables that a piece of format 3 declares by itself: the current unit, which is unsigned also where the buffer is one
   of plain char, and where KEPT is 0 the accepting state. */
#define yych hidden_unit
#if !KEPT
#define yyaccept hidden_accept
#endif
#include "jumps.h"
#undef yych
#undef yyaccept
