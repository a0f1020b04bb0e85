/* A scanner over a file through a buffer that is made anew at each refill, with one unit more. Behind the file stand PADDING units of zero.
   REGISTERS names the registers of the scanner. */
#include <setjmp.h>
#include <stdio.h>
#include <stdlib.h>
#include <string.h>

static FILE *file;
static long padding = PADDING, before;
static unsigned char *buffer, *token;
static const unsigned char *YYCURSOR, *YYMARKER, *YYCTXMARKER, *YYLIMIT;
static jmp_buf leave;
static unsigned int yyaccept; /* that of a scanner that stores its state */
static int state = -1, cond;

#define DECLARE(name) static const unsigned char *name;
REGISTERS(DECLARE)

#define SHIFT(name) \
	if (name) \
		name = fresh + (name - token);

/* Adds one unit, in a fresh buffer that begins with the match; 1 where there is no more. */
static int fill(void)
{
	int unit = getc(file);
	size_t kept = (size_t)(YYLIMIT - token);
	unsigned char *fresh;

	if (unit == EOF) {
		if (padding == 0)
			return 1;
		padding--;
		unit = 0;
	}
	fresh = (unsigned char *)malloc(kept + 2);
	if (!fresh)
		exit(1);
	memcpy(fresh, token, kept);
	fresh[kept] = (unsigned char)unit;
	fresh[kept + 1] = 0;
	SHIFT(YYCURSOR)
	SHIFT(YYMARKER)
	SHIFT(YYCTXMARKER)
	REGISTERS(SHIFT)
	before += token - buffer;
	free(buffer);
	buffer = token = fresh;
	YYLIMIT = fresh + kept + 1;
	return 0;
}

/* Fills until so many units are there; 1 where there are fewer. */
int fill_to(long units)
{
	while (YYLIMIT - YYCURSOR < units)
		if (fill())
			return 1;
	return 0;
}

/* Leaves the scanner, which comes back where it stored its state. */
int wait_for_units(void)
{
	longjmp(leave, 1);
	return 1;
}
