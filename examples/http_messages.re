/* Prints where the parts of the heads of HTTP/1.1 messages stand: request lines, status lines and fields (RFC 9112). Compile it with -T. */
#include <stdio.h>

#define YYCTYPE unsigned char

enum kind { END, REQUEST, STATUS, FIELD, HEAD, FAULT };

/* Where the parts of a line begin, and where those end whose length may vary. */
static const unsigned char *method, *method_end, *target, *target_end, *version;
static const unsigned char *status, *reason, *reason_end;
static const unsigned char *name, *name_end, *value, *value_end;

/* Passes the line at a place, behind which the scanner leaves the place. */
static enum kind line(const unsigned char **at)
{
	const unsigned char *YYCURSOR = *at, *YYMARKER;
	/*!stags:re2c format = "const unsigned char *@@;"; separator = "\n\t"; */

	/*!re2c
	re2c:yyfill:enable = 0;
	token = [!#$%&'*+\-.^_`|~0-9A-Za-z]+;
	blanks = [ \t]*;
	visible = [!-~\x80-\xff];
	protocol = "HTTP/" [0-9] "." [0-9];
	break = "\r"? "\n";

	@method token @method_end " " @target [!-~]+ @target_end " " @version protocol break  { *at = YYCURSOR; return REQUEST; }
	@version protocol " " @status [0-9]{3} " " @reason [\t -~\x80-\xff]* @reason_end break  { *at = YYCURSOR; return STATUS; }
	@name token @name_end ":" blanks @value (visible (blanks visible)*)? @value_end blanks break  { *at = YYCURSOR; return FIELD; }
	break                                                                                 { *at = YYCURSOR; return HEAD; }
	[^\n\x00]* "\n"                                                                       { *at = YYCURSOR; return FAULT; }
	"\x00"                                                                                { *at = YYCURSOR; return END; }
	*                                                                                     { *at = YYCURSOR; return FAULT; }
	*/
	return FAULT;
}

static const unsigned char text[] =
	"GET /a?b=c HTTP/1.1\r\n"
	"Host: example.org\r\n"
	"Accept:*/* , text/html \t\r\n"
	"X-None:  \r\n"
	"\r\n"
	"HTTP/1.1 404 Not Found\n"
	"HTTP/1.0 200 \n"
	"Bad field: 1\n"
	"\n";

/* Prints a part. */
static void print(const char *what, const unsigned char *begin, const unsigned char *end)
{
	printf("%s:%d-%d\n", what, (int)(begin - text), (int)(end - text));
}

int main(void)
{
	const unsigned char *at = text, *start = text;
	enum kind kind;

	for (; (kind = line(&at)) != END; start = at) {
		switch (kind) {
		case REQUEST:
			print("method", method, method_end);
			print("target", target, target_end);
			print("version", version + 5, version + 8);
			break;
		case STATUS:
			print("version", version + 5, version + 8);
			print("status", status, status + 3);
			print("reason", reason, reason_end);
			break;
		case FIELD:
			print("name", name, name_end);
			print("value", value, value_end);
			break;
		case HEAD:
			print("head", start, at);
			break;
		default:
			print("fault", start, at);
		}
	}
	return 0;
}
