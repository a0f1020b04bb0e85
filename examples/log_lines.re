/* Prints where the parts of each line of a web server's log stand, in the common format or the combined one. Compile it with -T. */
#include <stdio.h>

#define YYCTYPE unsigned char

enum kind { END, LINE, FAULT };

/* Where the parts of a line begin, and where those end whose length may vary. */
static const unsigned char *address, *address_end, *identity, *identity_end, *user, *user_end;
static const unsigned char *day, *month, *year, *daytime, *zone;
static const unsigned char *method, *method_end, *path, *path_end, *query, *query_end, *version, *version_end;
static const unsigned char *status, *size, *size_end, *referrer, *referrer_end, *agent, *agent_end;

/* Passes the line at a place, behind which the scanner leaves the place. */
static enum kind line(const unsigned char **at)
{
	const unsigned char *YYCURSOR = *at, *YYMARKER;
	/*!stags:re2c format = "const unsigned char *@@;"; separator = "\n\t"; */

	/*!re2c
	re2c:yyfill:enable = 0;
	two = [0-9]{2};
	word = [!-~]+;
	quoted = ([^"\\\n\x00] | "\\" [^\n\x00])*;

	client = @address word @address_end " " @identity word @identity_end " " @user word @user_end;
	date = @day two "/" @month [A-Z][a-z]{2} "/" @year two{2} ":" @daytime two ":" two ":" two " " @zone [+-] two{2};
	target = @path ([!-~] \ ["?])+ @path_end ("?" @query ([!-~] \ ["])* @query_end)?;
	request = @method [A-Z]+ @method_end " " target " HTTP/" @version [0-9.]+ @version_end;
	answer = @status [0-9]{3} " " ("-" | @size [0-9]+ @size_end);
	sender = "\"" @referrer quoted @referrer_end "\" \"" @agent quoted @agent_end "\"";

	client " [" date "] \"" request "\" " answer (" " sender)? "\n"   { *at = YYCURSOR; return LINE; }
	[^\n\x00]* "\n"                                                   { *at = YYCURSOR; return FAULT; }
	"\x00"                                                            { *at = YYCURSOR; return END; }
	*                                                                 { *at = YYCURSOR; return FAULT; }
	*/
	return FAULT;
}

static const unsigned char text[] =
	"192.0.2.7 - ann [10/Oct/2000:13:55:36 -0700] \"GET /a.gif HTTP/1.0\" 200 2326\n"
	"::1 - - [01/Feb/2024:00:00:09 +0000] \"GET /find?q=a%20b&n=2 HTTP/1.1\" 304 - \"http://example.org/\" \"say \\\"hi\\\"\"\n"
	"192.0.2.7 - - [10/Oct/2000] \"GET /\" 200 1\n";

/* Prints a part, or `-` where there is none. */
static void print(const char *name, const unsigned char *begin, const unsigned char *end)
{
	if (begin)
		printf("%s:%d-%d\n", name, (int)(begin - text), (int)(end - text));
	else
		printf("%s:-\n", name);
}

int main(void)
{
	const unsigned char *at = text, *start = text;
	enum kind kind;

	for (; (kind = line(&at)) != END; start = at) {
		if (kind == FAULT) {
			print("fault", start, at);
			continue;
		}
		print("address", address, address_end);
		print("identity", identity, identity_end);
		print("user", user, user_end);
		print("day", day, day + 2);
		print("month", month, month + 3);
		print("year", year, year + 4);
		print("time", daytime, daytime + 8);
		print("zone", zone, zone + 5);
		print("method", method, method_end);
		print("path", path, path_end);
		print("query", query, query_end);
		print("version", version, version_end);
		print("status", status, status + 3);
		print("size", size, size_end);
		print("referrer", referrer, referrer_end);
		print("agent", agent, agent_end);
	}
	return 0;
}
