/* Counts the words of its arguments. */
#include <stdio.h>
#include "words.h"

int main(int count, char **words)
{
	int at;

	for (at = 1; at < count; at++) {
		struct counts counts;

		if (!count_words(words[at], &counts))
			return 1;
		printf("%d %d %d\n", counts.keywords, counts.names, counts.numbers);
	}
	return 0;
}
