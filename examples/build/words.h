/* The words of a text. */
#ifndef WORDS_H
#define WORDS_H

struct counts {
	int keywords, names, numbers;
};

/* Counts the words of a text that ends with a zero byte; 0 where something else stands in it. */
int count_words(const char *text, struct counts *counts);

#endif
