/* A file without a block: re2c gives it back as it is. */
int x;
