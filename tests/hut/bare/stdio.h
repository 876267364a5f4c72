/* What the examples of tests/hut take of C's library, where there is none. */
int printf(const char *format, ...);
