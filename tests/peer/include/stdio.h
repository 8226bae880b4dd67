/* See stdint.h: what the tests' programs use of the C library. */
int printf(const char *format, ...);
