/* See stdint.h: what the tests' programs use of the C library. */
typedef __PTRDIFF_TYPE__ ssize_t;
ssize_t read(int file, void *into, __SIZE_TYPE__ size);
ssize_t write(int file, const void *from, __SIZE_TYPE__ size);
_Noreturn void _exit(int status);
