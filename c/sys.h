/* The few functions of the C library that these programs call, declared here because the toolchain's
 * clang has no headers. The declarations are those of Linux on x86-64, so a compiler that does have
 * headers takes them too; a file that includes this one includes none of <stdio.h>, <stdlib.h>, <string.h>,
 * <signal.h>, <time.h>, <unistd.h>, <fcntl.h> or <termios.h>. */
#ifndef SYS_H
#define SYS_H

#include <stddef.h>

int printf(const char *form, ...) __attribute__((format(printf, 1, 2)));
int sprintf(char *text, const char *form, ...) __attribute__((format(printf, 2, 3)));
int snprintf(char *text, size_t room, const char *form, ...) __attribute__((format(printf, 3, 4)));

void *memcpy(void *to, const void *from, size_t n);
void *memmove(void *to, const void *from, size_t n);
void *memset(void *to, int byte, size_t n);
int memcmp(const void *a, const void *b, size_t n);
void *memchr(const void *a, int byte, size_t n);

size_t strlen(const char *text);
int strcmp(const char *a, const char *b);
int strncmp(const char *a, const char *b, size_t n);
char *strchr(const char *text, int byte);
size_t strspn(const char *text, const char *allowed);
int atoi(const char *text);
unsigned long long strtoull(const char *text, char **end, int base);

void *malloc(size_t n);
void free(void *memory);

enum { SYS_READ = 1, SYS_WRITE = 2, SYS_PRIVATE = 2, SYS_ANONYMOUS = 0x20 };
#define SYS_NO_MAP ((void *)-1)
void *mmap(void *at, size_t n, int allowed, int flags, int file, long offset);
int mprotect(void *at, size_t n, int allowed);

/* The signals of a touch of memory that is not there, or may not be touched. */
enum { SYS_NO_MEMORY = 7, SYS_NOT_ALLOWED = 11 };
void (*signal(int number, void (*handler)(int)))(int);
void exit(int status) __attribute__((noreturn));

long read(int file, void *to, size_t n);
long write(int file, const void *from, size_t n);

/* Pseudo-terminals, for pty.c alone. */
enum { SYS_BOTH_WAYS = 2, SYS_NOT_CONTROLLING = 0x100, SYS_NOW = 0 };
struct termios {
    unsigned words[15];
};
int posix_openpt(int flags);
int grantpt(int end);
int unlockpt(int end);
char *ptsname(int end);
int open(const char *name, int flags, ...);
int tcgetattr(int line, struct termios *to);
void cfmakeraw(struct termios *line);
int tcsetattr(int line, int when, const struct termios *from);
int dup2(int file, int place);
int execvp(const char *program, char *const *words);

struct timespec {
    long tv_sec;
    long tv_nsec;
};
enum { SYS_PROCESS_TIME = 2 };
int clock_gettime(int clock, struct timespec *now);

#endif
