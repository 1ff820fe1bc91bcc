// The little of the C library that the benchmark uses. The kit has a C library but no headers for it; with these
// declarations the kit alone is enough, on any machine that it runs on.
#ifndef C_LIBRARY_H
#define C_LIBRARY_H

typedef __UINT8_TYPE__ uint8_t;
typedef __UINT16_TYPE__ uint16_t;
typedef __UINT32_TYPE__ uint32_t;
typedef __UINT64_TYPE__ uint64_t;
typedef __SIZE_TYPE__ size_t;

#define NULL ((void *)0)

void *memcpy(void *restrict to, const void *restrict from, size_t length);
void *memmove(void *to, const void *from, size_t length);
void *memset(void *to, int byte, size_t length);
int memcmp(const void *a, const void *b, size_t length);
size_t strlen(const char *text);
int strcmp(const char *a, const char *b);
char *strstr(const char *text, const char *part);
int printf(const char *restrict format, ...) __attribute__((format(printf, 1, 2)));
int snprintf(char *restrict to, size_t room, const char *restrict format, ...) __attribute__((format(printf, 3, 4)));
[[noreturn]] void exit(int status);

struct timespec {
    long tv_sec, tv_nsec;
};
enum { CLOCK_PROCESS_CPUTIME_ID = 2 };
int clock_gettime(int clock, struct timespec *now);

#endif
