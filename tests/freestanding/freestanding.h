/*
 * freestanding.h: as much of a C library as the host program and the second
 * program use, for a processor that the system's packages have none for.
 *
 * It stands on the emulator's Linux calls and on the compiler's own headers. The
 * headers beside it have the standard names and take all from here.
 */
#ifndef FREESTANDING_H
#define FREESTANDING_H

#include <stddef.h>
#include <stdint.h>

/* memory and text */
void *memcpy(void *to, const void *from, size_t bytes);
void *memset(void *to, int byte, size_t bytes);
int memcmp(const void *a, const void *b, size_t bytes);
int strcmp(const char *a, const char *b);
unsigned long long strtoull(const char *text, char **end, int base);

/* printing: %s %c %d %u %lu %llu %zu, and %02X and %08llX; fflush has nothing to
 * do, since every call prints at once */
typedef struct { int descriptor; } FILE;
extern FILE *const stdout, *const stderr;
int printf(const char *format, ...) __attribute__((format(printf, 1, 2)));
int fprintf(FILE *to, const char *format, ...)
    __attribute__((format(printf, 2, 3)));
int snprintf(char *to, size_t room, const char *format, ...)
    __attribute__((format(printf, 3, 4)));
int fflush(FILE *of);
#define PRIu64 "llu"
#define PRIX64 "llX"

/* the system */
void exit(int status) __attribute__((noreturn));
struct timespec { long tv_sec, tv_nsec; };
enum { CLOCK_MONOTONIC = 1 };
int clock_gettime(int which, struct timespec *now);
enum { PROT_NONE = 0, PROT_READ = 1, PROT_WRITE = 2 };
enum { MAP_PRIVATE = 2, MAP_ANONYMOUS = 32 };
#define MAP_FAILED ((void *)-1)
void *mmap(void *at, size_t bytes, int access, int flags, int file, long from);
int mprotect(void *at, size_t bytes, int access);
enum { _SC_PAGESIZE = 30 };
long sysconf(int name);
enum { SIGBUS = 7, SIGSEGV = 11 };
void (*signal(int number, void (*handler)(int)))(int);

#endif
