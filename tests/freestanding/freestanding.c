/*
 * freestanding.c: the calls of freestanding.h, on the emulator's Linux for 32-bit
 * RISC-V: the number of a call in a7, its arguments in a0 and up.
 */
#include "freestanding.h"

#include <stdarg.h>

int main(int count, char **arguments);

/* ---- The system --------------------------------------------------------- */

enum {
    SYS_WRITE = 64, SYS_EXIT_GROUP = 94, SYS_SIGACTION = 134, SYS_MMAP2 = 222,
    SYS_MPROTECT = 226, SYS_CLOCK_GETTIME64 = 403
};

static long call(long number, long a, long b, long c, long d, long e, long f)
{
    register long a0 __asm__("a0") = a, a1 __asm__("a1") = b;
    register long a2 __asm__("a2") = c, a3 __asm__("a3") = d;
    register long a4 __asm__("a4") = e, a5 __asm__("a5") = f;
    register long a7 __asm__("a7") = number;
    __asm__ volatile("ecall" : "+r"(a0)
                     : "r"(a1), "r"(a2), "r"(a3), "r"(a4), "r"(a5), "r"(a7)
                     : "memory");
    return a0;
}

/* The count and the arguments lie on the stack. */
__asm__(".globl _start\n"
        "_start:\n"
        ".option push\n.option norelax\nla gp, __global_pointer$\n.option pop\n"
        "lw a0, 0(sp)\naddi a1, sp, 4\nandi sp, sp, -16\n"
        "call main\ncall exit\n");

void exit(int status)
{
    for (;;)
        call(SYS_EXIT_GROUP, status, 0, 0, 0, 0, 0);
}

int clock_gettime(int which, struct timespec *now)
{
    int64_t read[2] = { 0, 0 };
    long failed = call(SYS_CLOCK_GETTIME64, which, (long)read, 0, 0, 0, 0);
    now->tv_sec = (long)read[0];
    now->tv_nsec = (long)read[1];
    return (int)failed;
}

void *mmap(void *at, size_t bytes, int access, int flags, int file, long from)
{
    long got = call(SYS_MMAP2, (long)at, (long)bytes, access, flags, file, from);
    return got < 0 && got > -4096 ? MAP_FAILED : (void *)got;
}

int mprotect(void *at, size_t bytes, int access)
{
    return (int)call(SYS_MPROTECT, (long)at, (long)bytes, access, 0, 0, 0);
}

long sysconf(int name)
{
    return name == _SC_PAGESIZE ? 4096 : -1;
}

/* No handler ends otherwise than by exit, so none has to come back. */
void (*signal(int number, void (*handler)(int)))(int)
{
    struct { void (*handler)(int); unsigned long flags, mask[2]; } action;
    memset(&action, 0, sizeof action);
    action.handler = handler;
    call(SYS_SIGACTION, number, (long)&action, 0, 8, 0, 0);
    return 0;
}

/* ---- Memory and text ---------------------------------------------------- */

void *memcpy(void *to, const void *from, size_t bytes)
{
    for (size_t i = 0; i < bytes; i++)
        ((volatile unsigned char *)to)[i] = ((const unsigned char *)from)[i];
    return to;
}

void *memset(void *to, int byte, size_t bytes)
{
    for (size_t i = 0; i < bytes; i++)
        ((volatile unsigned char *)to)[i] = (unsigned char)byte;
    return to;
}

int memcmp(const void *a, const void *b, size_t bytes)
{
    const unsigned char *p = a, *q = b;
    for (size_t i = 0; i < bytes; i++)
        if (p[i] != q[i])
            return p[i] < q[i] ? -1 : 1;
    return 0;
}

int strcmp(const char *a, const char *b)
{
    while (*a != '\0' && *a == *b)
        a++, b++;
    return (unsigned char)*a - (unsigned char)*b;
}

/* Decimal, which is all that a seed is given in here. */
unsigned long long strtoull(const char *text, char **end, int base)
{
    unsigned long long value = 0;
    (void)base;
    while (*text >= '0' && *text <= '9')
        value = 10 * value + (unsigned)(*text++ - '0');
    *end = (char *)text;
    return value;
}

/* ---- Printing ----------------------------------------------------------- */

static FILE standard[2] = { { 1 }, { 2 } };
FILE *const stdout = &standard[0], *const stderr = &standard[1];

struct text {
    char *at;
    size_t room, length;
};

static void put(struct text *t, char c)
{
    if (t->length + 1 < t->room)
        t->at[t->length] = c;
    t->length++;
}

static void put_number(struct text *t, unsigned long long value, unsigned base,
                       unsigned figures)
{
    char reversed[24];
    unsigned count = 0;
    while (value != 0 || count < figures) {
        reversed[count++] = "0123456789ABCDEF"[value % base];
        value /= base;
    }
    while (count != 0)
        put(t, reversed[--count]);
}

static void put_text(struct text *t, const char *s)
{
    while (*s != '\0')
        put(t, *s++);
}

/* One conversion, from behind its '%'; what follows it is handed back. */
static const char *convert(struct text *t, const char *f, va_list *rest)
{
    unsigned figures = 1, size = 0;
    if (*f == '0')
        figures = (unsigned)(f[1] - '0'), f += 2;
    while (*f == 'l' || *f == 'z')
        size += *f++ == 'l';
    if (*f == 's')
        put_text(t, va_arg(*rest, const char *));
    else if (*f == 'c')
        put(t, (char)va_arg(*rest, int));
    else
        put_number(t, size == 2 ? va_arg(*rest, unsigned long long)
                                : va_arg(*rest, unsigned), *f == 'X' ? 16 : 10, figures);
    return f + 1;
}

static size_t put_all(char *to, size_t room, const char *f, va_list *rest)
{
    struct text t = { to, room, 0 };
    while (*f != '\0')
        if (*f == '%')
            f = convert(&t, f + 1, rest);
        else
            put(&t, *f++);
    if (room != 0)
        to[t.length < room ? t.length : room - 1] = '\0';
    return t.length;
}

static int print_to(const FILE *to, const char *format, va_list *rest)
{
    char text[512];
    size_t length = put_all(text, sizeof text, format, rest);
    return (int)call(SYS_WRITE, to->descriptor, (long)text, (long)length, 0, 0, 0);
}

int printf(const char *format, ...)
{
    va_list rest;
    va_start(rest, format);
    int wrote = print_to(stdout, format, &rest);
    va_end(rest);
    return wrote;
}

int fprintf(FILE *to, const char *format, ...)
{
    va_list rest;
    va_start(rest, format);
    int wrote = print_to(to, format, &rest);
    va_end(rest);
    return wrote;
}

int snprintf(char *to, size_t room, const char *format, ...)
{
    va_list rest;
    va_start(rest, format);
    int length = (int)put_all(to, room, format, &rest);
    va_end(rest);
    return length;
}

int fflush(FILE *of)
{
    (void)of;
    return 0;
}
