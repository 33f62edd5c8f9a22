/* What the examples ask of the system, with or without a C library: some bytes to standard output. And what they hold
 * answers against. To be read behind timing_060.h, as C or as C++. */
#ifndef SYSTEM_H
#define SYSTEM_H

static void put(const char *s, unsigned long n);

static void print(const char *s) {
    unsigned long n = 0;
    while (s[n]) n++;
    put(s, n);
}

static int failures;

static void expect(int holds, const char *what) {
    if (holds) return;
    failures++;
    print("differs: ");
    print(what);
    print("\n");
}

static inline int is(timing_060_ran r, uint64_t refusal, uint64_t place, uint64_t count, uint64_t total) {
    return r.refusal == refusal && r.place == place && r.count == count && r.total == total;
}

static inline void print_decimal(uint64_t x) {
    char s[20];
    int i = 20;
    do s[--i] = (char)('0' + x % 10);
    while (x /= 10);
    put(s + i, 20ul - (unsigned long)i);
}

/* The program itself: its answer is the exit status. */
static int host(void);

#if __STDC_HOSTED__
#include <stdio.h>
static void put(const char *s, unsigned long n) { fwrite(s, 1, n, stdout); }
int main(void) { return host(); }
#else
/* No C library: Linux on x86-64 is asked directly, and the two functions that the library needs are here. */
static long ask(long number, long a, long b, long c) {
    long r;
    __asm__ volatile("syscall" : "=a"(r) : "a"(number), "D"(a), "S"(b), "d"(c) : "rcx", "r11", "memory");
    return r;
}
static void put(const char *s, unsigned long n) { ask(1, 1, (long)s, (long)n); }
#ifdef __cplusplus
extern "C" {
#endif
void *memcpy(void *to, const void *from, unsigned long n) {
    char *d = (char *)to;
    const char *s = (const char *)from;
    while (n--) *d++ = *s++;
    return to;
}
void *memset(void *to, int x, unsigned long n) {
    char *d = (char *)to;
    while (n--) *d++ = (char)x;
    return to;
}
__attribute__((used)) void begin(void) { ask(60, host(), 0, 0); }
__attribute__((naked)) void _start(void) { __asm__("andq $-16, %rsp\n\tcall begin\n"); }
#ifdef __cplusplus
}
#endif
#endif

#endif
