/* A program without a C library on Linux, for x86-64 and aarch64; and in WebAssembly, where the other module's memory is shared. */
#include "bare.h"
#include "string.h"

/* ---------------------------------------------------------------- the system */

#if defined(__wasm__)

__attribute__((import_module("bare"), import_name("write"))) void system_write(const char *bytes, size_t count);
__attribute__((import_module("bare"), import_name("end"), noreturn)) void system_end(int status);

__attribute__((export_name("start"))) void start(void)
{
    system_end(run());
}

#else

#if defined(__x86_64__)
enum { WRITE = 1, EXIT = 60 };

static long system_call(long number, long first, long second, long third)
{
    long result;
    __asm__ volatile("syscall" : "=a"(result) : "a"(number), "D"(first), "S"(second), "d"(third) : "rcx", "r11", "memory");
    return result;
}

__asm__(".globl _start\n_start:\n  xorl %ebp, %ebp\n  andq $-16, %rsp\n  call bare_start\n");
#elif defined(__aarch64__)
enum { WRITE = 64, EXIT = 93 };

static long system_call(long number, long first, long second, long third)
{
    register long x8 __asm__("x8") = number;
    register long x0 __asm__("x0") = first;
    register long x1 __asm__("x1") = second;
    register long x2 __asm__("x2") = third;
    __asm__ volatile("svc 0" : "+r"(x0) : "r"(x8), "r"(x1), "r"(x2) : "memory");
    return x0;
}

__asm__(".globl _start\n_start:\n  mov x29, #0\n  bl bare_start\n");
#else
#error "no such target"
#endif

static void system_write(const char *bytes, size_t count)
{
    while (count > 0) {
        const long written = system_call(WRITE, 1, (long)bytes, (long)count);
        if (written <= 0)
            return;
        bytes += written;
        count -= (size_t)written;
    }
}

static void system_end(int status)
{
    for (;;)
        system_call(EXIT, status, 0, 0);
}

void bare_start(void);
void bare_start(void)
{
    system_end(run());
}

#endif

/* ---------------------------------------------------------------- memory: what a compiler may call, so no call may come of the loops */

__attribute__((no_builtin)) void *memcpy(void *to, const void *from, size_t count)
{
    unsigned char *t = to;
    const unsigned char *f = from;
    for (; count > 0; count--)
        *t++ = *f++;
    return to;
}

__attribute__((no_builtin)) void *memmove(void *to, const void *from, size_t count)
{
    unsigned char *t = to;
    const unsigned char *f = from;
    if (t <= f)
        return memcpy(to, from, count);
    while (count > 0) {
        count--;
        t[count] = f[count];
    }
    return to;
}

__attribute__((no_builtin)) void *memset(void *to, int byte, size_t count)
{
    unsigned char *t = to;
    for (; count > 0; count--)
        *t++ = (unsigned char)byte;
    return to;
}

/* ---------------------------------------------------------------- output */

static size_t length_of(const char *text)
{
    size_t length = 0;
    while (text[length] != 0)
        length++;
    return length;
}

void say(const char *text)
{
    system_write(text, length_of(text));
}

static void say_digits(uint64_t number, unsigned base)
{
    char digits[21];
    size_t at = sizeof digits;
    digits[--at] = 0;
    do {
        digits[--at] = "0123456789abcdef"[number % base];
        number /= base;
    } while (number > 0);
    say(digits + at);
}

void say_decimal(uint64_t number)
{
    say_digits(number, 10);
}

void say_hexadecimal(uint64_t number)
{
    say_digits(number, 16);
}

void must(int holds, const char *what)
{
    if (!holds) {
        say(what);
        say("\n");
        system_end(1);
    }
}

/* ---------------------------------------------------------------- the stack */

enum { PAINT = 0xA5, STACK = 1 << 19, NEAR = 256 };

#if defined(__wasm__)

/* The module's stack lies below STACK_TOP, which the module's linker was given, and is empty between calls. */
static unsigned char *stack_top(void)
{
    return (unsigned char *)STACK_TOP;
}
static unsigned char *stack_low(void)
{
    return (unsigned char *)NEAR;
}

#else

/* The stack below the frame of the function that calls this. */
static inline __attribute__((always_inline)) unsigned char *stack_top(void)
{
    return __builtin_frame_address(0);
}
static inline __attribute__((always_inline)) unsigned char *stack_low(void)
{
    return stack_top() - STACK;
}

#endif

/* Paints the stack but for what this function's own frame may take. */
__attribute__((noinline)) static void paint(unsigned char *low, unsigned char *top)
{
    for (volatile unsigned char *at = low; at < top - NEAR; at++)
        *at = PAINT;
}

__attribute__((noinline)) size_t stack_of(call *on)
{
    unsigned char *const top = stack_top(), *low = stack_low();
    paint(low, top);
    on();
    while (low < top - NEAR && *(volatile unsigned char *)low == PAINT)
        low++;
    return (size_t)(top - low);
}
