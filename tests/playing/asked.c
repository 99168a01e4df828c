/* Laid under the program by LD_PRELOAD: at its end, a line on standard error says the most bytes that it had asked for and not given back. Each block
   has its size in the 16 bytes before it. */
#define _GNU_SOURCE
#include <stddef.h>
#include <stdio.h>
#include <sys/syscall.h>
#include <unistd.h>
void *__libc_malloc(size_t);
void *__libc_realloc(void *, size_t);
void __libc_free(void *);
static size_t live, most;
enum { HEAD = 16 };

static void *given(char *block, size_t size, size_t was)
{
    if (!block) return 0;
    *(size_t *)block = size;
    live += size - was;
    if (live > most) most = live;
    return block + HEAD;
}
void *malloc(size_t size) { return given(__libc_malloc(size + HEAD), size, 0); }
void *realloc(void *at, size_t size)
{
    if (!at) return malloc(size);
    char *block = (char *)at - HEAD;
    size_t was = *(size_t *)block;
    return given(__libc_realloc(block, size + HEAD), size, was);
}
void free(void *at)
{
    if (!at) return;
    live -= *(size_t *)((char *)at - HEAD);
    __libc_free((char *)at - HEAD);
}
_Noreturn void _exit(int status)
{
    char text[64];
    if (write(2, text, (size_t)snprintf(text, sizeof text, "asked %zu\n", most)) < 0) status = 99;
    syscall(SYS_exit_group, status);
    __builtin_unreachable();
}
