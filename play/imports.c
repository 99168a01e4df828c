/* What the program imports of the C library and of rattle's own few C functions (arguments, environment, errno, heap), for WebAssembly with one
   thread. Compiled for wasm64, with no header of any C library; what touches the world is a function of the host (host.js). docs/trust.md
   says what each has to do. */
typedef unsigned int u32;
typedef unsigned long u64; /* 64 bits on wasm64 */
typedef long i64;
typedef unsigned char u8;
typedef __SIZE_TYPE__ size_t;
_Static_assert(sizeof(u32) == 4 && sizeof(u64) == 8 && sizeof(void *) == 8, "wasm64");

#define HOST(name) __attribute__((import_module("host"), import_name(#name))) extern
HOST(write) i64 host_write(int fd, const void *at, u64 length);
HOST(read) i64 host_read(int fd, void *at, u64 length);
HOST(open) int host_open(const char *path, u64 length, int flags);
HOST(close) int host_close(int fd);
HOST(lseek) i64 host_lseek(int fd, i64 by, int whence);
HOST(isatty) int host_isatty(int fd);
HOST(clock) double host_clock(int which);
HOST(exit) _Noreturn void host_exit(int status);

/* ---- errno: a host function answers the negated number of Linux */
enum { EBADF = 9, EAGAIN = 11, ENOMEM = 12, ESRCH = 3, ENOTTY = 25, ENOSYS = 38 };
static int number;
int *__errno_location(void) { return &number; }
int rattle_errno(void) { return number; }
void rattle_set_errno(int to) { number = to; }
static i64 told(i64 answer)
{
    if (answer >= 0) return answer;
    number = (int)-answer;
    return -1;
}

/* ---- files, terminals, clocks, the end */
i64 write(int fd, const void *at, size_t length) { return told(host_write(fd, at, length)); }
i64 __write(int fd, const void *at, size_t length) { return write(fd, at, length); }
i64 read(int fd, void *at, size_t length) { return told(host_read(fd, at, length)); }
int open(const char *path, int flags, ...)
{
    u64 length = 0;
    while (path[length]) length++;
    return (int)told(host_open(path, length, flags));
}
int close(int fd) { return (int)told(host_close(fd)); }
i64 lseek(int fd, i64 by, int whence) { return told(host_lseek(fd, by, whence)); }
int isatty(int fd)
{
    if (host_isatty(fd)) return 1;
    number = ENOTTY;
    return 0;
}
int clock_gettime(int which, i64 *to)
{
    double ns = host_clock(which);
    to[0] = (i64)(ns / 1e9);
    to[1] = (i64)(ns - (double)to[0] * 1e9);
    return 0;
}
_Noreturn void _exit(int status) { host_exit(status); }
_Noreturn void abort(void) { __builtin_trap(); }
u64 __sysv_signal(int what, u64 handler) { (void)what; (void)handler; return 0; }

/* ---- what the start of a program for x86-64 asks of the processor: each feature is there, since code for WebAssembly needs none of them */
static const u32 leaf[8] = { ~0u, ~0u, ~0u, ~0u, ~0u, ~0u, ~0u, ~0u };
const void *__x86_get_cpuid_feature_leaf(u32 which) { (void)which; return leaf; }

/* ---- threads: none can be started */
int pthread_attr_init(void *a) { (void)a; return 0; }
int pthread_attr_setguardsize(void *a, size_t n) { (void)a; (void)n; return 0; }
int pthread_attr_setstacksize(void *a, size_t n) { (void)a; (void)n; return 0; }
int pthread_attr_destroy(void *a) { (void)a; return 0; }
int pthread_create(void *t, const void *a, void *f, void *x) { (void)t; (void)a; (void)f; (void)x; return EAGAIN; }
u64 pthread_self(void) { return 1; }
int pthread_detach(u64 t) { (void)t; return ESRCH; }
int pthread_join(u64 t, void **r) { (void)t; (void)r; return ESRCH; }
int sched_yield(void) { return 0; }
/* The one call is a futex, of which a single thread has no need. */
i64 syscall(i64 what, void *a, i64 b, i64 c, void *d, ...) { (void)what; (void)a; (void)b; (void)c; (void)d; number = ENOSYS; return -1; }

/* ---- the arguments, and no environment */
static i64 count;
static char **arguments;
i64 rattle_arg_count(void) { return count; }
i64 rattle_arg(u64 at, u8 *to, u64 room)
{
    if (at >= (u64)count || !arguments[at]) return -1;
    u64 n = 0;
    for (; arguments[at][n]; n++) {
        if (n == room) return -2;
        to[n] = (u8)arguments[at][n];
    }
    return (i64)n;
}
i64 rattle_env(const char *name, u8 *to, u64 room) { (void)name; (void)to; (void)room; return -1; }
i64 rattle_env_at(u64 at, u8 *to, u64 room) { (void)at; (void)to; (void)room; return -1; }

/* ---- the heap, over the module's own memory */
extern u8 __heap_base;
static u64 heap_begin(void) { return (u64)&__heap_base; }
static u64 pages_of_memory(void) { return __builtin_wasm_memory_size(0); }
static int grow_memory(u64 pages) { return __builtin_wasm_memory_grow(0, pages) != (u64)-1; }
static void *refusal(void)
{
    number = ENOMEM;
    return 0;
}
void *memcpy(void *restrict to, const void *restrict from, size_t n);
void *memmove(void *to, const void *from, size_t n);
#include "heap.c"

static u8 nothing[16];
struct answer { u64 is, at; };
static struct answer answered(void *p) { return (struct answer){ p != 0, p ? (u64)p : (u64)nothing }; }
struct answer rattle_alloc(u64 size, u64 align) { return answered(malloc(size ? size : align)); }
struct answer rattle_realloc(void *old, u64 old_size, u64 size, u64 align) { (void)old_size; return answered(realloc(old, size ? size : align)); }
void rattle_dealloc(void *p) { free(p); }

/* ---- moving bytes: few by words, many by the engine */
#define FEW 96
typedef u64 __attribute__((aligned(1), may_alias)) word;
void *memcpy(void *restrict to, const void *restrict from, size_t n)
{
    u8 *a = to;
    const u8 *b = from;
    if (n > FEW) {
        __asm__("local.get %0\n\tlocal.get %1\n\tlocal.get %2\n\tmemory.copy 0, 0" : : "r"(a), "r"(b), "r"(n) : "memory");
        return to;
    }
    for (; n >= 8; n -= 8, a += 8, b += 8) *(word *)a = *(const word *)b;
    for (; n; n--) *a++ = *b++;
    return to;
}
void *memmove(void *to, const void *from, size_t n)
{
    u8 *a = to;
    const u8 *b = from;
    if (n > FEW) {
        __asm__("local.get %0\n\tlocal.get %1\n\tlocal.get %2\n\tmemory.copy 0, 0" : : "r"(a), "r"(b), "r"(n) : "memory");
        return to;
    }
    if ((u64)(a - b) >= n) {
        for (; n >= 8; n -= 8, a += 8, b += 8) *(word *)a = *(const word *)b;
        for (; n; n--) *a++ = *b++;
    } else {
        while (n >= 8) n -= 8, *(word *)(a + n) = *(const word *)(b + n);
        while (n) n--, a[n] = b[n];
    }
    return to;
}
void *memset(void *to, int what, size_t n)
{
    u8 *a = to;
    if (n > FEW) {
        __asm__("local.get %0\n\tlocal.get %1\n\tlocal.get %2\n\tmemory.fill 0" : : "r"(a), "r"(what), "r"(n) : "memory");
        return to;
    }
    u64 w = 0x0101010101010101ul * (u8)what;
    for (; n >= 8; n -= 8, a += 8) *(word *)a = w;
    for (; n; n--) *a++ = (u8)what;
    return to;
}

/* ---- 128 bits, which WebAssembly lacks */
typedef __int128 i128;
typedef unsigned __int128 u128;
union wide { u128 all; struct { u64 low, high; }; };
i128 __multi3(i128 x, i128 y)
{
    union wide a = { (u128)x }, b = { (u128)y }, r;
    u64 al = a.low & 0xffffffff, ah = a.low >> 32, bl = b.low & 0xffffffff, bh = b.low >> 32;
    u64 ll = al * bl, lh = al * bh, hl = ah * bl, hh = ah * bh;
    u64 middle = (ll >> 32) + (lh & 0xffffffff) + (hl & 0xffffffff);
    r.low = (ll & 0xffffffff) | (middle << 32);
    r.high = hh + (lh >> 32) + (hl >> 32) + (middle >> 32) + a.low * b.high + a.high * b.low;
    return (i128)r.all;
}
static u128 divided(u128 n, u128 d, u128 *rest)
{
    union wide x = { n }, y = { d };
    if (!x.high && !y.high) {
        *rest = x.low % y.low;
        return x.low / y.low;
    }
    u128 q = 0, r = 0;
    for (int i = 127; i >= 0; i--) {
        u32 carry = (u32)(((union wide){ r }).high >> 63);
        r = (r << 1) | ((n >> i) & 1);
        if (carry || r >= d) {
            r -= d;
            q |= (u128)1 << i;
        }
    }
    *rest = r;
    return q;
}
u128 __udivti3(u128 n, u128 d) { u128 r; return divided(n, d, &r); }
u128 __umodti3(u128 n, u128 d) { u128 r; divided(n, d, &r); return r; }
i128 __divti3(i128 n, i128 d)
{
    u128 r, q = divided(n < 0 ? -(u128)n : (u128)n, d < 0 ? -(u128)d : (u128)d, &r);
    return (i128)((n < 0) != (d < 0) ? -q : q);
}
i128 __modti3(i128 n, i128 d)
{
    u128 r;
    divided(n < 0 ? -(u128)n : (u128)n, d < 0 ? -(u128)d : (u128)d, &r);
    return (i128)(n < 0 ? -r : r);
}
u128 __lshrti3(u128 x, int by)
{
    union wide a = { x };
    if (by & 64) return (union wide){ .low = a.high >> (by & 63), .high = 0 }.all;
    if (!by) return x;
    return (union wide){ .low = (a.low >> by) | (a.high << (64 - by)), .high = a.high >> by }.all;
}
u128 __ashlti3(u128 x, int by)
{
    union wide a = { x };
    if (by & 64) return (union wide){ .low = 0, .high = a.low << (by & 63) }.all;
    if (!by) return x;
    return (union wide){ .low = a.low << by, .high = (a.high << by) | (a.low >> (64 - by)) }.all;
}
i128 __ashrti3(i128 x, int by)
{
    union wide a = { (u128)x };
    i64 high = (i64)a.high;
    if (by & 64) return (i128)(union wide){ .low = (u64)(high >> (by & 63)), .high = (u64)(high >> 63) }.all;
    if (!by) return x;
    return (i128)(union wide){ .low = (a.low >> by) | (a.high << (64 - by)), .high = (u64)(high >> by) }.all;
}

/* ---- what the host calls: room for the arguments, and then the program */
int program_main(void) __asm__("main");
__attribute__((export_name("room"))) void *room(u64 n) { return malloc(n); }
__attribute__((export_name("refuse"))) void refuse(u64 which)
{
    refused_request = which;
    requests = 0;
}
__attribute__((export_name("start"))) int start(i64 argc, char **argv)
{
    count = argc;
    arguments = argv;
    return program_main();
}
