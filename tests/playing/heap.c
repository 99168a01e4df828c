/* Tries play/heap.c with a memory of its own: blocks asked for, grown, shrunk and given back at random keep what is in them, and between the calls
   the heap is as its head says. heap SEED.. : the seeds of the random numbers. */
#define _GNU_SOURCE
#include <stdio.h>
#include <stdlib.h>
#include <string.h>
#include <sys/mman.h>

typedef unsigned int u32;
typedef unsigned long u64;
typedef unsigned char u8;

#define FIRST 0x20000000ul
static u64 pages = 1, most_pages = 1500;
static u64 heap_begin(void) { return FIRST + 40; }
static u64 pages_of_memory(void) { return FIRST / 65536 + pages; }
static int grow_memory(u64 more)
{
    if (pages + more > most_pages) return 0;
    pages += more;
    return 1;
}
static void *refusal(void) { return NULL; }
#define malloc heap_malloc
#define free heap_free
#define realloc heap_realloc
#include "../../play/heap.c"
#undef malloc
#undef free
#undef realloc

static void require(int is_so, const char *what)
{
    if (is_so) return;
    printf("heap: FAILS: %s\n", what);
    exit(1);
}

static void look(void)
{
    u32 is_used_before = IS_USED_BEFORE;
    u64 free_blocks = 0, listed = 0;
    for (u64 at = bottom; at < top; at += size_of(at)) {
        u32 head = block_at(at)->head;
        require(size_of(at) >= UNIT && (head & IS_USED_BEFORE) == is_used_before, "a head says whether the block before it is in use");
        if (!(head & USED)) {
            require(is_used_before && at + size_of(at) < top, "no free block touches another, or the top");
            require(*last_word(at, size_of(at)) == size_of(at), "a free block ends with its size");
            free_blocks++;
        }
        is_used_before = head & USED ? IS_USED_BEFORE : 0;
    }
    for (u32 class = 0; class < CLASSES; class++) {
        require(!lists[class] == !(filled[class / 64] >> class % 64 & 1), "a bit says whether a list is empty");
        for (u32 at = lists[class], before = 0; at; before = at, at = block_at(at)->next, listed++)
            require(block_at(at)->before == before && class_of(size_of(at)) == class, "a free block is in the list of its class");
    }
    require(listed == free_blocks, "each free block is listed");
}

#define BLOCKS 300
static struct { u8 *at, what; u32 size; } held[BLOCKS];

static int holds(int k, u32 size)
{
    for (u32 i = 0; i < size; i++) if (held[k].at[i] != held[k].what) return 0;
    return 1;
}
static void fill(int k, u8 *at, u32 size)
{
    held[k].at = at;
    held[k].size = size;
    held[k].what = (u8)rand();
    memset(at, held[k].what, size);
}
static u32 any_size(u32 now)
{
    static const u32 most[] = { 40, 600, 5000, 100000, 200 };
    u32 k = (u32)rand() % 6, size = k == 5 ? 2 * now : (u32)rand() % most[k];
    return size > 2000000 ? 100 : size;
}
static void step(void)
{
    int k = rand() % BLOCKS;
    u32 size = any_size(held[k].size), was = held[k].size;
    if (!held[k].at) {
        u8 *at = heap_malloc(size);
        require(!((u64)at % 16), "a block begins at a multiple of 16");
        if (at) fill(k, at, size);
        return;
    }
    require(holds(k, was), "a block keeps what is in it");
    if (rand() % 2) {
        heap_free(held[k].at);
        held[k].at = NULL;
        held[k].size = 0;
        return;
    }
    u8 *at = heap_realloc(held[k].at, size);
    if (!at) {
        require(size > was && holds(k, was), "a block that cannot grow stays as it is");
        return;
    }
    held[k].at = at;
    require(holds(k, size < was ? size : was), "a block that grows or shrinks keeps what is in it");
    fill(k, at, size);
}

int main(int count, char **words)
{
    void *memory = mmap((void *)FIRST, most_pages * 65536, PROT_READ | PROT_WRITE, MAP_PRIVATE | MAP_ANONYMOUS | MAP_FIXED_NOREPLACE, -1, 0);
    require(memory == (void *)FIRST, "there is memory to try it with");
    for (int i = 1; i < count; i++) {
        srand((u32)atoi(words[i]));
        if (i == count - 1) most_pages = pages + 8; /* the last time it cannot grow */
        for (int k = 0; k < 60000; k++) {
            step();
            if (k % 7 == 0) look();
        }
    }
    for (int k = 0; k < BLOCKS; k++) heap_free(held[k].at);
    look();
    require(top == bottom, "all that is given back is one");
    printf("heap: %d rounds of 60000 calls hold\n", count - 1);
}
