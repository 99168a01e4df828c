/* The heap of imports.c: malloc, free, realloc. Apart, so that tests/playing/heap.c can try it with a memory of its own. Whoever includes it
   has the types, memcpy and memmove, and four functions: heap_begin, pages_of_memory, grow_memory, refusal.

   Blocks lie side by side, from `bottom` to `top`; each begins 4 bytes below a multiple of 16 and its size is a multiple of 16:

       size and flags (4 bytes) | what was asked for, up to the end of the block        a block in use
       size and flags | next | before (4 bytes each) | .. | size again (4 bytes)        a free block

   So a block in use costs 4 bytes and what 16 bytes of alignment cost. No two free blocks touch, and none touches `top`: a block that is given
   back joins those beside it. Free blocks are listed by their sizes, exactly below 1 KiB, and above in 16 classes to each power of two.
   A request takes the least class that has a block for it, and the rest of the block stays free; where there is none, the heap grows at `top`.
   Addresses and sizes are below 2^32, since the module is lowered to memories of 32 bits. */
enum { USED = 1, IS_USED_BEFORE = 2, FLAGS = 15, UNIT = 16, EXACT = 64, CLASSES = EXACT + 22 * 16 };
#define PAGE 65536ul
#define MOST_PAGES 65535ul /* the last page is never there: an address just below 0 is a trap */
#define MOST_ASKED 0xfff00000ul
static u64 bottom, top, end;
static u32 lists[CLASSES];
static u64 filled[(CLASSES + 63) / 64];
static u64 refused_request, requests; /* for tests: the request with this number is refused; none where it is 0 */

struct block { u32 head, next, before; };
static struct block *block_at(u64 at) { return (struct block *)at; }
static u32 size_of(u64 at) { return block_at(at)->head & ~(u32)FLAGS; }
static u32 *last_word(u64 at, u32 size) { return (u32 *)(at + size - 4); }

static u32 class_of(u32 size)
{
    u32 units = size / UNIT;
    if (units < EXACT) return units;
    u32 log = 31 - (u32)__builtin_clz(units);
    return EXACT + (log - 6) * 16 + (units >> (log - 4) & 15);
}

static void list(u64 at, u32 size)
{
    u32 class = class_of(size), first = lists[class];
    *block_at(at) = (struct block){ .head = size | IS_USED_BEFORE, .next = first, .before = 0 };
    *last_word(at, size) = size;
    if (first) block_at(first)->before = (u32)at;
    lists[class] = (u32)at;
    filled[class / 64] |= 1ul << class % 64;
}

static void unlist(u64 at)
{
    struct block *it = block_at(at);
    if (it->next) block_at(it->next)->before = it->before;
    if (it->before) block_at(it->before)->next = it->next;
    else {
        u32 class = class_of(size_of(at));
        lists[class] = it->next;
        if (!it->next) filled[class / 64] &= ~(1ul << class % 64);
    }
}

/* A free block of at least this size, taken off its list; 0 where there is none. */
static u64 found(u32 size)
{
    u32 class = class_of(size);
    /* In its own class, where the sizes differ, the first few are looked at. */
    u64 at = lists[class];
    for (int tries = class < EXACT ? 1 : 8; at && tries; tries--, at = block_at(at)->next) {
        if (size_of(at) < size) continue;
        unlist(at);
        return at;
    }
    class++;
    for (u32 word = class / 64; word < sizeof filled / sizeof *filled; word++) {
        u64 bits = filled[word];
        if (word == class / 64) bits &= ~0ul << class % 64;
        if (!bits) continue;
        at = lists[word * 64 + (u32)__builtin_ctzl(bits)];
        unlist(at);
        return at;
    }
    return 0;
}

/* Of a block that is off the lists, the first `size` bytes come into use, and the rest is free; the block before it is in use. */
static void *used(u64 at, u32 has, u32 size)
{
    block_at(at)->head = size | USED | IS_USED_BEFORE;
    u64 next = at + has;
    if (has > size) list(at + size, has - size);
    if (next != top) block_at(next)->head = has > size ? block_at(next)->head & ~(u32)IS_USED_BEFORE : block_at(next)->head | IS_USED_BEFORE;
    return (void *)(at + 4);
}

static int grown_to(u64 to)
{
    if (to <= end) return 1;
    u64 least = (to - end + PAGE - 1) / PAGE, more = end / PAGE / 16;
    if (more < least) more = least;
    if (end / PAGE + more > MOST_PAGES || !grow_memory(more)) {
        more = least;
        if (end / PAGE + more > MOST_PAGES || !grow_memory(more)) return 0;
    }
    end += more * PAGE;
    return 1;
}

static u32 size_for(u64 asked) { return (u32)((asked + 4 + UNIT - 1) & ~(u64)(UNIT - 1)); }
static int is_refused(u64 asked) { return (refused_request && ++requests == refused_request) || asked > MOST_ASKED; }

static void *taken(u64 asked)
{
    u32 size = size_for(asked);
    u64 at = found(size);
    if (at) return used(at, size_of(at), size);
    if (!top) {
        bottom = top = ((heap_begin() + UNIT - 1) & ~(u64)(UNIT - 1)) + UNIT - 4;
        end = pages_of_memory() * PAGE;
    }
    if (!grown_to(top + size)) return refusal();
    at = top;
    top += size;
    return used(at, size, size);
}

/* Frees the block from `at` on, of this size; `is_used_before` says whether the block before it is in use. */
static void give_back(u64 at, u32 size, u32 is_used_before)
{
    if (!is_used_before) {
        u32 before = *(u32 *)(at - 4);
        at -= before;
        size += before;
        unlist(at);
    }
    u64 next = at + size;
    if (next == top) {
        top = at;
        return;
    }
    if (block_at(next)->head & USED) block_at(next)->head &= ~(u32)IS_USED_BEFORE;
    else {
        size += size_of(next);
        unlist(next);
    }
    list(at, size);
}

void *malloc(size_t asked) { return is_refused(asked) ? refusal() : taken(asked); }
void free(void *p)
{
    if (!p) return;
    u64 at = (u64)p - 4;
    give_back(at, size_of(at), block_at(at)->head & IS_USED_BEFORE);
}
/* A block that grows takes the free room beside it, also below it, where it is then moved to; else it is moved elsewhere. */
static void *grown(u64 at, u32 has, u64 asked)
{
    u32 size = size_for(asked), is_used_before = block_at(at)->head & IS_USED_BEFORE;
    u64 next = at + has, low = is_used_before ? at : at - *(u32 *)(at - 4);
    u32 more = next != top && !(block_at(next)->head & USED) ? size_of(next) : 0;
    u64 high = next + more;
    if (next == top && grown_to(low + size)) high = top = low + size;
    else if (high - at >= size) low = at;
    else if (high - low < size) {
        void *moved = taken(asked);
        if (!moved) return 0;
        memcpy(moved, (void *)(at + 4), has - 4);
        give_back(at, has, block_at(at)->head & IS_USED_BEFORE);
        return moved;
    }
    if (more) unlist(next);
    if (low != at) {
        unlist(low);
        memmove((void *)(low + 4), (void *)(at + 4), has - 4);
        is_used_before = IS_USED_BEFORE;
    }
    void *p = used(low, (u32)(high - low), size);
    if (!is_used_before) block_at(low)->head &= ~(u32)IS_USED_BEFORE;
    return p;
}
void *realloc(void *p, size_t asked)
{
    if (is_refused(asked)) return refusal();
    if (!p) return taken(asked);
    u64 at = (u64)p - 4;
    u32 has = size_of(at), size = size_for(asked);
    if (size > has) return grown(at, has, asked);
    if (size < has) {
        block_at(at)->head -= has - size;
        give_back(at + size, has - size, 1);
    }
    return p;
}
