// What the module needs of a C library: the calls by which compiled code asks for memory. Free blocks that lie beside
// each other are one. Who includes it gives __heap_base, page_count, more_pages. Not proved; heap_test.c tries it.
typedef unsigned long long u64;
// `size` is that of the whole block, odd where it is taken, and `before` that of the block before it. Free blocks of a
// class, between two powers of two, are a list. `last` is an empty taken block behind all others.
typedef struct Block { u64 size, before; struct Block *next, *previous; } Block;
typedef struct { u64 ok; void *p; } Tried;
enum { HEAD = 16, LEAST = 32, TRIES = 16 };
static Block *lists[64], *last;
static int class_of(u64 size) { return 63 - __builtin_clzll(size); }
static Block *behind(Block *b, u64 size) { return (Block *)((char *)b + size); }
static u64 needed(u64 n) { return n < HEAD ? LEAST : (n + HEAD + 15) & ~15ULL; }
static void leave(Block *b) {
    *(b->previous ? &b->previous->next : &lists[class_of(b->size)]) = b->next;
    if (b->next) b->next->previous = b->previous;
}
static void give(Block *b, u64 size) {
    Block *next = behind(b, size), *before = (Block *)((char *)b - b->before);
    if (!(next->size & 1)) { leave(next); size += next->size; }
    if (b->before && !(before->size & 1)) { leave(before); size += before->size; b = before; }
    Block **list = &lists[class_of(size)];
    b->size = behind(b, size)->before = size, b->previous = 0, b->next = *list;
    if (*list) (*list)->previous = b;
    *list = b;
}
static _Bool grow(u64 size) {
    u64 begin = last ? (u64)last : ((u64)&__heap_base + 15) & ~15ULL, pages = (size + 2 * HEAD + 65535) >> 16;
    if (!more_pages(pages + (page_count() >> 4)) && !more_pages(pages)) return 0;
    last = (Block *)((page_count() << 16) - HEAD), last->size = 1;
    give((Block *)begin, (u64)last - begin);
    return 1;
}
static Block *find(u64 size) {
    int class = class_of(size), tries = TRIES;
    for (Block *b = lists[class]; b && tries; b = b->next, tries--) if (b->size >= size) return b;
    while (++class < 48) if (lists[class]) return lists[class];
    return 0;
}
static Tried cut(Block *b, u64 have, u64 size) {   // takes the front of a block, and gives the rest back
    u64 rest = have - size, kept = rest < LEAST ? have : size;
    b->size = kept | 1, behind(b, kept)->before = kept;
    if (rest >= LEAST) give(behind(b, kept), rest);
    return (Tried){ 1, (char *)b + HEAD };
}
Tried rattle_alloc(u64 n, u64 align) {
    if (align > 16 || n > 1ULL << 40) return (Tried){ 0, 0 };
    Block *b = find(needed(n));
    if (!b && !(grow(needed(n)) && (b = find(needed(n))))) return (Tried){ 0, 0 };
    return leave(b), cut(b, b->size, needed(n));
}
void rattle_dealloc(void *p) { Block *b = (Block *)((char *)p - HEAD); give(b, b->size - 1); }
Tried rattle_realloc(void *p, u64 kept, u64 n, u64 align) {
    Block *b = (Block *)((char *)p - HEAD), *next = behind(b, b->size - 1);
    u64 have = b->size - 1, joined = have + (next->size & 1 ? 0 : next->size);
    if (n <= joined && have < needed(n) && joined >= needed(n)) { leave(next); have = joined; }
    if (n <= have && have >= needed(n)) return cut(b, have, needed(n));
    Tried made = rattle_alloc(n, align);
    if (made.ok) { __builtin_memcpy(made.p, p, kept < n ? kept : n); rattle_dealloc(p); }
    return made;
}
