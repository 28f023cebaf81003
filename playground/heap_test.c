// Tries heap.c on pages of its own: blocks at random, each full of its own mark, none over another, all aligned. After
// all are given back, one free block is left; if memory runs out, the heap says so and goes on. Prints what it did.
#define _GNU_SOURCE
#include <stdio.h>
#include <stdlib.h>
#include <sys/mman.h>
#define BASE 0x100000000ULL
#define ROOM (1ULL << 30)
#define __heap_base (*(unsigned char *)BASE)
static unsigned long long held = (BASE >> 16) + 1, most = ~0ULL;
static unsigned long long page_count(void) { return held; }
static _Bool more_pages(unsigned long long n) {
    _Bool fits = held + n <= (BASE + ROOM) >> 16 && held + n <= most;
    held += fits ? n : 0;
    return fits;
}
#include "heap.c"

enum { BLOCKS = 4000, ROUNDS = 400000 };
static struct { unsigned char *p; u64 n; unsigned char mark; } blocks[BLOCKS];

static void must(int holds, const char *what) {
    if (holds) return;
    printf("heap: %s\n", what);
    exit(1);
}
static void check(int k) {
    for (u64 i = 0; i < blocks[k].n; i++) must(blocks[k].p[i] == blocks[k].mark, "a block lost its bytes");
}
static void fill(int k, u64 from) {
    must(((u64)blocks[k].p & 15) == 0, "a block isn't aligned");
    for (u64 i = from; i < blocks[k].n; i++) blocks[k].p[i] = blocks[k].mark;
}
static u64 some_size(void) { return (u64)rand() % (rand() % 50 ? 300 : 60000); }

static void turn(int k) {
    u64 n = some_size();
    if (!blocks[k].p) {
        Tried made = rattle_alloc(n, 16);
        must(made.ok, "memory ran out early");
        blocks[k].p = made.p, blocks[k].n = n, blocks[k].mark = (unsigned char)rand();
        fill(k, 0);
    } else if (rand() % 3) {
        check(k);
        rattle_dealloc(blocks[k].p);
        blocks[k].p = 0;
    } else {
        Tried made = rattle_realloc(blocks[k].p, blocks[k].n, n, 16);
        must(made.ok, "memory ran out early");
        u64 kept = n < blocks[k].n ? n : blocks[k].n;
        blocks[k].p = made.p, blocks[k].n = kept;
        check(k);
        blocks[k].n = n;
        fill(k, kept);
    }
}
static int free_blocks(void) {
    int count = 0;
    for (int class = 0; class < 64; class++) for (Block *b = lists[class]; b; b = b->next) count++;
    return count;
}

int main(void) {
    must(mmap((void *)BASE, ROOM, PROT_READ | PROT_WRITE, MAP_PRIVATE | MAP_ANONYMOUS | MAP_FIXED_NOREPLACE | MAP_NORESERVE,
        -1, 0) == (void *)BASE, "no pages to try it on");
    srand(7);
    for (int round = 0; round < ROUNDS; round++) turn(rand() % BLOCKS);
    for (int k = 0; k < BLOCKS; k++) if (blocks[k].p) { check(k); rattle_dealloc(blocks[k].p); }
    must(free_blocks() == 1, "free blocks beside each other aren't joined");
    must(!rattle_alloc(ROOM, 16).ok && !rattle_alloc(~0ULL, 16).ok, "more was given than there is");
    most = held;
    must(!rattle_alloc((held << 16) - BASE, 16).ok, "the limit was passed");
    Tried again = rattle_alloc(1000, 16);
    must(again.ok, "nothing is given after a refusal");
    rattle_dealloc(again.p);
    must(free_blocks() == 1, "the last block isn't joined");
    printf("heap: %d turns on %d blocks, %llu KiB, one free block at the end\n", ROUNDS, BLOCKS, (held << 6) - (BASE >> 10));
    return 0;
}
