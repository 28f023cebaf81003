// What a page calls: room for its texts, and the calls of the proved library, one at a time. A call that traps leaves
// the module locked, so a page takes a new one.
#define EXPORT(name) __attribute__((export_name(#name)))
extern unsigned char __heap_base;
static unsigned long long most = ~0ULL;    // pages
static unsigned long long page_count(void) { return __builtin_wasm_memory_size(0); }
static _Bool more_pages(unsigned long long n) {
    return page_count() + n <= most && __builtin_wasm_memory_grow(0, n) != ~0UL;
}
#include "heap.c"

typedef unsigned char u8;
typedef unsigned int u32;
typedef struct { u32 status, count; u64 length; } Ended;

_Bool __rattle_enter(void);
void __rattle_leave(void);
void grass_answer(u32 mode, const u8 *text, u64 length, const u8 *second, u64 others, u8 *into, u64 room, Ended *ended);
void grass_conditions(const u8 *text, u64 length, u32 skip, u32 count, u8 *into, u64 room, Ended *ended);
void grass_shown(const u8 *text, u64 length, u32 number, u8 *into, u64 room, Ended *ended);

// Room for n bytes, or null where memory runs out; and the most bytes to which the memory may grow.
EXPORT(room) void *page_room(u64 n) { return rattle_alloc(n, 16).p; }
EXPORT(give_back) void page_give_back(void *p) { rattle_dealloc(p); }
EXPORT(limit) void page_limit(u64 n) { most = n >> 16; }

EXPORT(answer)
void page_answer(u32 mode, const u8 *text, u64 length, const u8 *second, u64 others, u8 *into, u64 room, Ended *ended) {
    if (__rattle_enter()) __builtin_trap();
    grass_answer(mode, text, length, second, others, into, room, ended);
    __rattle_leave();
}
EXPORT(conditions)
void page_conditions(const u8 *text, u64 length, u32 skip, u32 count, u8 *into, u64 room, Ended *ended) {
    if (__rattle_enter()) __builtin_trap();
    grass_conditions(text, length, skip, count, into, room, ended);
    __rattle_leave();
}
EXPORT(shown)
void page_shown(const u8 *text, u64 length, u32 number, u8 *into, u64 room, Ended *ended) {
    if (__rattle_enter()) __builtin_trap();
    grass_shown(text, length, number, into, room, ended);
    __rattle_leave();
}
