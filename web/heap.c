// What the module has beside the proved code: the heap that Rattle's `Global` calls, room for the page's bytes, and products of 128 bits.
// Nothing proves this file. A block is a power of two with its class in front; a block that is freed waits in the list of its class.
typedef unsigned long u64;
typedef unsigned char u8;
typedef unsigned __int128 u128;
typedef struct { u64 ok; u8 *place; } Tried;

enum { FRONT = 16, PAGE = 65536 };
extern u8 __heap_base[];
static u64 top;
static u8 *lists[64];

#ifdef TRIAL
// For a trial alone: the block with this number from now is refused, and no other one. The first is 1, and 0 is none. It answers how many
// were left before the one that was to be refused, and so 0 where it was.
static u64 refused;
u64 page_refuse(u64 number) {
    u64 left = refused;
    refused = number;
    return left;
}
#endif

static u64 class_of(u64 size) { return 64 - __builtin_clzl((size < 8 ? 8 : size) + FRONT - 1); }

static u64 memory_size(void) { return __builtin_wasm_memory_size(0) * PAGE; }

// Sees to it that the memory reaches to this end. It asks for a quarter more at least, since each growth may move what the host sees. What
// came of it is asked of the memory's size: the answer for want of memory is another number once addresses are lowered to 32 bits.
static int reaches(u64 end) {
    u64 has = memory_size();
    if (end <= has) return 1;
    u64 lacks = (end - has + PAGE - 1) / PAGE, quarter = has / PAGE / 4;
    if (lacks < quarter) __builtin_wasm_memory_grow(0, quarter);
    if (memory_size() < end) __builtin_wasm_memory_grow(0, lacks);
    return memory_size() >= end;
}

static u8 *block(u64 class) {
    u8 *found = lists[class];
    if (found) {
        lists[class] = *(u8 **)(found + FRONT);
        return found;
    }
    if (!top) top = ((u64)__heap_base + 15) & ~15ul;
    u64 end = top + (1ul << class);
    if (!reaches(end)) return 0;
    found = (u8 *)top;
    top = end;
    return found;
}

Tried rattle_alloc(u64 size, u64 align) {
#ifdef TRIAL
    if (refused && --refused == 0) return (Tried){0, 0};
#endif
    if (size > 1ul << 40) return (Tried){0, 0};
    u64 class = class_of(size);
    u8 *found = block(class);
    if (!found) return (Tried){0, 0};
    *(u64 *)found = class;
    return (Tried){1, found + FRONT};
}

void rattle_dealloc(u8 *place) {
    u8 *old = place - FRONT;
    u64 class = *(u64 *)old;
    *(u8 **)place = lists[class];
    lists[class] = old;
}

Tried rattle_realloc(u8 *place, u64 kept, u64 size, u64 align) {
    if (size > 1ul << 40) return (Tried){0, 0};
    if (class_of(size) <= *(u64 *)(place - FRONT)) return (Tried){1, place};
    Tried moved = rattle_alloc(size, align);
    if (!moved.ok) return moved;
    __builtin_memcpy(moved.place, place, kept);
    rattle_dealloc(place);
    return moved;
}

u8 *page_room(u64 size) { return rattle_alloc(size, 1).place; }

u128 __multi3(u128 x, u128 y) {
    u64 a = (u64)x, c = (u64)y, low = 0xffffffff;
    u64 ll = (a & low) * (c & low), lh = (a & low) * (c >> 32), hl = (a >> 32) * (c & low), hh = (a >> 32) * (c >> 32);
    u64 middle = (ll >> 32) + (lh & low) + (hl & low);
    u64 high = hh + (lh >> 32) + (hl >> 32) + (middle >> 32) + a * (u64)(y >> 64) + (u64)(x >> 64) * c;
    return (u128)high << 64 | middle << 32 | (ll & low);
}
