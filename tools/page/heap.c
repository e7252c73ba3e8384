// The heap of the module for the page. A block has a power of two of bytes, 16 of them a header, and there is a list of
// free blocks for each power. Rooms begin at multiples of 16. Memory comes from memory.grow and is never given back:
// each report has an instance of its own.
#include "page.h"

extern u8 __heap_base;

typedef struct Block {
    u64 power;
    struct Block *next;
} Block;

static const u64 PAGE = 65536;
static const u64 MOST = 1ul << 40;
static Block *free_blocks[41];
static u64 top; // the end of all blocks

// Grows the memory to `end`, by half of it at least: an engine may move all of it at each growth.
static _Bool reach(u64 end)
{
    u64 pages = __builtin_wasm_memory_size(0), needed = (end + PAGE - 1) / PAGE;
    if (needed <= pages)
        return 1;
    if (needed - pages < pages / 2 && __builtin_wasm_memory_grow(0, pages / 2) != (u64)-1)
        return 1;
    return __builtin_wasm_memory_grow(0, needed - pages) != (u64)-1;
}

static Block *new_block(u64 power)
{
    if (!top)
        top = ((u64)&__heap_base + 15) & ~15ul;
    if (!reach(top + (1ul << power)))
        return 0;
    Block *block = (Block *)top;
    top += 1ul << power;
    return block;
}

static u8 *take(u64 count)
{
    if (count > MOST - sizeof(Block))
        return 0;
    u64 power = 5;
    while ((1ul << power) < count + sizeof(Block))
        power++;
    Block *block = free_blocks[power];
    if (block)
        free_blocks[power] = block->next;
    else
        block = new_block(power);
    if (!block)
        return 0;
    block->power = power;
    return (u8 *)(block + 1);
}

void rattle_dealloc(u8 *room)
{
    if (!room)
        return;
    Block *block = (Block *)room - 1;
    block->next = free_blocks[block->power];
    free_blocks[block->power] = block;
}

Tried rattle_alloc(u64 count, u64 alignment)
{
    u8 *room = alignment > 16 ? 0 : take(count);
    return (Tried){room != 0, room};
}

Tried rattle_realloc(u8 *room, u64 kept, u64 count, u64 alignment)
{
    if (room && count <= MOST && count + sizeof(Block) <= 1ul << ((Block *)room - 1)->power)
        return (Tried){1, room};
    Tried tried = rattle_alloc(count, alignment);
    if (tried.room && room) {
        __builtin_memcpy(tried.room, room, kept);
        rattle_dealloc(room);
    }
    return tried;
}
