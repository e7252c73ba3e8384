// The types of the module for the page, and the allocator that the proved code calls.
typedef unsigned char u8;
typedef unsigned int u32;
typedef unsigned long u64;

// An allocation that was tried: whether there is room, and where. So the lowered code reads it.
typedef struct {
    u64 is_done;
    u8 *room;
} Tried;

Tried rattle_alloc(u64 count, u64 alignment);
Tried rattle_realloc(u8 *room, u64 kept, u64 count, u64 alignment);
void rattle_dealloc(u8 *room);
