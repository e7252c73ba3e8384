/* The region as memory: mapped as ramoops maps it, and written store by store. */
#ifndef REGION_H
#define REGION_H

#include <linux/types.h>

/* ramoops's mem_type. */
enum { REGION_COMBINED = 0, REGION_UNBUFFERED = 1, REGION_CACHED = 2 };

struct region {
	phys_addr_t address;
	size_t size;
	unsigned int type;
	u8 *mapped;	/* where each store goes */
	u8 *view;	/* what the calls read: the same, or of device memory a copy */
	bool by_pages;	/* mapped by vmap, and not by ioremap */
	bool is_device;
	bool is_cached;
};

int region_map(struct region *r);
void region_unmap(struct region *r);

void region_store_word(struct region *r, u32 at, u32 word);
void region_store_bytes(struct region *r, u32 at, const u8 *bytes, u32 len);

#endif
