/* A zone of the region: written, read and booted by the calls of oopsbox. */
#ifndef ZONE_H
#define ZONE_H

#include <linux/spinlock.h>
#include <linux/types.h>
#include <oopsbox.h>
#include "region.h"

/*
 * What a writer works with, so that a write allocates nothing. pstore makes one dump at a time, and one erasure: so all
 * dumps have one lane, and all erasures have one. A console, pmsg and each ftrace zone have their own, by the zone's lock.
 */
struct lane {
	struct oopsbox_flight flight;
	struct oopsbox_boot boot;
	struct oopsbox_stores stores;
	u8 *stack;
	struct oops_zone *zone;
	u32 kind, status;
	const u8 *line, *payload;
	size_t line_len, len;
};

struct oops_zone {
	struct oopsbox_zone_place place;
	struct region *region;
	u8 *bytes;	/* as the calls read them */
	raw_spinlock_t lock;
	struct lane *lane;
	u32 writes;	/* how many were begun, under the lock .. */
	u32 read;	/* .. and how many when it was last read */
	bool is_lost;	/* a boot did not open it for writes */
	/* What was read, and how many bytes were corrected, and parts bad, since the region was mapped. */
	struct oopsbox_zone_answer answer;
	u32 corrected, bad;
	bool is_read;
	u8 *log;
};

/* The encoder's table for the region's parity. */
int table_make(u32 parity);
void table_free(void);

struct lane *lane_take(void);
void lane_free(struct lane *lane);
size_t lane_used(const struct lane *lane);

int zone_find(struct oops_zone *z, const struct oopsbox_params *params, u32 kind, u32 index);
void zone_place(struct oops_zone *z, struct region *region, u32 at);
int zone_append(struct oops_zone *z, const u8 *bytes, size_t len);
int zone_append_long(struct oops_zone *z, const u8 *bytes, size_t len);
int zone_dump(struct oops_zone *z, const u8 *line, size_t line_len, const u8 *bytes, size_t len);
int zone_erase(struct oops_zone *z, struct lane *lane);
int zone_erase_read(struct oops_zone *z, struct lane *lane);
int zone_read(struct oops_zone *z);
int zone_boot(struct oops_zone *z, struct lane *lane);

#endif
