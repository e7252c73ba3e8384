/*
 * Which stores a write, an erasure or a boot makes, and what a zone says, comes from the calls of
 * oopsbox. This file makes the stores.
 */
#define pr_fmt(fmt) KBUILD_MODNAME ": " fmt

#include <linux/console.h>
#include <linux/kernel.h>
#include <linux/preempt.h>
#include <linux/sched.h>
#include <linux/slab.h>
#include <linux/vmalloc.h>
#include "stack.h"
#include "zone.h"

/* The most bytes of a long append that are written at once, with interrupts off. */
#define PIECE 4096

static struct oopsbox_row *table;
static size_t rows;

int table_make(u32 parity)
{
	if (!parity)
		return 0;
	table = kmalloc_array(OOPSBOX_TABLE, sizeof(*table), GFP_KERNEL);
	if (!table)
		return -ENOMEM;
	if (oopsbox_table(parity, table, OOPSBOX_TABLE) != OOPSBOX_DONE) {
		pr_err("ecc is at most 127 bytes of parity, not %u\n", parity);
		return -EINVAL;
	}
	rows = OOPSBOX_TABLE;
	return 0;
}

void table_free(void)
{
	rows = 0;
	kfree(table);
	table = NULL;
}

struct lane *lane_take(void)
{
	struct lane *lane = kzalloc(sizeof(*lane), GFP_KERNEL);

	if (!lane)
		return NULL;
	lane->stack = stack_take();
	if (!lane->stack) {
		kfree(lane);
		return NULL;
	}
	return lane;
}

void lane_free(struct lane *lane)
{
	if (!lane)
		return;
	stack_free(lane->stack);
	kfree(lane);
}

size_t lane_used(const struct lane *lane)
{
	return lane ? stack_used(lane->stack) : 0;
}

/* The zone of this kind and number in the layout; 1 if there is none. */
int zone_find(struct oops_zone *z, const struct oopsbox_params *params, u32 kind, u32 index)
{
	struct oopsbox_layout_answer answer;
	u32 status = oopsbox_zone_at(params, kind, index, &z->place, &answer);

	if (status == OOPSBOX_FAULT) {
		pr_err("the parameters have no layout: fault %u\n", answer.fault);
		if (params->cpus > 1)
			pr_err("ftrace_size %llu is divided by %llu possible processors\n",
			       params->ftrace, params->cpus);
		return -EINVAL;
	}
	return status == OOPSBOX_DONE ? 0 : 1;
}

/* The zone begins at this byte of the region. */
void zone_place(struct oops_zone *z, struct region *region, u32 at)
{
	z->place.at = at;
	z->region = region;
	z->bytes = region->view + at;
	raw_spin_lock_init(&z->lock);
}

/* In a panic the holder may be stopped for good: then the line is lost, and not the machine. */
static bool zone_lock(struct oops_zone *z, unsigned long *flags)
{
	if (oops_in_progress || in_nmi() || z->place.kind == OOPSBOX_FTRACE)
		return raw_spin_trylock_irqsave(&z->lock, *flags);
	raw_spin_lock_irqsave(&z->lock, *flags);
	return true;
}

/* Makes one answer's stores, in order. */
static void make(const struct lane *lane)
{
	const struct oops_zone *z = lane->zone;
	const struct oopsbox_store *s;

	for (s = lane->stores.stores; s < lane->stores.stores + lane->stores.count; s++) {
		u32 at = z->place.at + s->place;

		if (s->what == OOPSBOX_WORD)
			region_store_word(z->region, at, s->word);
		else
			region_store_bytes(z->region, at,
					   s->what == OOPSBOX_LINE    ? lane->line + s->from :
					   s->what == OOPSBOX_PAYLOAD ? lane->payload + s->from :
									s->bytes,
					   s->len);
	}
}

/* Begins what the zone was asked to write. Of an append it tells the first stores too. */
static u32 begin(struct lane *lane)
{
	const struct oopsbox_zone_place *place = &lane->zone->place;
	const u8 *bytes = lane->zone->bytes;

	lane->stores.count = 0;
	lane->stores.is_last = 0;
	switch (lane->kind) {
	case OOPSBOX_APPEND:
		return oopsbox_append(place, bytes, place->size, lane->payload, lane->len,
				      &lane->flight, &lane->stores);
	case OOPSBOX_WRITE_DUMP:
		return oopsbox_dump_begin(place, bytes, place->size, lane->line, lane->line_len,
					  lane->payload, lane->len, &lane->flight);
	default:
		return oopsbox_erase_begin(place, bytes, place->size, &lane->flight);
	}
}

/* Boots the lane's zone as one of this place, and makes all stores of it. */
static u32 boot(struct lane *lane, const struct oopsbox_zone_place *place)
{
	const u8 *bytes = lane->zone->bytes;
	u32 status = oopsbox_boot_begin(place, bytes, place->size, &lane->boot);

	lane->stores.is_last = 0;
	while (status == OOPSBOX_DONE && !lane->stores.is_last) {
		status = oopsbox_boot_next(&lane->boot, bytes, place->size, &lane->stores);
		if (status == OOPSBOX_DONE)
			make(lane);
	}
	return status;
}

/*
 * A header that was damaged while the machine runs refuses all writes. The zone is then booted as an ftrace zone is: it
 * is corrected, and erased only if no append can continue its log. If that does not help, it is not tried again.
 */
static u32 mend(struct lane *lane)
{
	struct oopsbox_zone_place place = lane->zone->place;
	u32 status;

	place.kind = OOPSBOX_FTRACE;
	status = boot(lane, &place);
	if (status == OOPSBOX_DONE)
		status = begin(lane);
	lane->zone->is_lost = status != OOPSBOX_DONE;
	return status;
}

/* Begins what the zone was asked to write, and makes all its stores. */
__visible noinline void oopsbox_turn(struct lane *lane)
{
	const struct oops_zone *z = lane->zone;
	u32 status = begin(lane);

	if (status == OOPSBOX_CLOSED && !z->is_lost)
		status = mend(lane);
	while (status == OOPSBOX_DONE) {
		make(lane);
		if (lane->stores.is_last)
			break;
		status = oopsbox_flight_next(&lane->flight, z->bytes, z->place.size, lane->line,
					     lane->line_len, lane->payload, lane->len, table, rows,
					     U32_MAX, &lane->stores);
	}
	lane->status = status;
}

/* Writes into a zone that is locked. */
static int write_locked(struct oops_zone *z, struct lane *lane, u32 kind, const u8 *line,
			size_t line_len, const u8 *payload, size_t len)
{
	z->writes++;
	lane->zone = z;
	lane->kind = kind;
	lane->line = line;
	lane->line_len = line_len;
	lane->payload = payload;
	lane->len = len;
	on_stack(lane, lane->stack);
	return lane->status == OOPSBOX_DONE ? 0 : -EINVAL;
}

static int zone_write(struct oops_zone *z, struct lane *lane, u32 kind, const u8 *line,
		      size_t line_len, const u8 *payload, size_t len)
{
	unsigned long flags;
	int err;

	if (!zone_lock(z, &flags))
		return -EBUSY;
	err = write_locked(z, lane, kind, line, line_len, payload, len);
	raw_spin_unlock_irqrestore(&z->lock, flags);
	return err;
}

int zone_append(struct oops_zone *z, const u8 *bytes, size_t len)
{
	return zone_write(z, z->lane, OOPSBOX_APPEND, NULL, 0, bytes, len);
}

/* In pieces, with interrupts on between them. An erasure can come between two. */
int zone_append_long(struct oops_zone *z, const u8 *bytes, size_t len)
{
	size_t done;
	int err = 0;

	for (done = 0; !err && done < len; done += PIECE) {
		err = zone_append(z, bytes + done, min_t(size_t, len - done, PIECE));
		cond_resched();
	}
	return err;
}

int zone_dump(struct oops_zone *z, const u8 *line, size_t line_len, const u8 *bytes, size_t len)
{
	return zone_write(z, z->lane, OOPSBOX_WRITE_DUMP, line, line_len, bytes, len);
}

static void forget(struct oops_zone *z)
{
	vfree(z->log);
	z->log = NULL;
}

/* Forgets the zone's log, too. */
int zone_erase(struct oops_zone *z, struct lane *lane)
{
	forget(z);
	return zone_write(z, lane, OOPSBOX_ERASE, NULL, 0, NULL, 0);
}

/* As zone_erase, but only if nothing was written since the zone was read. */
int zone_erase_read(struct oops_zone *z, struct lane *lane)
{
	unsigned long flags;
	int err = -EAGAIN;

	forget(z);
	if (!zone_lock(z, &flags))
		return -EBUSY;
	if (z->writes == z->read)
		err = write_locked(z, lane, OOPSBOX_ERASE, NULL, 0, NULL, 0);
	raw_spin_unlock_irqrestore(&z->lock, flags);
	return err;
}

/* How many writes were begun. Each of them has ended. */
static u32 writes(struct oops_zone *z)
{
	unsigned long flags;
	u32 all;

	raw_spin_lock_irqsave(&z->lock, flags);
	all = z->writes;
	raw_spin_unlock_irqrestore(&z->lock, flags);
	return all;
}

/*
 * Reads the zone, and keeps its log in memory until it is erased or read again. What was corrected counts once for each
 * log, as in ramoops: damaged parity stays, and a second reading finds it again.
 */
int zone_read(struct oops_zone *z)
{
	const struct oopsbox_zone_place *place = &z->place;
	bool is_known = z->log;
	u32 status;
	u64 got = 0;

	forget(z);
	z->read = writes(z);
	status = oopsbox_zone_read(place, z->bytes, place->size, table, rows, &z->answer);
	if (status != OOPSBOX_DONE)
		return -EINVAL;
	if (!z->is_read || (!is_known && z->answer.log)) {
		z->corrected += z->answer.corrected;
		z->bad += z->answer.bad;
	}
	z->is_read = true;
	if (z->answer.log == 0)
		return 0;
	z->log = vmalloc(z->answer.log);
	if (!z->log)
		return -ENOMEM;
	status = oopsbox_zone_log(place, z->bytes, place->size, table, rows, 0, z->log,
				  z->answer.log, &got);
	if (status == OOPSBOX_DONE && got == z->answer.log)
		return 0;
	forget(z);
	return -EINVAL;
}

/* Reads and then boots the zone: damage is corrected, and a console and pmsg are erased. An error leaves no log. */
int zone_boot(struct oops_zone *z, struct lane *lane)
{
	int err = zone_read(z);

	if (err)
		return err;
	lane->zone = z;
	if (boot(lane, &z->place) == OOPSBOX_DONE)
		return 0;
	forget(z);
	return -EINVAL;
}
