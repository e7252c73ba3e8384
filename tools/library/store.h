/* Makes the stores of the library's calls on a zone in memory, one after another. */
#ifndef STORE_H
#define STORE_H

#include <oopsbox.h>
#include <stdint.h>

/* A number below this bound, by xorshift; the same ones in each run. */
static inline uint32_t below(uint32_t bound)
{
	static uint64_t state = 88172645463325252u;
	state ^= state << 13;
	state ^= state >> 7;
	state ^= state << 17;
	return (uint32_t)((state >> 32) % bound);
}

/* A zone, its bytes and its encoder's table; rows is 0 without one. */
struct zone {
	struct oopsbox_zone_place place;
	uint8_t *bytes;
	size_t rows;
	struct oopsbox_row table[OOPSBOX_TABLE];
};

/* A word is one store of four bytes where the zone begins at a multiple of 4; all else is stored byte by byte. */
static inline void make_store(struct zone *zone, const struct oopsbox_store *store, const uint8_t *line,
			      const uint8_t *payload)
{
	volatile uint8_t *to = zone->bytes + store->place;
	const uint8_t *from = store->bytes;
	if (store->what == OOPSBOX_WORD && (uintptr_t)to % 4 == 0) {
		__atomic_store_n((uint32_t *)to, store->word, __ATOMIC_RELAXED);
		return;
	}
	if (store->what == OOPSBOX_LINE)
		from = line + store->from;
	if (store->what == OOPSBOX_PAYLOAD)
		from = payload + store->from;
	for (uint32_t i = 0; i < store->len; i++)
		to[i] = from[i];
}

/* How many stores an answer has. */
static inline uint64_t count_stores(const struct oopsbox_stores *stores)
{
	uint64_t count = 0;
	for (uint32_t i = 0; i < stores->count; i++)
		count += stores->stores[i].what == OOPSBOX_WORD ? 1 : stores->stores[i].len;
	return count;
}

static inline void make_stores(struct zone *zone, const struct oopsbox_stores *stores, const uint8_t *line,
			       const uint8_t *payload)
{
	for (uint32_t i = 0; i < stores->count; i++)
		make_store(zone, &stores->stores[i], line, payload);
}

static inline uint32_t next_stores(struct zone *zone, struct oopsbox_flight *flight, const uint8_t *line,
				   size_t line_len, const uint8_t *payload, size_t length, uint32_t most,
				   struct oopsbox_stores *stores)
{
	return oopsbox_flight_next(flight, zone->bytes, zone->place.size, line, line_len, payload, length, zone->table,
				   zone->rows, most, stores);
}

static inline uint32_t append(struct zone *zone, const uint8_t *payload, size_t length)
{
	struct oopsbox_flight flight;
	struct oopsbox_stores stores;
	uint32_t status = oopsbox_append(&zone->place, zone->bytes, zone->place.size, payload, length, &flight, &stores);
	while (status == OOPSBOX_DONE) {
		make_stores(zone, &stores, NULL, payload);
		if (stores.is_last)
			break;
		status = next_stores(zone, &flight, NULL, 0, payload, length, UINT32_MAX, &stores);
	}
	return status;
}

/* A boot of the zone as one of this kind: Linux erases a console and pmsg, and the library keeps an ftrace ring. */
static inline uint32_t boot_as(struct zone *zone, uint32_t kind)
{
	struct oopsbox_zone_place place = zone->place;
	struct oopsbox_boot boot;
	struct oopsbox_stores stores;
	place.kind = kind;
	uint32_t status = oopsbox_boot_begin(&place, zone->bytes, place.size, &boot);
	stores.is_last = 0;
	while (status == OOPSBOX_DONE && !stores.is_last) {
		status = oopsbox_boot_next(&boot, zone->bytes, place.size, &stores);
		if (status == OOPSBOX_DONE)
			make_stores(zone, &stores, NULL, NULL);
	}
	return status;
}

/* The zone of this kind and number, in a region with these bytes. */
static inline uint32_t find_zone(struct zone *zone, const struct oopsbox_params *params, uint32_t kind, uint32_t index,
				 uint8_t *region)
{
	struct oopsbox_layout_answer answer;
	uint32_t status = oopsbox_zone_at(params, kind, index, &zone->place, &answer);
	if (status != OOPSBOX_DONE)
		return status;
	zone->bytes = region + zone->place.at;
	zone->rows = zone->place.parity == 0 ? 0 : OOPSBOX_TABLE;
	return zone->rows == 0 ? OOPSBOX_DONE : oopsbox_table(zone->place.parity, zone->table, zone->rows);
}

#endif
