/*
 * A program without a C library and without an allocator: it links the calls on a block and those on a store in place,
 * and ends with status 0 if they do what they should. They want memcpy, memmove and memset, and nothing else. It runs
 * on x86-64 Linux. Build it with -ffreestanding -nostdlib -static -Wl,--gc-sections.
 */
#include "store.h"

void *memcpy(void *to, const void *from, size_t count)
{
	for (size_t i = 0; i < count; i++)
		((uint8_t *)to)[i] = ((const uint8_t *)from)[i];
	return to;
}

void *memmove(void *to, const void *from, size_t count)
{
	uint8_t *out = to;
	const uint8_t *in = from;
	if (out < in)
		return memcpy(to, from, count);
	while (count-- > 0)
		out[count] = in[count];
	return to;
}

void *memset(void *to, int byte, size_t count)
{
	for (size_t i = 0; i < count; i++)
		((uint8_t *)to)[i] = (uint8_t)byte;
	return to;
}

static uint8_t data[1] = {1}, parity[2], places[1];
static uint8_t region[8192], log[8192];
static struct zone zone;

/* Boots the zone, writes a dump or appends, and reads it: not 0 if an answer is wrong. */
static long write_and_read(uint32_t kind, uint64_t ecc)
{
	static const uint8_t line[] = "====5.000006-D\n", text[] = "Panic";
	struct oopsbox_params params = {8192, 4096, 4096, 0, 0, ecc, 1, 128, ecc, ecc, ecc, ecc, 0, 0, 0};
	struct oopsbox_zone_answer answer;
	struct oopsbox_flight flight;
	struct oopsbox_stores stores = {0};
	uint64_t got = 0;
	if (find_zone(&zone, &params, kind, 0, region) != OOPSBOX_DONE || boot_as(&zone, kind) != OOPSBOX_DONE)
		return 1;
	if (kind == OOPSBOX_CONSOLE && append(&zone, text, 5) != OOPSBOX_DONE)
		return 1;
	if (kind == OOPSBOX_DUMP
	    && oopsbox_dump_begin(&zone.place, zone.bytes, zone.place.size, line, 15, text, 5, &flight) != OOPSBOX_DONE)
		return 1;
	while (kind == OOPSBOX_DUMP && !stores.is_last) {
		if (next_stores(&zone, &flight, line, 15, text, 5, 4, &stores) != OOPSBOX_DONE)
			return 1;
		make_stores(&zone, &stores, line, text);
	}
	if (oopsbox_zone_read(&zone.place, zone.bytes, zone.place.size, NULL, 0, &answer) != OOPSBOX_DONE)
		return 1;
	if (oopsbox_zone_log(&zone.place, zone.bytes, zone.place.size, NULL, 0, 0, log, sizeof(log), &got) != OOPSBOX_DONE)
		return 1;
	if (oopsbox_erase_begin(&zone.place, zone.bytes, zone.place.size, &flight) != OOPSBOX_DONE)
		return 1;
	return answer.log != got || got != (kind == OOPSBOX_DUMP ? 20 : 5) || log[got - 1] != 'c';
}

__attribute__((force_align_arg_pointer)) void _start(void)
{
	uint32_t corrected = 0;
	long failed = oopsbox_rs_encode(data, 1, parity, 2) != OOPSBOX_DONE || parity[0] != 3 || parity[1] != 2;
	data[0] = 0;
	failed |= oopsbox_rs_decode(data, 1, parity, 2, places, 1, &corrected) != OOPSBOX_DONE || data[0] != 1;
	failed |= write_and_read(OOPSBOX_CONSOLE, 16) || write_and_read(OOPSBOX_DUMP, 0);
	__asm__ volatile("syscall" : : "a"(60), "D"(failed));
	__builtin_unreachable();
}
