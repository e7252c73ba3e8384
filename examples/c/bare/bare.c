/*
 * A program without an operating system, a C library or an allocator. It writes its console into a ramoops region at a
 * fixed address and resets the machine. After the reset it finds its last words there, and sends them over the serial
 * port. What depends on the board is in its folder: board.h and start.S. ./run builds it and runs it in QEMU.
 */
#include <oopsbox.h>
#include "board.h"

/* mem_size=32768 record_size=4096 console_size=8192 ftrace_size=0 pmsg_size=4096 ecc=1 */
static const struct oopsbox_params params = OOPSBOX_PARAMS(32768, 4096, 8192, 0, 4096, 16);
static struct oopsbox_zone_place place;
static uint8_t *zone;

/* The library's code calls these three. Without volatile a compiler may make a call of memcpy of its own loop. */
void *memcpy(void *to, const void *from, size_t count)
{
	for (size_t i = 0; i < count; i++)
		((volatile uint8_t *)to)[i] = ((const uint8_t *)from)[i];
	return to;
}

void *memmove(void *to, const void *from, size_t count)
{
	if (to < from)
		return memcpy(to, from, count);
	while (count-- > 0)
		((volatile uint8_t *)to)[count] = ((const uint8_t *)from)[count];
	return to;
}

void *memset(void *to, int byte, size_t count)
{
	for (size_t i = 0; i < count; i++)
		((volatile uint8_t *)to)[i] = (uint8_t)byte;
	return to;
}

static void check(uint32_t status)
{
	if (status == OOPSBOX_DONE)
		return;
	board_send('!');
	board_stop();
}

/* Makes these stores, in order: a word is one store, and each byte of a run is one. Each stays before the next is made. */
static void make_one(const struct oopsbox_store *store, const uint8_t *payload)
{
	const uint8_t *from = store->what == OOPSBOX_PAYLOAD ? payload + store->from : store->bytes;
	volatile uint8_t *to = zone + store->place;
	if (store->what == OOPSBOX_WORD) {
		*(volatile uint32_t *)to = store->word;
		board_keep(to, 4);
		return;
	}
	for (uint32_t i = 0; i < store->len; i++) {
		to[i] = from[i];
		board_keep(to + i, 1);
	}
}

static void make(const struct oopsbox_stores *stores, const uint8_t *payload)
{
	for (uint32_t i = 0; i < stores->count; i++)
		make_one(&stores->stores[i], payload);
}

/* Without a table of the encoder: a line of a console has time, and the table would take 4 KiB. */
static void say(const char *line)
{
	struct oopsbox_flight flight;
	struct oopsbox_stores stores;
	const uint8_t *bytes = (const uint8_t *)line;
	size_t length = 0;
	while (bytes[length] != 0)
		length++;
	check(oopsbox_append(&place, zone, place.size, bytes, length, &flight, &stores));
	make(&stores, bytes);
	while (!stores.is_last) {
		check(oopsbox_flight_next(&flight, zone, place.size, NULL, 0, bytes, length, NULL, 0, UINT32_MAX, &stores));
		make(&stores, bytes);
	}
}

static void boot_zone(void)
{
	struct oopsbox_boot boot;
	struct oopsbox_stores stores;
	check(oopsbox_boot_begin(&place, zone, place.size, &boot));
	do {
		check(oopsbox_boot_next(&boot, zone, place.size, &stores));
		make(&stores, NULL);
	} while (!stores.is_last);
}

/* Sends the log over the serial port, in pieces. */
static void send_log(void)
{
	uint8_t piece[64];
	uint64_t got = 1;
	for (uint64_t from = 0; got > 0; from += got) {
		check(oopsbox_zone_log(&place, zone, place.size, NULL, 0, from, piece, sizeof(piece), &got));
		for (uint64_t i = 0; i < got; i++)
			board_send(piece[i]);
	}
	board_send('.');
}

void bare(void)
{
	struct oopsbox_layout_answer layout;
	struct oopsbox_zone_answer answer;
	check(oopsbox_zone_at(&params, OOPSBOX_CONSOLE, 0, &place, &layout));
	zone = (uint8_t *)(uintptr_t)BOARD_REGION + place.at;
	board_forget((uint8_t *)(uintptr_t)BOARD_REGION, params.mem);
	check(oopsbox_zone_read(&place, zone, place.size, NULL, 0, &answer));
	if (answer.state == OOPSBOX_FOUND) {
		send_log();
		board_stop();
	}
	boot_zone();
	say("bare: the console is a ramoops zone\n");
	say("bare: valve 3 opened\n");
	say("bare: pressure 9.1 bar, limit 8.0\n");
	say("bare: giving up, reset\n");
	board_reset();
}
