/*
 * Wrong arguments get the answer that oopsbox.h states: no pointer with length 0, lengths that do not fit one another,
 * buffers that are one byte short, texts that are not UTF-8, places that are no zone's, flights that were changed. What
 * must stay as it was does.
 */
#include "store.h"
#include <stdio.h>
#include <stdlib.h>
#include <string.h>

static int failed;
static long rounds = 200000;

#define WANT(what)                                                                                                     \
	do {                                                                                                           \
		if (!(what)) {                                                                                         \
			printf("line %d: %s\n", __LINE__, #what);                                                      \
			failed = 1;                                                                                    \
		}                                                                                                      \
	} while (0)

static const char params[] = "mem_size=4096 record_size=0 ftrace_size=0 pmsg_size=0";

static const uint8_t *bytes(const char *text)
{
	return (const uint8_t *)text;
}

static void codes(void)
{
	uint8_t data[256] = {1}, parity[128] = {7}, places[64] = {9};
	uint32_t corrected = 77;
	WANT(oopsbox_rs_encode(NULL, 0, parity, 2) == OOPSBOX_ARGUMENT && parity[0] == 7);
	WANT(oopsbox_rs_encode(data, 1, NULL, 0) == OOPSBOX_ARGUMENT);
	WANT(oopsbox_rs_encode(NULL, 0, NULL, 0) == OOPSBOX_ARGUMENT);
	WANT(oopsbox_rs_encode(data, 1, parity, 128) == OOPSBOX_ARGUMENT && parity[0] == 7);
	WANT(oopsbox_rs_encode(data, 254, parity, 2) == OOPSBOX_ARGUMENT && parity[0] == 7);
	WANT(oopsbox_rs_encode(data, 254, parity, 1) == OOPSBOX_DONE);
	WANT(oopsbox_rs_encode(data, 128, parity, 127) == OOPSBOX_DONE);
	WANT(oopsbox_rs_encode(data, 1, parity, 2) == OOPSBOX_DONE && parity[0] == 3 && parity[1] == 2);
	data[0] = 0;
	WANT(oopsbox_rs_decode(NULL, 0, parity, 2, places, 1, &corrected) == OOPSBOX_ARGUMENT);
	WANT(oopsbox_rs_decode(data, 1, NULL, 0, places, 1, &corrected) == OOPSBOX_ARGUMENT);
	WANT(oopsbox_rs_decode(data, 1, parity, 2, NULL, 0, &corrected) == OOPSBOX_ROOM);
	WANT(oopsbox_rs_decode(data, 129, parity, 127, places, 62, &corrected) == OOPSBOX_ARGUMENT);
	WANT(oopsbox_rs_decode(data, 128, parity, 127, places, 62, &corrected) == OOPSBOX_ROOM);
	WANT(data[0] == 0 && places[0] == 9 && corrected == 77);
	WANT(oopsbox_rs_decode(data, 1, parity, 1, NULL, 0, &corrected) == OOPSBOX_BAD && corrected == 0);
	WANT(oopsbox_rs_decode(data, 1, parity, 2, places, 1, &corrected) == OOPSBOX_DONE);
	WANT(data[0] == 1 && corrected == 1 && places[0] == 0);
	data[0] = 0, parity[0] = 2;
	WANT(oopsbox_rs_decode(data, 1, parity, 2, places, 1, &corrected) == OOPSBOX_BAD && corrected == 0 && data[0] == 0);
}

static void layouts(void)
{
	struct oopsbox_zone_place places[2] = {{7, 7, 7, 7, 7, 7, 7, 7, 7, 7}, {7, 7, 7, 7, 7, 7, 7, 7, 7, 7}};
	struct oopsbox_layout_answer answer = {7, 7, 7, 7};
	size_t length = strlen(params);
	WANT(oopsbox_layout(NULL, 0, places, 2, &answer) == OOPSBOX_FAULT && answer.fault == 1 && answer.word == 1);
	WANT(oopsbox_layout(bytes(params), length, NULL, 0, &answer) == OOPSBOX_ROOM && answer.zones == 1);
	answer.zones = 7;
	WANT(oopsbox_layout(bytes("mem_size=\xff"), 10, places, 2, &answer) == OOPSBOX_ARGUMENT && answer.zones == 7);
	WANT(places[0].size == 7);
	WANT(oopsbox_layout(bytes(params), length, places, 2, &answer) == OOPSBOX_DONE && answer.zones == 1);
	WANT(places[0].kind == OOPSBOX_CONSOLE && places[0].cap == 4084 && places[1].size == 7);
}

static void zones(void)
{
	uint8_t *image = calloc(1, 4096), log[3] = {7, 7, 7};
	struct oopsbox_zone_answer answer = {7, 7, 7, 7, 7, 7, 7};
	size_t length = strlen(params);
	memcpy(image, "DBGC\0\0\0\0\3\0\0\0abc", 15);
	WANT(oopsbox_zone(bytes(params), length, 0, NULL, 0, log, 3, &answer) == OOPSBOX_SHORT);
	WANT(oopsbox_zone(bytes(params), length, 0, image, 4095, log, 3, &answer) == OOPSBOX_SHORT);
	WANT(oopsbox_zone(bytes(params), length, 1, image, 4096, log, 3, &answer) == OOPSBOX_ARGUMENT);
	WANT(oopsbox_zone(bytes("\xff"), 1, 0, image, 4096, log, 3, &answer) == OOPSBOX_ARGUMENT);
	WANT(oopsbox_zone(NULL, 0, 0, image, 4096, log, 3, &answer) == OOPSBOX_FAULT);
	WANT(answer.log == 7 && log[0] == 7);
	WANT(oopsbox_zone(bytes(params), length, 0, image, 4096, NULL, 0, &answer) == OOPSBOX_ROOM && answer.log == 3);
	WANT(oopsbox_zone(bytes(params), length, 0, image, 4096, log, 2, &answer) == OOPSBOX_ROOM && log[0] == 7);
	WANT(oopsbox_zone(bytes(params), length, 0, image, 4096, log, 3, &answer) == OOPSBOX_DONE);
	WANT(answer.state == OOPSBOX_FOUND && memcmp(log, "abc", 3) == 0);
	free(image);
}

static void runs(void)
{
	char list[128], blank[128];
	uint8_t *image = calloc(1, 4096), *text = malloc(64);
	int list_length = snprintf(list, sizeof(list), "image list %s", params);
	int blank_length = snprintf(blank, sizeof(blank), "image blank %s", params);
	struct oopsbox_lengths lengths = {4097, 7};
	memset(text, 7, 64);
	WANT(oopsbox_run(bytes(list), (size_t)list_length, NULL, 0, image, 4096, text, 64, &lengths) == OOPSBOX_ARGUMENT);
	lengths.image = 1;
	WANT(oopsbox_run(bytes(list), (size_t)list_length, NULL, 0, NULL, 0, text, 64, &lengths) == OOPSBOX_ARGUMENT);
	WANT(oopsbox_run(bytes("\xff"), 1, NULL, 0, image, 4096, text, 64, &lengths) == OOPSBOX_ARGUMENT);
	WANT(lengths.image == 1 && lengths.text == 7 && text[0] == 7);
	lengths.image = 0;
	WANT(oopsbox_run(NULL, 0, NULL, 0, NULL, 0, text, 64, &lengths) == 2);
	WANT(lengths.image == 0 && memcmp(text, "usage: ", 7) == 0);
	memset(text, 7, 64);
	WANT(oopsbox_run(bytes(blank), (size_t)blank_length, NULL, 0, image, 4095, text, 64, &lengths) == OOPSBOX_ROOM);
	WANT(lengths.image == 4096);
	lengths.image = 0;
	WANT(oopsbox_run(bytes(blank), (size_t)blank_length, NULL, 0, image, 4096, NULL, 0, &lengths) == OOPSBOX_DONE);
	WANT(lengths.image == 4096 && lengths.text == 0);
	memcpy(image, "DBGC\0\0\0\0\3\0\0\0abc", 15);
	WANT(oopsbox_run(bytes(list), (size_t)list_length, NULL, 0, image, 4096, text, 29, &lengths) == OOPSBOX_ROOM);
	WANT(lengths.text == 30 && lengths.image == 4096 && text[0] == 7);
	WANT(oopsbox_run(bytes(list), (size_t)list_length, NULL, 0, image, 4096, text, 30, &lengths) == OOPSBOX_DONE);
	WANT(memcmp(text, "records 1\nconsole-ramoops-0 3\n", 30) == 0 && text[30] == 7);
	lengths.image = 4095;
	WANT(oopsbox_run(bytes(list), (size_t)list_length, NULL, 0, image, 4096, text, 64, &lengths) == 4);
	free(image);
	free(text);
}

enum { ROOM = 1 << 16 };

static uint8_t room[ROOM];
static struct oopsbox_report_answer told;

/* A report of an image under the name "here", in text_len bytes of the room, all 7 before. */
static uint32_t report(const char *words, const uint8_t *image, size_t image_len, uint32_t format, size_t text_len)
{
	memset(room, 7, ROOM);
	memset(&told, 7, sizeof(told));
	return oopsbox_report(bytes("here"), 4, bytes(words), strlen(words), NULL, 0, image, image_len, format, room,
			      text_len, &told);
}

/* Whether the room is as it was from this byte on. */
static int is_left(size_t from)
{
	for (size_t i = from; i < ROOM; i++)
		if (room[i] != 7)
			return 0;
	return 1;
}

/* Whether the answer is these numbers. */
static int tells(uint64_t text, uint64_t word, uint32_t fault, uint32_t needed)
{
	return told.text == text && told.word == word && told.fault == fault && told.needed == needed;
}

static void reports(void)
{
	static const uint64_t seven = 0x0707070707070707;
	uint8_t *image = calloc(1, 4096);
	memcpy(image, "DBGC\0\0\0\0\3\0\0\0abc", 15);
	for (uint32_t format = OOPSBOX_TEXT; format <= OOPSBOX_HTML; format++) {
		WANT(report(params, image, 4096, format, ROOM) == OOPSBOX_DONE);
		uint64_t length = told.text;
		WANT(length > 0 && tells(length, 0, 0, 0) && told.hint == 0 && is_left(length) && room[length - 1] == '\n');
		WANT(report(params, image, 4096, format, length) == OOPSBOX_DONE && is_left(length));
		WANT(report(params, image, 4096, format, length - 1) == OOPSBOX_ROOM && is_left(0) && tells(length, 0, 0, 0));
		WANT(report(params, image, 4096, format, 0) == OOPSBOX_ROOM && is_left(0));
	}
	WANT(report(params, image, 4096, 3, ROOM) == OOPSBOX_ARGUMENT && told.text == seven && told.hint == seven && is_left(0));
	WANT(report(params, image, 4096, UINT32_MAX, ROOM) == OOPSBOX_ARGUMENT && is_left(0));
	WANT(report("mem_size=\xff", image, 4096, 0, ROOM) == OOPSBOX_ARGUMENT && told.text == seven && is_left(0));
	WANT(oopsbox_report(bytes("\xff"), 1, NULL, 0, NULL, 0, image, 4096, 0, room, ROOM, &told) == OOPSBOX_ARGUMENT);
	WANT(told.text == seven && is_left(0));
	WANT(report(params, image, 4095, 0, ROOM) == OOPSBOX_SHORT && tells(0, 0, 0, 4096) && is_left(0));
	WANT(report(params, NULL, 0, 0, ROOM) == OOPSBOX_SHORT && tells(0, 0, 0, 4096) && is_left(0));
	WANT(report("mem_size=4096 ecx=1", image, 4096, 0, ROOM) == OOPSBOX_FAULT && tells(0, 2, 1, 0) && is_left(0));
	WANT(report("ecc=1 ecc=1", image, 4096, 0, ROOM) == OOPSBOX_FAULT && tells(0, 2, 2, 0) && is_left(0));
	WANT(report("ecc=x", image, 4096, 0, ROOM) == OOPSBOX_FAULT && tells(0, 1, 3, 0) && is_left(0));
	WANT(report("mem_size=0", image, 4096, 0, ROOM) == OOPSBOX_FAULT && tells(0, 0, 1, 0) && is_left(0));
	WANT(report("block_size=64", image, 4096, 0, ROOM) == OOPSBOX_FAULT && tells(0, 0, 101, 0) && is_left(0));
	WANT(report("ecc_pmsg=1", image, 4096, 0, ROOM) == OOPSBOX_FAULT && tells(0, 0, 105, 0) && is_left(0));
	WANT(report("", NULL, 0, 0, ROOM) == OOPSBOX_UNLAID && tells(0, 0, 1, 0) && is_left(0));
	WANT(oopsbox_report(NULL, 0, NULL, 0, bytes("no tree"), 7, image, 4096, 0, room, ROOM, &told) == OOPSBOX_TREE);
	WANT(tells(0, 0, 1, 0) && is_left(0));
	free(image);
}

/* ---- the store in place ---- */

enum { SIZE = 4096 };

static struct zone zone;
static uint8_t stand[SIZE];

static const struct oopsbox_params numbers = {.mem = 16384, .console = SIZE, .pmsg = SIZE, .ecc = 16, .ecc_console = 16,
	.cpus = 1, .block = 128};

/* Whether all bytes of an object are 7. */
static int is_seven(const void *object, size_t size)
{
	for (size_t i = 0; i < size; i++)
		if (((const uint8_t *)object)[i] != 7)
			return 0;
	return 1;
}

#define SEVEN(object) memset(&(object), 7, sizeof(object))
#define IS_SEVEN(object) is_seven(&(object), sizeof(object))

static void zones_at(void)
{
	struct oopsbox_params params = numbers;
	struct oopsbox_zone_place place;
	struct oopsbox_layout_answer answer;
	SEVEN(place);
	SEVEN(answer);
	WANT(oopsbox_zone_at(&params, 4, 0, &place, &answer) == OOPSBOX_ARGUMENT);
	WANT(oopsbox_zone_at(&params, UINT32_MAX, UINT32_MAX, &place, &answer) == OOPSBOX_ARGUMENT);
	WANT(oopsbox_zone_at(&params, OOPSBOX_CONSOLE, 1, &place, &answer) == OOPSBOX_ARGUMENT);
	WANT(oopsbox_zone_at(&params, OOPSBOX_FTRACE, 0, &place, &answer) == OOPSBOX_ARGUMENT);
	WANT(IS_SEVEN(place) && IS_SEVEN(answer));
	WANT(oopsbox_zone_at(&params, OOPSBOX_PMSG, 0, &place, &answer) == OOPSBOX_DONE);
	WANT(place.kind == OOPSBOX_PMSG && place.at == 4096 && place.cap == 4084 && place.parity == 0);
	WANT(answer.zones == 2 && answer.mem == 16384 && answer.word == 0 && answer.fault == 0);
	SEVEN(place);
	static const struct { size_t field; uint64_t value; uint32_t fault; } faults[] = {
		{offsetof(struct oopsbox_params, mem), 0, 1}, {offsetof(struct oopsbox_params, mem), 16777217, 3},
		{offsetof(struct oopsbox_params, mem), UINT64_MAX, 3}, {offsetof(struct oopsbox_params, ecc), 128, 4},
		{offsetof(struct oopsbox_params, ecc_dump), UINT64_MAX, 4},
		{offsetof(struct oopsbox_params, block), 100, 11}, {offsetof(struct oopsbox_params, block), 1ull << 32 | 128, 11},
		{offsetof(struct oopsbox_params, cpus), 0, 8}, {offsetof(struct oopsbox_params, cpus), 65, 8},
		{offsetof(struct oopsbox_params, console), 32768, 5}, {offsetof(struct oopsbox_params, console), 1ull << 63, 5},
		{offsetof(struct oopsbox_params, console), 128, 6}, {offsetof(struct oopsbox_params, ecc_console), 127, 0}};
	for (size_t i = 0; i < sizeof(faults) / sizeof(faults[0]); i++) {
		params = numbers;
		memcpy((uint8_t *)&params + faults[i].field, &faults[i].value, 8);
		SEVEN(answer);
		uint32_t status = oopsbox_zone_at(&params, OOPSBOX_CONSOLE, 0, &place, &answer);
		WANT(status == (faults[i].fault ? OOPSBOX_FAULT : OOPSBOX_DONE) && answer.fault == faults[i].fault);
		WANT(status == OOPSBOX_DONE || (answer.zones == 0 && answer.word == 0 && answer.mem == 0 && IS_SEVEN(place)));
	}
}

static void tables(void)
{
	struct oopsbox_row rows[OOPSBOX_TABLE + 1];
	SEVEN(rows);
	WANT(oopsbox_table(0, rows, OOPSBOX_TABLE) == OOPSBOX_ARGUMENT);
	WANT(oopsbox_table(128, rows, OOPSBOX_TABLE) == OOPSBOX_ARGUMENT);
	WANT(oopsbox_table(16, rows, OOPSBOX_TABLE - 1) == OOPSBOX_ARGUMENT);
	WANT(oopsbox_table(16, rows, OOPSBOX_TABLE + 1) == OOPSBOX_ARGUMENT);
	WANT(oopsbox_table(16, NULL, 0) == OOPSBOX_ARGUMENT && IS_SEVEN(rows));
	WANT(oopsbox_table(127, rows, OOPSBOX_TABLE) == OOPSBOX_DONE && is_seven(&rows[OOPSBOX_TABLE], 16));
}

/* Places that no layout has. */
static void wrong_places(struct oopsbox_zone_place *wrong, size_t count)
{
	for (size_t i = 0; i < count; i++)
		wrong[i] = zone.place;
	wrong[0].kind = 4;
	wrong[1].cap++;
	wrong[2].cap = UINT32_MAX;
	wrong[3].blocks--;
	wrong[4].parity = 128;
	wrong[5].parity = 0;
	wrong[6].block = 0;
	wrong[7].block = 256;
	wrong[8].size = SIZE - 2;
	wrong[9].size = 0;
	wrong[10].cap = 0;
	wrong[11].blocks = UINT32_MAX;
}

static void begins(void)
{
	static const uint8_t bytes[40] = "line";
	struct oopsbox_zone_place wrong[12];
	struct oopsbox_flight flight;
	struct oopsbox_stores stores;
	struct oopsbox_boot boot;
	struct oopsbox_zone_answer answer;
	uint8_t log[8];
	uint64_t got;
	SEVEN(flight);
	SEVEN(stores);
	SEVEN(boot);
	SEVEN(answer);
	SEVEN(log);
	SEVEN(got);
	wrong_places(wrong, 12);
	for (size_t i = 0; i < 14; i++) {
		const struct oopsbox_zone_place *place = i < 12 ? &wrong[i] : &zone.place;
		size_t size = i == 12 ? SIZE - 1 : i == 13 ? SIZE + 1 : SIZE;
		const struct oopsbox_row *table = zone.table;
		WANT(oopsbox_append_begin(place, stand, size, bytes, 4, &flight) == OOPSBOX_ARGUMENT);
		WANT(oopsbox_append(place, stand, size, bytes, 4, &flight, &stores) == OOPSBOX_ARGUMENT);
		WANT(oopsbox_erase_begin(place, stand, size, &flight) == OOPSBOX_ARGUMENT);
		WANT(oopsbox_dump_begin(place, stand, size, bytes, 4, bytes, 4, &flight) == OOPSBOX_ARGUMENT);
		WANT(oopsbox_boot_begin(place, stand, size, &boot) == OOPSBOX_ARGUMENT);
		WANT(oopsbox_zone_read(place, stand, size, table, 256, &answer) == OOPSBOX_ARGUMENT);
		WANT(oopsbox_zone_log(place, stand, size, table, 256, 0, log, 8, &got) == OOPSBOX_ARGUMENT);
	}
	WANT(oopsbox_append_begin(&zone.place, NULL, 0, bytes, 4, &flight) == OOPSBOX_ARGUMENT);
	WANT(oopsbox_append(&zone.place, NULL, 0, bytes, 4, &flight, &stores) == OOPSBOX_ARGUMENT);
	WANT(oopsbox_dump_begin(&zone.place, stand, SIZE, bytes, 37, bytes, 4, &flight) == OOPSBOX_ARGUMENT);
	for (size_t rows = 1; rows < 300; rows += 127) { /* 1, 128, 255 */
		WANT(oopsbox_zone_read(&zone.place, stand, SIZE, zone.table, rows, &answer) == OOPSBOX_ARGUMENT);
		WANT(oopsbox_zone_log(&zone.place, stand, SIZE, zone.table, rows, 0, log, 8, &got) == OOPSBOX_ARGUMENT);
	}
	WANT(IS_SEVEN(flight) && IS_SEVEN(stores) && IS_SEVEN(boot) && IS_SEVEN(answer) && IS_SEVEN(log) && IS_SEVEN(got));
}

static void set_words(uint32_t sig, uint32_t start, uint32_t size)
{
	uint32_t numbers_of[3] = {sig, start, size};
	memcpy(stand, numbers_of, 12);
}

/* A zone that cannot be written: an append wants an open ring, an erasure and a dump any ring. */
static void closed(void)
{
	uint32_t sig = zone.place.sig, cap = zone.place.cap;
	struct { uint32_t sig, start, size; int appends, erases; } rings[] = {
		{sig, 0, 0, 1, 1}, {sig, 5, 5, 1, 1}, {sig, 5, cap, 1, 1}, {sig, 0, cap, 1, 1}, {sig, cap - 1, cap, 1, 1},
		{sig ^ 1, 0, 0, 0, 0}, {0, 0, 0, 0, 0}, {sig, 1, 0, 0, 0}, {sig, 0, cap + 1, 0, 0},
		{sig, UINT32_MAX, UINT32_MAX, 0, 0}, {sig, 0, UINT32_MAX, 0, 0}, {sig, 3, 5, 0, 1}, {sig, cap, cap, 0, 1},
		{sig, 0, 5, 0, 1}};
	struct oopsbox_flight flight;
	struct oopsbox_stores stores;
	for (size_t i = 0; i < sizeof(rings) / sizeof(rings[0]); i++) {
		uint32_t open = rings[i].appends ? OOPSBOX_DONE : OOPSBOX_CLOSED;
		uint32_t ring = rings[i].erases ? OOPSBOX_DONE : OOPSBOX_CLOSED;
		set_words(rings[i].sig, rings[i].start, rings[i].size);
		SEVEN(flight);
		WANT(oopsbox_append_begin(&zone.place, stand, SIZE, (const uint8_t *)"abc", 3, &flight) == open);
		WANT(rings[i].appends || IS_SEVEN(flight));
		SEVEN(flight);
		SEVEN(stores);
		WANT(oopsbox_append(&zone.place, stand, SIZE, (const uint8_t *)"abc", 3, &flight, &stores) == open);
		WANT(rings[i].appends || (IS_SEVEN(flight) && IS_SEVEN(stores)));
		SEVEN(flight);
		WANT(oopsbox_erase_begin(&zone.place, stand, SIZE, &flight) == ring && (rings[i].erases || IS_SEVEN(flight)));
		SEVEN(flight);
		WANT(oopsbox_dump_begin(&zone.place, stand, SIZE, NULL, 0, NULL, 0, &flight) == ring);
		WANT(rings[i].erases || IS_SEVEN(flight));
	}
	set_words(sig, 0, 0);
}

/* Arguments of the next stores that do not belong to the flight. */
static void flights(void)
{
	static const uint8_t bytes[200] = "payload";
	struct oopsbox_flight begun, flight;
	struct oopsbox_stores stores;
	const uint8_t *line = bytes;
	SEVEN(stores);
	WANT(oopsbox_append_begin(&zone.place, stand, SIZE, bytes, 200, &begun) == OOPSBOX_DONE);
	flight = begun;
#define REFUSED(...) WANT(oopsbox_flight_next(&flight, __VA_ARGS__, &stores) == OOPSBOX_ARGUMENT \
			  && memcmp(&flight, &begun, sizeof(flight)) == 0 && IS_SEVEN(stores))
	REFUSED(stand, SIZE - 1, NULL, 0, bytes, 200, NULL, 0, 1);
	REFUSED(stand, SIZE + 1, NULL, 0, bytes, 200, NULL, 0, 1);
	REFUSED(NULL, 0, NULL, 0, bytes, 200, NULL, 0, 1);
	REFUSED(stand, SIZE, line, 1, bytes, 200, NULL, 0, 1);
	REFUSED(stand, SIZE, line, 37, bytes, 200, NULL, 0, 1);
	REFUSED(stand, SIZE, NULL, 0, bytes, 199, NULL, 0, 1);
	REFUSED(stand, SIZE, NULL, 0, bytes, 0, NULL, 0, 1);
	REFUSED(stand, SIZE, NULL, 0, bytes, 200, zone.table, 1, 1);
	REFUSED(stand, SIZE, NULL, 0, bytes, 200, zone.table, 255, 1);
	REFUSED(stand, SIZE, NULL, 0, bytes, 200, NULL, 0, 0);
	static const struct { size_t field; uint32_t value; } changes[] = {
		{offsetof(struct oopsbox_flight, zone.size), 0}, {offsetof(struct oopsbox_flight, zone.cap), 5000},
		{offsetof(struct oopsbox_flight, zone.blocks), 0}, {offsetof(struct oopsbox_flight, zone.parity), 128},
		{offsetof(struct oopsbox_flight, zone.block), 0}, {offsetof(struct oopsbox_flight, zone.kind), 4},
		{offsetof(struct oopsbox_flight, kind), 3}, {offsetof(struct oopsbox_flight, line), 37},
		{offsetof(struct oopsbox_flight, line), UINT32_MAX}, {offsetof(struct oopsbox_flight, leg), 4},
		{offsetof(struct oopsbox_flight, leg), UINT32_MAX}, {offsetof(struct oopsbox_flight, phase), 10},
		{offsetof(struct oopsbox_flight, phase), UINT32_MAX}, {offsetof(struct oopsbox_flight, start), 4000},
		{offsetof(struct oopsbox_flight, start), UINT32_MAX}, {offsetof(struct oopsbox_flight, size), 5000},
		{offsetof(struct oopsbox_flight, number), 1}, {offsetof(struct oopsbox_flight, number), UINT32_MAX}};
	for (size_t i = 0; i < sizeof(changes) / sizeof(changes[0]); i++) {
		memcpy((uint8_t *)&begun + changes[i].field, &changes[i].value, 4);
		struct oopsbox_flight changed = begun;
		flight = begun;
		WANT(oopsbox_flight_next(&flight, stand, SIZE, NULL, 0, bytes, 200, NULL, 0, 5, &stores) == OOPSBOX_ARGUMENT);
		WANT(memcmp(&flight, &changed, sizeof(flight)) == 0 && IS_SEVEN(stores));
		WANT(oopsbox_append_begin(&zone.place, stand, SIZE, bytes, 200, &begun) == OOPSBOX_DONE);
	}
}

/* Whether there are stores; each is tested. */
static int are_within(const struct oopsbox_stores *stores)
{
	WANT(stores->count <= 4 && stores->is_last <= 1);
	for (uint32_t i = 0; i < stores->count && !failed; i++) {
		const struct oopsbox_store *s = &stores->stores[i];
		size_t source = s->what == OOPSBOX_LINE ? 20 : s->what == OOPSBOX_PAYLOAD ? 300 : 128;
		uint64_t from = s->what == OOPSBOX_LINE || s->what == OOPSBOX_PAYLOAD ? s->from : 0;
		WANT(s->len > 0 && s->what <= OOPSBOX_BYTES && (uint64_t)s->place + s->len <= SIZE);
		WANT(from <= source && s->len <= source - from);
	}
	return stores->count > 0;
}

/* Any numbers in a flight or a boot: refused, or stores that lie within the zone, the line and the payload. */
static void any_numbers(void)
{
	uint8_t *bytes = malloc(SIZE), *payload = malloc(300), *line = malloc(20);
	long done = 0;
	memcpy(bytes, stand, SIZE);
	memset(payload, 'p', 300);
	memset(line, 'l', 20);
	for (long i = 0; i < rounds && !failed; i++) {
		struct oopsbox_flight flight;
		struct oopsbox_boot boot;
		struct oopsbox_stores stores;
		uint32_t *numbers_of = (uint32_t *)&flight, value = below(3) ? below(40) : below(2) ? below(5000) : below(UINT32_MAX);
		int is_dump = i % 2;
		uint32_t status = is_dump ? oopsbox_dump_begin(&zone.place, bytes, SIZE, line, 20, payload, 300, &flight)
					  : oopsbox_append_begin(&zone.place, bytes, SIZE, payload, 300, &flight);
		WANT(status == OOPSBOX_DONE);
		for (uint32_t k = below(4) + 1; k > 0; k--) /* the places after the zone's */
			numbers_of[13 + below(11)] = value % (k + 1) ? value : below(12);
		status = oopsbox_flight_next(&flight, bytes, SIZE, line, is_dump ? 20 : 0, payload, 300, NULL, 0, 1 + below(200),
					     &stores);
		WANT(status == OOPSBOX_ARGUMENT || status == OOPSBOX_DONE);
		if (status == OOPSBOX_DONE && are_within(&stores))
			done++;
		WANT(oopsbox_boot_begin(&zone.place, bytes, SIZE, &boot) == OOPSBOX_DONE);
		((uint32_t *)&boot)[11 + below(5)] = value;
		status = oopsbox_boot_next(&boot, bytes, SIZE, &stores);
		WANT(status == OOPSBOX_ARGUMENT || status == OOPSBOX_DONE);
		if (status == OOPSBOX_DONE)
			are_within(&stores);
	}
	WANT(done > 0);
	free(bytes);
	free(payload);
	free(line);
}

static void boots(void)
{
	struct oopsbox_boot begun, boot;
	struct oopsbox_stores stores;
	SEVEN(stores);
	WANT(oopsbox_boot_begin(&zone.place, stand, SIZE, &begun) == OOPSBOX_DONE);
	boot = begun;
	WANT(oopsbox_boot_next(&boot, stand, SIZE - 1, &stores) == OOPSBOX_ARGUMENT);
	WANT(oopsbox_boot_next(&boot, NULL, 0, &stores) == OOPSBOX_ARGUMENT);
	WANT(memcmp(&boot, &begun, sizeof(boot)) == 0 && IS_SEVEN(stores));
	boot.zone.cap = 1;
	begun = boot;
	WANT(oopsbox_boot_next(&boot, stand, SIZE, &stores) == OOPSBOX_ARGUMENT);
	boot.zone = zone.place;
	boot.phase = UINT32_MAX;
	WANT(oopsbox_boot_next(&boot, stand, SIZE, &stores) == OOPSBOX_ARGUMENT && IS_SEVEN(stores));
}

/* Empty slices, with NULL: an append of nothing, a dump of nothing, no table, no room for a log. */
static void empty(void)
{
	struct oopsbox_flight flight;
	struct oopsbox_stores stores;
	uint64_t got = 7;
	const struct oopsbox_zone_place *place = &zone.place;
	WANT(oopsbox_append_begin(place, stand, SIZE, NULL, 0, &flight) == OOPSBOX_DONE);
	WANT(oopsbox_flight_next(&flight, stand, SIZE, NULL, 0, NULL, 0, NULL, 0, 1, &stores) == OOPSBOX_DONE);
	WANT(stores.count == 0 && stores.is_last == 1 && flight.made == 0);
	WANT(oopsbox_flight_next(&flight, stand, SIZE, NULL, 0, NULL, 0, NULL, 0, 1, &stores) == OOPSBOX_DONE);
	WANT(stores.count == 0 && stores.is_last == 1);
	WANT(oopsbox_dump_begin(place, stand, SIZE, NULL, 0, NULL, 0, &flight) == OOPSBOX_DONE);
	WANT(oopsbox_flight_next(&flight, stand, SIZE, NULL, 0, NULL, 0, NULL, 0, 9, &stores) == OOPSBOX_DONE);
	WANT(stores.count == 2 && stores.is_last == 0 && flight.made == 2);
	WANT(stores.stores[0].what == OOPSBOX_WORD && stores.stores[0].place == 4 && stores.stores[0].word == 0
	     && stores.stores[0].len == 4);
	WANT(stores.stores[1].what == OOPSBOX_WORD && stores.stores[1].place == 8 && stores.stores[1].word == 0);
	WANT(oopsbox_zone_log(place, stand, SIZE, NULL, 0, UINT64_MAX, NULL, 0, &got) == OOPSBOX_DONE && got == 0);
}

static void in_place(void)
{
	zones_at();
	tables();
	if (find_zone(&zone, &numbers, OOPSBOX_CONSOLE, 0, stand) != OOPSBOX_DONE || boot_as(&zone, OOPSBOX_CONSOLE))
		printf("no zone\n"), exit(1);
	WANT(zone.place.size == SIZE);
	begins();
	closed();
	flights();
	boots();
	empty();
	any_numbers();
	WANT(append(&zone, (const uint8_t *)"abc", 3) == OOPSBOX_DONE);
	uint64_t got;
	uint8_t log[8];
	WANT(oopsbox_zone_log(&zone.place, stand, SIZE, zone.table, 256, 1, log, 8, &got) == OOPSBOX_DONE && got == 2);
	WANT(memcmp(log, "bc", 2) == 0);
}

int main(int argc, char **argv)
{
	(void)argv;
	if (argc > 1) /* under a sanitizer or valgrind */
		rounds = 4000;
	codes();
	layouts();
	zones();
	runs();
	reports();
	in_place();
	if (!failed)
		printf("arguments as stated\n");
	return failed;
}
