/*
 * How much stack each call takes: it runs in a thread whose stack was painted before, and what is still painted
 * afterwards was not used. Prints the bytes of each call. Fails if a call on a store in place takes more than
 * OOPSBOX_STACK_PLACE bytes, one of the two calls on a block more than OOPSBOX_STACK_CODES, or another call more than
 * OOPSBOX_STACK (include/oopsbox.h). Reports are also made of regions, and of one by a device tree.
 *
 *     stack TREE REGION ..
 */
#include "store.h"
#include <pthread.h>
#include <stdio.h>
#include <stdlib.h>
#include <string.h>

enum { STACK = 4 << 20, PAINT = 0xa5, MEM = 1 << 20, TEXT = 1 << 22 };

static const char params[] = "mem_size=0x100000 record_size=0x4000 console_size=0x4000 pmsg_size=0x4000 ecc=127";
static uint8_t *image, *text;

static void check(int is_right, const char *what)
{
	if (!is_right) {
		printf("stack: %s was not done\n", what);
		exit(1);
	}
}

static uint32_t run(const char *command, const char *script)
{
	char words[256];
	struct oopsbox_lengths lengths = {MEM, 0};
	int length = snprintf(words, sizeof(words), "image %s %s", command, params);
	return oopsbox_run((const uint8_t *)words, (size_t)length, (const uint8_t *)script, strlen(script), image, MEM, text,
			   TEXT, &lengths);
}

static void *encode(void *unused)
{
	uint8_t data[128] = {1, 2, 3}, parity[127];
	check(oopsbox_rs_encode(data, 128, parity, 127) == OOPSBOX_DONE, "encode");
	return unused;
}

static void *decode(void *unused)
{
	uint8_t data[128] = {1, 2, 3}, parity[127], places[63];
	uint32_t corrected;
	check(oopsbox_rs_encode(data, 128, parity, 127) == OOPSBOX_DONE, "encode");
	for (int i = 0; i < 63; i++)
		data[i] ^= 0x5a;
	check(oopsbox_rs_decode(data, 128, parity, 127, places, 63, &corrected) == OOPSBOX_DONE && corrected == 63, "decode");
	return unused;
}

static void *layout(void *unused)
{
	static struct oopsbox_zone_place places[128];
	struct oopsbox_layout_answer answer;
	check(oopsbox_layout((const uint8_t *)params, strlen(params), places, 128, &answer) == OOPSBOX_DONE, "layout");
	return unused;
}

static void *zone(void *unused)
{
	struct oopsbox_zone_answer answer;
	check(oopsbox_zone((const uint8_t *)params, strlen(params), 0, image, MEM, text, TEXT, &answer) == OOPSBOX_DONE,
	      "zone");
	return unused;
}

static void *runs(void *unused)
{
	check(run("run", "boot\nkmsg 6f6e65\ncrash Panic 7 8\nstop\nboot\nwrite console 616263\nstop\n") == OOPSBOX_DONE,
	      "run");
	check(run("list", "") == OOPSBOX_DONE, "list");
	check(run("extract console-ramoops-0", "") == OOPSBOX_DONE, "extract");
	check(run("make 7", "") == OOPSBOX_DONE, "make");
	check(run("layout", "") == OOPSBOX_DONE, "layout");
	check(run("salvage", "") == OOPSBOX_DONE, "salvage");
	check(run("blank", "") == OOPSBOX_DONE, "blank");
	return unused;
}

enum { FILES = 8, FILE_MOST = 1 << 16 };

static struct {
	uint8_t bytes[FILE_MOST];
	size_t size;
} files[FILES]; /* a device tree, and regions that it may fit */
static int file_count;

static void read_files(int count, char **names)
{
	check(count >= 2 && count <= FILES, "reading a tree and a region");
	for (; file_count < count; file_count++) {
		FILE *file = fopen(names[file_count], "rb");
		check(file != NULL, names[file_count]);
		files[file_count].size = fread(files[file_count].bytes, 1, FILE_MOST, file);
		check(fclose(file) == 0 && files[file_count].size > 0, names[file_count]);
	}
}

static uint32_t report(const char *words, size_t tree, const uint8_t *bytes, size_t size, uint32_t format)
{
	struct oopsbox_report_answer told;
	return oopsbox_report((const uint8_t *)"image", 5, (const uint8_t *)words, strlen(words), files[0].bytes, tree, bytes,
			      size, format, text, TEXT, &told);
}

/* Each format of a full image with 52 wrong bytes in each block, and of regions whose layout is looked for. */
static void *reports(void *unused)
{
	check(run("make 7", "") == OOPSBOX_DONE, "make");
	for (size_t i = 0; i < MEM; i += 5)
		image[i] ^= 0x5a;
	for (uint32_t format = OOPSBOX_TEXT; format <= OOPSBOX_HTML; format++) {
		check(report(params, 0, image, MEM, format) == OOPSBOX_DONE, "report");
		for (int i = 1; i < file_count; i++)
			check(report("", 0, files[i].bytes, files[i].size, format) == OOPSBOX_DONE, "search");
		check(report("", files[0].size, files[1].bytes, files[1].size, format) == OOPSBOX_DONE, "tree");
	}
	return unused;
}

/* ---- the store in place: each zone of each parity, damaged or not, with a table and without ---- */

static struct zone store;
static uint8_t room[4096], log_room[4096];
static struct oopsbox_flight flight;
static struct oopsbox_boot boot;
static struct oopsbox_stores stores;
static struct oopsbox_zone_answer answer;
static uint64_t got;

static void *zone_at(void *unused)
{
	struct oopsbox_params params = {1 << 24, 256, 65536, 65536, 65536, 0, 64, 128, 0, 1, 0, 0, 7, 0, 0};
	struct oopsbox_zone_place place;
	struct oopsbox_layout_answer laid;
	check(oopsbox_zone_at(&params, OOPSBOX_FTRACE, 63, &place, &laid) == OOPSBOX_DONE, "zone_at");
	params.ecc_dump = 127;
	check(oopsbox_zone_at(&params, OOPSBOX_PMSG, 0, &place, &laid) == OOPSBOX_FAULT, "zone_at");
	return unused;
}

static void *table(void *unused)
{
	check(oopsbox_table(store.place.parity ? store.place.parity : 1, store.table, OOPSBOX_TABLE) == OOPSBOX_DONE, "table");
	return unused;
}

static void *append_begin(void *unused)
{
	check(oopsbox_append_begin(&store.place, room, store.place.size, text, 9000, &flight) == OOPSBOX_DONE, "append_begin");
	return unused;
}

static void *append_call(void *unused)
{
	check(oopsbox_append(&store.place, room, store.place.size, text, 9000, &flight, &stores) == OOPSBOX_DONE, "append");
	return unused;
}

static void *erase_begin(void *unused)
{
	check(oopsbox_erase_begin(&store.place, room, store.place.size, &flight) == OOPSBOX_DONE, "erase_begin");
	return unused;
}

static void *dump_begin(void *unused)
{
	check(oopsbox_dump_begin(&store.place, room, store.place.size, text, 36, text, 9000, &flight) == OOPSBOX_DONE,
	      "dump_begin");
	return unused;
}

static void *flight_next(void *unused)
{
	int is_dump = flight.kind == OOPSBOX_WRITE_DUMP;
	stores.is_last = 0;
	while (!stores.is_last) {
		check(next_stores(&store, &flight, text, is_dump ? 36 : 0, text, 9000, 100, &stores) == OOPSBOX_DONE,
		      "flight_next");
		make_stores(&store, &stores, text, text);
	}
	return unused;
}

static void *zone_read(void *unused)
{
	check(oopsbox_zone_read(&store.place, room, store.place.size, store.table, store.rows, &answer) == OOPSBOX_DONE,
	      "zone_read");
	return unused;
}

static void *zone_log(void *unused)
{
	check(oopsbox_zone_log(&store.place, room, store.place.size, store.table, store.rows, 1, log_room,
			       sizeof(log_room), &got) == OOPSBOX_DONE, "zone_log");
	return unused;
}

static void *boot_begin(void *unused)
{
	check(oopsbox_boot_begin(&store.place, room, store.place.size, &boot) == OOPSBOX_DONE,
	      "boot_begin");
	return unused;
}

static void *boot_next(void *unused)
{
	stores.is_last = 0;
	while (!stores.is_last) {
		check(oopsbox_boot_next(&boot, room, store.place.size, &stores) == OOPSBOX_DONE,
		      "boot_next");
		make_stores(&store, &stores, NULL, NULL);
	}
	return unused;
}

enum { PLACE_CALLS = 11, PLACE_STACK = 1 << 17 };

static const struct {
	const char *name;
	void *(*work)(void *);
} place_calls[PLACE_CALLS] = {
	{"oopsbox_zone_at", zone_at}, {"oopsbox_table", table}, {"oopsbox_append_begin", append_begin},
	{"oopsbox_erase_begin", erase_begin}, {"oopsbox_dump_begin", dump_begin}, {"oopsbox_flight_next", flight_next},
	{"oopsbox_zone_read", zone_read}, {"oopsbox_zone_log", zone_log}, {"oopsbox_boot_begin", boot_begin},
	{"oopsbox_boot_next", boot_next}, {"oopsbox_append", append_call}};

/* Half the parity of each part is wrong. */
static void damage(void)
{
	const struct oopsbox_zone_place *p = &store.place;
	for (uint32_t b = 0; b * p->block < p->cap; b++)
		for (uint32_t i = 0; i < p->parity / 2 && b * p->block + i < p->cap; i++)
			room[12 + b * p->block + i] ^= 0x5a;
	for (uint32_t i = 0; i < p->parity / 2 && i < 12; i++)
		room[i] ^= 0x5a;
}

static size_t taken(void *(*work)(void *), size_t size);

static void note(size_t *most, void *(*work)(void *))
{
	size_t bytes = taken(work, PLACE_STACK);
	for (unsigned i = 0; i < PLACE_CALLS; i++)
		if (place_calls[i].work == work && bytes > most[i])
			most[i] = bytes;
}

/* The most bytes that each call on a store in place takes, on zones of this parity. */
static void note_zone(size_t *most, uint32_t parity, size_t rows)
{
	struct oopsbox_params params = {sizeof(room), 0, sizeof(room), 0, 0, 0, 1, 128, 0, parity, 0, 0, 0, 0, 0};
	memset(room, 0, sizeof(room));
	check(find_zone(&store, &params, OOPSBOX_CONSOLE, 0, room) == OOPSBOX_DONE, "a zone");
	store.rows = parity == 0 ? 0 : rows;
	note(most, zone_at);
	note(most, table);
	for (int round = 0; round < 2; round++) {
		store.place.kind = round == 0 ? OOPSBOX_CONSOLE : OOPSBOX_DUMP;
		note(most, zone_read);
		note(most, boot_begin);
		note(most, boot_next);
		note(most, append_call);
		note(most, round == 0 ? append_begin : dump_begin);
		note(most, flight_next);
		damage();
		note(most, zone_read);
		note(most, zone_log);
		note(most, boot_begin);
		note(most, boot_next);
		note(most, erase_begin);
	}
}

static int places_fail(void)
{
	static const uint32_t parities[] = {0, 1, 16, 32, 100, 127};
	size_t most[PLACE_CALLS] = {0};
	int failed = 0;
	memcpy(text, "====1764201858.836908-D\n", 24);
	for (unsigned i = 0; i < sizeof(parities) / sizeof(parities[0]); i++) {
		note_zone(most, parities[i], 0);
		note_zone(most, parities[i], OOPSBOX_TABLE);
	}
	for (unsigned i = 0; i < PLACE_CALLS; i++) {
		printf("%s takes %zu bytes of stack\n", place_calls[i].name, most[i]);
		failed |= most[i] > OOPSBOX_STACK_PLACE;
	}
	if (failed)
		printf("a call on a store in place takes more than %d\n", OOPSBOX_STACK_PLACE);
	return failed;
}

static void *(*work_of)(void *);
static uint8_t *top;

static void *enter(void *unused)
{
	top = __builtin_frame_address(0);
	unused = work_of(unused);
	__asm__ volatile("" : : : "memory"); /* no jump in place of the call */
	return unused;
}

/* The bytes that this takes of a stack of so many, the small frame of the function that makes the call included. */
static size_t taken(void *(*work)(void *), size_t size)
{
	uint8_t *stack = aligned_alloc(4096, size);
	pthread_attr_t attributes;
	pthread_t thread;
	size_t painted = 0;
	work_of = work;
	check(stack != NULL && pthread_attr_init(&attributes) == 0, "memory");
	memset(stack, PAINT, size);
	check(pthread_attr_setstack(&attributes, stack, size) == 0, "a stack");
	check(pthread_create(&thread, &attributes, enter, NULL) == 0 && pthread_join(thread, NULL) == 0, "a thread");
	while (painted < size && stack[painted] == PAINT)
		painted++;
	pthread_attr_destroy(&attributes);
	size_t bytes = (size_t)(top - (stack + painted));
	free(stack);
	return bytes;
}

int main(int argc, char **argv)
{
	static const struct {
		const char *name;
		void *(*work)(void *);
		size_t most;
	} calls[] = {{"oopsbox_rs_encode", encode, OOPSBOX_STACK_CODES},
		     {"oopsbox_rs_decode", decode, OOPSBOX_STACK_CODES},
		     {"oopsbox_layout", layout, OOPSBOX_STACK},
		     {"oopsbox_zone", zone, OOPSBOX_STACK},
		     {"oopsbox_run", runs, OOPSBOX_STACK},
		     {"oopsbox_report", reports, OOPSBOX_STACK}};
	int failed = 0;
	image = calloc(1, MEM);
	text = malloc(TEXT);
	check(image != NULL && text != NULL, "memory");
	read_files(argc - 1, argv + 1);
	failed = places_fail();
	check(run("make 7", "") == OOPSBOX_DONE, "make");
	for (size_t i = 0; i < sizeof(calls) / sizeof(calls[0]); i++) {
		size_t bytes = taken(calls[i].work, STACK);
		printf("%s takes %zu bytes of stack\n", calls[i].name, bytes);
		if (bytes > calls[i].most) {
			printf("%s takes more than %zu\n", calls[i].name, calls[i].most);
			failed = 1;
		}
	}
	free(image);
	free(text);
	return failed;
}
