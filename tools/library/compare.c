/*
 * Random calls on a store in place, compared with the program's own run on the same image: readings, boots, boots and
 * calls that are stopped after some of their stores.   Usage: compare CALLS
 */
#include "store.h"
#include <stdio.h>
#include <stdlib.h>
#include <string.h>

enum { MEM = 65536, ZONES = 96, SHAPES = 6 };

static const struct {
	const char *words;
	struct oopsbox_params params;
} shapes[SHAPES] = {
	{"mem_size=65536 record_size=8192 console_size=16384 ftrace_size=4096 pmsg_size=8192",
	 {MEM, 8192, 16384, 4096, 8192, 0, 1, 128, 0, 0, 0, 0, 0, 0, 0}},
	{"mem_size=65536 record_size=8192 console_size=16384 ftrace_size=8192 pmsg_size=8192 ecc=1 cpus=2 "
	 "ftrace_sig=393664 order=console,pmsg,ftrace byte_order=big",
	 {MEM, 8192, 16384, 8192, 8192, 16, 2, 128, 16, 16, 16, 16, 393664, 1, 1}},
	{"mem_size=65536 record_size=4096 console_size=8192 ftrace_size=0 pmsg_size=4096 ecc=7 byte_order=big",
	 {MEM, 4096, 8192, 0, 4096, 7, 1, 128, 7, 7, 7, 7, 0, 0, 1}},
	{"mem_size=65536 record_size=16384 console_size=16384 ftrace_size=12288 pmsg_size=4096 ecc=100 cpus=3",
	 {MEM, 16384, 16384, 12288, 4096, 100, 3, 128, 100, 100, 100, 100, 0, 0, 0}},
	{"mem_size=65536 record_size=1024 console_size=2048 ftrace_size=1024 pmsg_size=1024 ecc=16 ecc_dump=0 ecc_console=5 "
	 "ecc_pmsg=127 block_size=32", {MEM, 1024, 2048, 1024, 1024, 16, 1, 32, 0, 5, 16, 127, 0, 0, 0}},
	{"mem_size=65536 record_size=0 console_size=32768 ftrace_size=16384 pmsg_size=16384 ecc=32 ecc_pmsg=0 cpus=5 "
	 "block_size=64", {MEM, 0, 32768, 16384, 16384, 32, 5, 64, 32, 32, 32, 0, 0, 0, 0}}};

static uint8_t image[MEM], by_run[MEM], by_calls[MEM], scratch[MEM], log_a[MEM], log_b[MEM];
static uint8_t text[1 << 20], payload[20000];
static char script[65536], hex[2 * sizeof(payload) + 1];
static struct oopsbox_zone_place places[ZONES];
static struct oopsbox_layout_answer laid;
static struct zone zones[ZONES];
static const char *words;
static unsigned long compared, stores_made;

static void fails(const char *what, uint64_t number)
{
	printf("%s (%lu), after %lu calls with %s\n%s", what, (unsigned long)number, compared, words, script);
	exit(1);
}

static void run(uint8_t *on)
{
	struct oopsbox_lengths lengths = {MEM, 0};
	char command[512];
	int length = snprintf(command, sizeof(command), "image run %s", words);
	uint32_t status = oopsbox_run((const uint8_t *)command, (size_t)length, (const uint8_t *)script, strlen(script), on,
				      MEM, text, sizeof(text), &lengths);
	if (status != OOPSBOX_DONE)
		fails((char *)text, status);
}

/* oopsbox_zone_at finds the zones that oopsbox_layout lists. */
static void lay_out(unsigned shape)
{
	words = shapes[shape].words;
	if (oopsbox_layout((const uint8_t *)words, strlen(words), places, ZONES, &laid) != OOPSBOX_DONE)
		fails("no layout", 0);
	for (uint64_t k = 0; k < laid.zones; k++) {
		if (find_zone(&zones[k], &shapes[shape].params, places[k].kind, places[k].index, by_calls) != OOPSBOX_DONE
		    || memcmp(&zones[k].place, &places[k], sizeof(places[k])) != 0)
			fails("another zone", k);
		if (below(2) == 0)
			zones[k].rows = 0;
	}
}

/* Wrong bytes: none, some in one zone, or many anywhere. */
static void damage(void)
{
	uint32_t how = below(4), at = how == 1 ? places[below((uint32_t)laid.zones)].at : 0;
	for (uint32_t n = how == 0 ? 0 : how == 3 ? below(400) : below(12); n > 0; n--)
		image[(at + below(how == 1 ? 600 : MEM)) % MEM] ^= (uint8_t)(1 + below(255));
}

/* oopsbox_zone_read and oopsbox_zone_log read what oopsbox_zone reads. */
static void compare_readings(void)
{
	memcpy(by_calls, image, MEM);
	for (uint64_t k = 0; k < laid.zones; k++) {
		const struct zone *z = &zones[k];
		struct oopsbox_zone_answer a, b;
		uint64_t from = 0, got = 1;
		if (oopsbox_zone((const uint8_t *)words, strlen(words), (uint32_t)k, image, MEM, log_a, MEM, &a) != OOPSBOX_DONE
		    || oopsbox_zone_read(&z->place, z->bytes, z->place.size, z->table, z->rows, &b) != OOPSBOX_DONE
		    || memcmp(&a, &b, sizeof(a)) != 0)
			fails("another reading of zone", k);
		for (; got > 0; from += got)
			if (oopsbox_zone_log(&z->place, z->bytes, z->place.size, z->table, z->rows, from, log_b + from,
					     1 + below(3000), &got) != OOPSBOX_DONE)
				fails("no log of zone", k);
		if (from != a.log || memcmp(log_a, log_b, from) != 0)
			fails("another log of zone", k);
	}
}

/* The stores of a boot, at most `most` of them; how many were made. */
static uint64_t boot_stores(struct zone *z, uint64_t most)
{
	struct oopsbox_boot boot;
	struct oopsbox_stores stores;
	uint64_t made = 0;
	if (oopsbox_boot_begin(&z->place, z->bytes, z->place.size, &boot) != OOPSBOX_DONE)
		fails("no boot", 0);
	while (made < most) {
		if (oopsbox_boot_next(&boot, z->bytes, z->place.size, &stores) != OOPSBOX_DONE)
			fails("no store of a boot", made);
		uint64_t count = count_stores(&stores);
		if (boot.made != made + count || stores.is_last != (count == 0))
			fails("another number of stores of a boot", boot.made);
		if (stores.is_last)
			break;
		if (count > most - made)
			stores.stores[0].len = (uint32_t)(most - made);
		make_stores(z, &stores, NULL, NULL);
		made += count_stores(&stores);
	}
	return made;
}

static uint64_t boot_all(uint64_t most)
{
	uint64_t made = 0;
	memcpy(by_calls, image, MEM);
	for (uint64_t k = 0; k < laid.zones; k++)
		made += boot_stores(&zones[k], most - made);
	return made;
}

static void compare_boots(void)
{
	uint64_t total = boot_all(UINT64_MAX);
	memcpy(by_run, image, MEM);
	strcpy(script, "boot\n");
	run(by_run);
	if (memcmp(by_run, by_calls, MEM) != 0)
		fails("another boot, stores", total);
	if (total > 0) {
		uint64_t some = below((uint32_t)total) + 1;
		boot_all(some);
		memcpy(by_run, image, MEM);
		sprintf(script, "boot %lu\n", (unsigned long)some);
		run(by_run);
		if (memcmp(by_run, by_calls, MEM) != 0)
			fails("another boot, after stores", some);
	}
	stores_made += total;
}

/* Whether two answers hand out the same stores, by the members that a kind of store has. */
static int are_same(const struct oopsbox_stores *a, const struct oopsbox_stores *b)
{
	if (a->count != b->count || a->is_last != b->is_last)
		return 0;
	for (uint32_t i = 0; i < a->count; i++) {
		const struct oopsbox_store *x = &a->stores[i], *y = &b->stores[i];
		if (x->what != y->what || x->place != y->place || x->len != y->len)
			return 0;
		if (x->what == OOPSBOX_WORD && x->word != y->word)
			return 0;
		if (x->what == OOPSBOX_WORD || x->what == OOPSBOX_BYTES) {
			if (memcmp(x->bytes, y->bytes, x->len) != 0)
				return 0;
		} else if (x->from != y->from) {
			return 0;
		}
	}
	return 1;
}

/* oopsbox_append answers what a begin and the first answer do. */
static void compare_append(struct zone *z, size_t length, const struct oopsbox_flight *begun)
{
	struct oopsbox_stores a, b;
	struct oopsbox_flight one, two = *begun;
	memset(&a, 0, sizeof(a));
	memset(&b, 0, sizeof(b));
	if (oopsbox_append(&z->place, z->bytes, z->place.size, payload, length, &one, &a) != OOPSBOX_DONE
	    || next_stores(z, &two, NULL, 0, payload, length, UINT32_MAX, &b) != OOPSBOX_DONE)
		fails("no append", length);
	/* Without parity the call is at its end: of its flight, what was made and that count. */
	int is_same = z->place.parity != 0 ? memcmp(&one, &two, sizeof(one)) == 0
					   : one.made == two.made && one.phase == two.phase;
	if (!is_same || !are_same(&a, &b))
		fails("another append", length);
}

static uint32_t begin(const struct zone *z, uint32_t kind, const char *line, size_t length,
		      struct oopsbox_flight *flight)
{
	const struct oopsbox_zone_place *p = &z->place;
	if (kind == OOPSBOX_APPEND)
		return oopsbox_append_begin(p, z->bytes, p->size, payload, length, flight);
	if (kind == OOPSBOX_ERASE)
		return oopsbox_erase_begin(p, z->bytes, p->size, flight);
	return oopsbox_dump_begin(p, z->bytes, p->size, (const uint8_t *)line, strlen(line), payload, length, flight);
}

/* Makes at most so many stores of a call, and answers how many were made. */
static uint64_t call(struct zone *z, uint32_t kind, const char *line, size_t length, uint64_t most_stores)
{
	uint32_t most = below(3) == 0 ? 1 + below(9) : UINT32_MAX;
	struct oopsbox_flight flight;
	struct oopsbox_stores stores;
	if (begin(z, kind, line, length, &flight) != OOPSBOX_DONE)
		fails("refused", kind);
	if (kind == OOPSBOX_APPEND)
		compare_append(z, length, &flight);
	stores.is_last = 0;
	while (flight.made < most_stores && !stores.is_last) {
		uint64_t left = most_stores - flight.made, made = flight.made;
		if (next_stores(z, &flight, (const uint8_t *)line, strlen(line), payload, length,
				left < most ? (uint32_t)left : most, &stores) != OOPSBOX_DONE)
			fails("no store", made);
		if (flight.made - made != count_stores(&stores) || flight.made == made || flight.made > most_stores)
			fails("another number of stores", flight.made);
		make_stores(z, &stores, (const uint8_t *)line, payload);
	}
	return flight.made;
}

static const char *name_of(const struct oopsbox_zone_place *p)
{
	static char name[32];
	static const char *const kinds[] = {"dump-%u", "console", "ftrace-%u", "pmsg"};
	snprintf(name, sizeof(name), kinds[p->kind], (unsigned)p->index);
	return name;
}

static void compare_calls(uint32_t number)
{
	struct zone *z = &zones[below((uint32_t)laid.zones)];
	uint32_t kind = below(5) == 0 ? OOPSBOX_ERASE : z->place.kind == OOPSBOX_DUMP ? OOPSBOX_WRITE_DUMP : OOPSBOX_APPEND;
	size_t length = kind == OOPSBOX_ERASE ? 0 : 1 + below(below(7) == 0 ? sizeof(payload) : 900), at = 0;
	char line[40] = "", what[64];
	if (kind == OOPSBOX_WRITE_DUMP) { /* the first dump after a boot goes to the first dump zone */
		z = &zones[0];
		sprintf(line, "====%u.000006-%c\n", 5 + number, number % 2 ? 'D' : 'C');
		sprintf(what, "dump %u 6 %c ", 5 + number, number % 2 ? 'D' : 'C');
	} else {
		sprintf(what, kind == OOPSBOX_ERASE ? "erase %s" : "write %s ", name_of(&z->place));
	}
	for (size_t i = 0; i < length; i++)
		at += (size_t)sprintf(hex + at, "%02x", payload[i] = (uint8_t)below(256));
	hex[at] = 0;
	boot_all(UINT64_MAX);
	memcpy(scratch, by_calls, MEM);
	uint64_t total = call(z, kind, line, length, UINT64_MAX), some = below((uint32_t)total + 1);
	memcpy(by_calls, scratch, MEM);
	if (below(2) == 0)
		some = total;
	if (call(z, kind, line, length, some) != some)
		fails("fewer stores", some);
	sprintf(script, "boot\nbegin %s%s\n%s %s", what, hex, some == total ? "finish" : "step", name_of(&z->place));
	sprintf(script + strlen(script), some == total ? "\n" : " %lu\n", (unsigned long)some);
	if (some == 0)
		sprintf(script, "boot\n");
	memcpy(by_run, image, MEM);
	run(by_run);
	if (memcmp(by_run, by_calls, MEM) != 0)
		fails("another image after stores", some);
	memcpy(image, by_run, MEM);
	stores_made += some;
}

int main(int argc, char **argv)
{
	uint32_t calls = argc > 1 ? (uint32_t)atoi(argv[1]) : 240;
	for (uint32_t i = 0; i < calls; i++, compared++) {
		if (i % 20 == 0) {
			lay_out(i / 20 % SHAPES);
			memset(image, 0, MEM);
		}
		damage();
		compare_readings();
		compare_boots();
		compare_calls(i);
	}
	printf("%lu calls and boots in place as by run, %lu stores\n", compared, stores_made);
	return 0;
}
