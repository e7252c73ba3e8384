/*
 * Prints a line for each of many random calls of the library: the status, and a sum of all that the call wrote. Two
 * builds of the library, for two processors, print the same lines.   Usage: answers IMAGES
 */
#include <oopsbox.h>
#include <stdio.h>
#include <stdlib.h>
#include <string.h>

enum { MOST = 65536 };

static uint64_t state = 88172645463325252u;
static uint8_t image[MOST], payload[MOST], logged[MOST];
static struct oopsbox_row table[OOPSBOX_TABLE];
static size_t rows;
static unsigned long calls;

static uint32_t below(uint32_t bound)
{
	state ^= state << 13;
	state ^= state >> 7;
	state ^= state << 17;
	return (uint32_t)((state >> 32) % bound);
}

static uint64_t sum(uint64_t so_far, const void *bytes, size_t count)
{
	for (size_t i = 0; i < count; i++)
		so_far = (so_far ^ ((const uint8_t *)bytes)[i]) * 1099511628211u;
	return so_far;
}

static uint32_t tell(const char *call, uint32_t status, const void *bytes, size_t count)
{
	printf("%s %u %016llx\n", call, (unsigned)status, (unsigned long long)sum(14695981039346656037u, bytes, count));
	calls++;
	return status;
}

static void make(uint8_t *zone, const struct oopsbox_stores *stores, const uint8_t *line)
{
	for (const struct oopsbox_store *s = stores->stores; s < stores->stores + stores->count; s++)
		memcpy(zone + s->place,
		       s->what == OOPSBOX_LINE ? line + s->from : s->what == OOPSBOX_PAYLOAD ? payload + s->from : s->bytes, s->len);
}

/* What the first count of the stores are; the rest of the struct is not to be read. */
static uint64_t sum_stores(const struct oopsbox_stores *stores)
{
	uint64_t so_far = 14695981039346656037u;
	for (uint32_t i = 0; i < stores->count; i++) {
		const struct oopsbox_store *s = &stores->stores[i];
		so_far = sum(sum(so_far, s, 24), s->bytes, s->what == OOPSBOX_WORD ? 4 : s->what == OOPSBOX_BYTES ? s->len : 0);
	}
	return sum(so_far, &stores->is_last, 4);
}

static void fly(const struct oopsbox_zone_place *place, uint8_t *zone, struct oopsbox_flight *flight,
		const uint8_t *line, size_t line_len, size_t length)
{
	struct oopsbox_stores stores;
	uint32_t status, most = below(4) == 0 ? 1 + below(300) : UINT32_MAX, stop = below(8) == 0 ? below(6) : UINT32_MAX;
	do {
		status = oopsbox_flight_next(flight, zone, place->size, line, line_len, payload, length, table, rows, most, &stores);
		uint64_t told = status == OOPSBOX_DONE ? sum_stores(&stores) : 0;
		tell("flight_next", status, &told, sizeof(told));
		tell("flight", status, flight, sizeof(*flight));
		if (status != OOPSBOX_DONE)
			return;
		make(zone, &stores, line);
	} while (!stores.is_last && stop-- > 0); /* a power loss, sometimes */
}

static void write_some(const struct oopsbox_zone_place *place, uint8_t *zone)
{
	static const uint8_t line[] = "====1764201858.836908-D\n";
	struct oopsbox_flight flight = {0};
	size_t length = below(10) == 0 ? below(MOST) : below(700), line_len = 0;
	uint32_t kind = below(5), status;
	for (size_t i = 0; i < length; i++)
		payload[i] = (uint8_t)below(256);
	if (kind == 0) {
		length = 0;
		status = oopsbox_erase_begin(place, zone, place->size, &flight);
	} else if (kind == 1) {
		line_len = sizeof(line) - 1;
		status = oopsbox_dump_begin(place, zone, place->size, line, line_len, payload, length, &flight);
	} else {
		status = oopsbox_append_begin(place, zone, place->size, payload, length, &flight);
	}
	if (tell("begin", status, &flight, sizeof(flight)) == OOPSBOX_DONE)
		fly(place, zone, &flight, line, line_len, length);
}

static void read_zone(const struct oopsbox_zone_place *place, const uint8_t *zone)
{
	struct oopsbox_zone_answer answer = {0};
	uint64_t got = 0, from = below(3) == 0 ? below(4096) : 0;
	tell("zone_read", oopsbox_zone_read(place, zone, place->size, table, rows, &answer), &answer, sizeof(answer));
	tell("zone_log", oopsbox_zone_log(place, zone, place->size, table, rows, from, logged, below(MOST), &got), &got, 8);
	tell("log", 0, logged, got);
}

static void boot_zone(const struct oopsbox_zone_place *place, uint8_t *zone)
{
	struct oopsbox_boot boot = {0};
	struct oopsbox_stores stores;
	uint32_t status = tell("boot_begin", oopsbox_boot_begin(place, zone, place->size, &boot), &boot, sizeof(boot));
	stores.is_last = 0;
	while (status == OOPSBOX_DONE && !stores.is_last) {
		status = oopsbox_boot_next(&boot, zone, place->size, &stores);
		uint64_t told = sum_stores(&stores);
		tell("boot_next", status, &told, sizeof(told));
		make(zone, &stores, NULL);
	}
}

static void damage(uint8_t *zone, uint32_t size)
{
	for (uint32_t n = below(40); n > 0; n--)
		zone[below(8) == 0 ? below(12) : below(size)] ^= (uint8_t)(1 + below(255));
}

static void use(const struct oopsbox_params *params, uint32_t kind, uint32_t index)
{
	struct oopsbox_zone_place place = {0};
	struct oopsbox_layout_answer answer = {0};
	uint32_t status = oopsbox_zone_at(params, kind, index, &place, &answer);
	tell("zone_at", status, &place, sizeof(place));
	tell("layout", status, &answer, sizeof(answer));
	if (status != OOPSBOX_DONE)
		return;
	rows = 0;
	if (place.parity > 0 && below(2) == 0) {
		rows = OOPSBOX_TABLE;
		tell("table", oopsbox_table(place.parity, table, rows), table, sizeof(table));
	}
	uint8_t *zone = image + place.at;
	for (uint32_t round = below(4) + 1; round > 0; round--) {
		read_zone(&place, zone);
		boot_zone(&place, zone);
		for (uint32_t n = below(6); n > 0; n--)
			write_some(&place, zone);
		read_zone(&place, zone);
		if (below(2) == 0)
			damage(zone, place.size);
	}
	tell("image", 0, image, params->mem);
}

static void codes(void)
{
	uint8_t block[255], places[127];
	uint32_t parity = below(130), length = below(255), corrected = 0;
	for (size_t i = 0; i < sizeof(block); i++)
		block[i] = (uint8_t)below(256);
	if (parity + length > 255)
		parity = 255 - length;
	memset(places, 0, sizeof(places));
	tell("rs_encode", oopsbox_rs_encode(block, length, block + length, parity), block, sizeof(block));
	for (uint32_t n = below(parity / 2 + 3); n > 0 && length > 0; n--)
		block[below(length + parity)] ^= (uint8_t)(1 + below(255));
	tell("rs_decode", oopsbox_rs_decode(block, length, block + length, parity, places, sizeof(places), &corrected), block,
	     sizeof(block));
	tell("places", corrected, places, sizeof(places));
}

int main(int argc, char **argv)
{
	static const uint32_t sizes[] = {4096, 8192, 16384, 65536}, zones[] = {0, 1024, 2048, 4096, 3000};
	static const uint32_t eccs[] = {0, 1, 5, 16, 32, 127};
	for (long n = argc > 1 ? atol(argv[1]) : 100; n > 0; n--) {
		struct oopsbox_params params = {.mem = sizes[below(4)], .dump = zones[below(5)], .console = zones[below(5)],
			.ftrace = zones[below(5)], .pmsg = zones[below(5)], .cpus = 1 + below(2), .block = 32u << below(3)};
		params.ecc = eccs[below(6)];
		params.ecc_dump = params.ecc_console = params.ecc_ftrace = params.ecc_pmsg = params.ecc;
		for (size_t i = 0; i < params.mem; i++)
			image[i] = below(3) == 0 ? (uint8_t)below(256) : 0;
		if (below(2) == 0)
			memset(image, 0, sizeof(image));
		for (uint32_t kind = 0; kind < 4; kind++)
			use(&params, kind, below(3) == 0 ? below(3) : 0);
		for (int i = 0; i < 20; i++)
			codes();
	}
	fprintf(stderr, "%lu calls\n", calls);
	return 0;
}
