/*
 * Times appends of 80 bytes through the library's calls beside Linux's persistent_ram_write, in one process, and
 * compares the zones that both leave. tools/bench-append builds and explains this.
 *
 * Usage: append ROUNDS APPENDS 0|1
 */
#include "peer.h"
#include "store.h"
#include <stdio.h>
#include <stdlib.h>
#include <string.h>
#include <time.h>

enum { LENGTH = 80, LINES = 64, MOST = 65536, ROUNDS = 101 };

static uint8_t lines[LINES][LENGTH];
static uint8_t ours[MOST] __attribute__((aligned(4096))), theirs[MOST] __attribute__((aligned(4096)));
static struct zone zone;

/* A word is one store, and a run of bytes one memcpy: Linux's function copies it so, too. */
static inline void make_at_once(const struct oopsbox_store *store, const uint8_t *line)
{
	if (store->what == OOPSBOX_WORD)
		__atomic_store_n((uint32_t *)(zone.bytes + store->place), store->word, __ATOMIC_RELAXED);
	else if (store->what == OOPSBOX_PAYLOAD)
		memcpy(zone.bytes + store->place, line + store->from, store->len);
	else
		memcpy(zone.bytes + store->place, store->bytes, store->len);
}

static void append_line(const uint8_t *line)
{
	struct oopsbox_flight flight;
	struct oopsbox_stores stores;
	uint32_t status = oopsbox_append(&zone.place, zone.bytes, zone.place.size, line, LENGTH, &flight, &stores);
	while (status == OOPSBOX_DONE) {
		for (uint32_t i = 0; i < stores.count; i++)
			make_at_once(&stores.stores[i], line);
		if (stores.is_last)
			return;
		status = next_stores(&zone, &flight, NULL, 0, line, LENGTH, UINT32_MAX, &stores);
	}
	printf("an append is refused: %u\n", (unsigned)status);
	exit(1);
}

static double now(void)
{
	struct timespec t;
	clock_gettime(CLOCK_PROCESS_CPUTIME_ID, &t);
	return (double)t.tv_sec * 1e9 + (double)t.tv_nsec;
}

static double time_ours(long appends)
{
	double start = now();
	for (long i = 0; i < appends; i++)
		append_line(lines[i % LINES]);
	return (now() - start) / (double)appends;
}

static double time_theirs(long appends)
{
	double start = now();
	for (long i = 0; i < appends; i++)
		peer_append(PEER_CONSOLE, lines[i % LINES], LENGTH);
	return (now() - start) / (double)appends;
}

static int by_value(const void *a, const void *b)
{
	double x = *(const double *)a, y = *(const double *)b;
	return x < y ? -1 : x > y;
}

static double median(double *times, int rounds)
{
	qsort(times, (size_t)rounds, sizeof(*times), by_value);
	return times[rounds / 2];
}

/* A row of the table: 1 if it is below its limit. */
static int compare(uint32_t size, uint32_t parity, int rounds, long appends)
{
	struct oopsbox_params params = {size, 0, size, 0, 0, parity, 1, 128, parity, parity, parity, parity, 0, 0, 0};
	double by_us[ROUNDS], by_them[ROUNDS], limit = parity == 0 ? 1 : 5;
	memset(ours, 0, size);
	memset(theirs, 0, size);
	if (find_zone(&zone, &params, OOPSBOX_CONSOLE, 0, ours) != OOPSBOX_DONE
	    || boot_as(&zone, OOPSBOX_CONSOLE) != OOPSBOX_DONE || peer_boot(theirs, size, size, 0, (int)parity) != 0) {
		printf("no zone of %u bytes\n", size);
		exit(1);
	}
	for (int i = 0; i < rounds; i++) {
		by_us[i] = time_ours(appends);
		by_them[i] = time_theirs(appends);
	}
	peer_end();
	if (memcmp(ours, theirs, size) != 0) {
		printf("the zones differ: %u bytes, parity %u\n", size, parity);
		exit(1);
	}
	double us = median(by_us, rounds), them = median(by_them, rounds);
	printf("%8u %8u %12.1f %12.1f %9.2f %9.1f%s\n", size, parity, us, them, them / us, limit,
	       them / us < limit ? "  below" : "");
	return them / us < limit;
}

int main(int argc, char **argv)
{
	if (argc != 4 || atoi(argv[1]) < 1 || atoi(argv[1]) > ROUNDS)
		return printf("usage: append ROUNDS APPENDS 0|1\n"), 2;
	int below = 0;
	for (int i = 0; i < LINES * LENGTH; i++)
		lines[i / LENGTH][i % LENGTH] = (uint8_t)(i % LENGTH == LENGTH - 1 ? '\n' : 32 + (i * 7919 + i / 97) % 95);
	printf("%8s %8s %12s %12s %9s %9s\n", "zone", "parity", "library ns", "Linux ns", "ratio", "at least");
	for (uint32_t parity = 0; parity <= 32; parity += 16)
		for (uint32_t size = 4096; size <= 65536; size *= 16)
			below |= compare(size, parity, atoi(argv[1]), atol(argv[2]) / (parity == 0 ? 1 : 20));
	return below && atoi(argv[3]);
}
