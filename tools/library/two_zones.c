/*
 * Two threads write two zones of one region at once, each its own, and a third reads a zone that neither writes. The
 * region in the end is the one that a single thread makes.   Usage: two_zones [LINES]
 */
#include "store.h"
#include <pthread.h>
#include <stdio.h>
#include <stdlib.h>
#include <string.h>

enum { MEM = 32768, TASKS = 3 };

static const struct oopsbox_params params = {.mem = MEM, .dump = 8192, .console = 8192, .pmsg = 8192, .ecc = 16,
	.cpus = 1, .block = 128, .ecc_dump = 8, .ecc_console = 16, .ecc_pmsg = 0};
static uint8_t regions[2][MEM] __attribute__((aligned(64)));
static long line_count = 2000;

struct task {
	uint32_t kind;
	uint8_t *region;
	int failed;
};

static int write_lines(struct zone *zone, uint32_t kind)
{
	char line[64];
	for (long i = 0; i < line_count; i++) {
		int length = snprintf(line, sizeof(line), "line %ld of the zone %u\n", i, (unsigned)kind);
		if (append(zone, (const uint8_t *)line, (size_t)length) != OOPSBOX_DONE)
			return 1;
	}
	return 0;
}

static int write_dump(struct zone *zone)
{
	static const char line[] = "====5.000006-D\n";
	struct oopsbox_flight flight;
	struct oopsbox_stores stores = {0};
	const uint8_t *head = (const uint8_t *)line;
	int failed = oopsbox_dump_begin(&zone->place, zone->bytes, zone->place.size, head, 15, head, 15, &flight) != 0;
	while (!failed && !stores.is_last) {
		failed = next_stores(zone, &flight, head, 15, head, 15, 7, &stores) != OOPSBOX_DONE;
		make_stores(zone, &stores, head, head);
	}
	return failed;
}

static int read_dump(const struct zone *zone)
{
	uint8_t log[64];
	struct oopsbox_zone_answer answer;
	uint64_t got;
	for (long i = 0; i < line_count; i++)
		if (oopsbox_zone_read(&zone->place, zone->bytes, zone->place.size, zone->table, zone->rows, &answer) != 0
		    || oopsbox_zone_log(&zone->place, zone->bytes, zone->place.size, NULL, 0, 0, log, 64, &got) != 0
		    || answer.state != OOPSBOX_FOUND || got != 30)
			return 1;
	return 0;
}

static void *work(void *argument)
{
	struct task *task = argument;
	struct zone *zone = malloc(sizeof(*zone));
	task->failed = zone == NULL || find_zone(zone, &params, task->kind, 0, task->region) != OOPSBOX_DONE;
	if (!task->failed)
		task->failed = boot_as(zone, task->kind) != OOPSBOX_DONE
			|| (task->kind == OOPSBOX_DUMP ? write_dump(zone) || read_dump(zone) : write_lines(zone, task->kind));
	free(zone);
	return NULL;
}

int main(int argc, char **argv)
{
	static const uint32_t kinds[TASKS] = {OOPSBOX_CONSOLE, OOPSBOX_PMSG, OOPSBOX_DUMP};
	pthread_t threads[TASKS];
	struct task tasks[2][TASKS];
	int failed = 0;
	if (argc > 1)
		line_count = atol(argv[1]);
	for (int i = 0; i < TASKS; i++) {
		tasks[0][i] = (struct task){kinds[i], regions[0], 0};
		tasks[1][i] = (struct task){kinds[i], regions[1], 0};
		work(&tasks[0][i]);
	}
	for (int i = 0; i < TASKS; i++)
		failed |= pthread_create(&threads[i], NULL, work, &tasks[1][i]) != 0;
	for (int i = 0; i < TASKS; i++)
		failed |= pthread_join(threads[i], NULL) != 0 || tasks[0][i].failed || tasks[1][i].failed;
	failed |= memcmp(regions[0], regions[1], MEM) != 0;
	printf(failed ? "two zones: another region\n" : "two threads on two zones, and a reader beside them\n");
	return failed;
}
