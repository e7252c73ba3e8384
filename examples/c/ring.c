/*
 * The log of a process in a mapped file: its last lines are there after any end of the process, also after SIGKILL.
 *
 *     cc -Wall -Wextra -Werror ring.c -loopsbox -o ring
 *     echo "the pump started" | ./ring pump.bin append
 *     ./ring pump.bin log
 *     oopsbox pump.bin list mem_size=65536 record_size=0 console_size=65536 ftrace_size=0 pmsg_size=0 ecc=1
 */
#define _POSIX_C_SOURCE 200809L
#include <fcntl.h>
#include <oopsbox.h>
#include <stdio.h>
#include <string.h>
#include <sys/mman.h>
#include <sys/stat.h>
#include <unistd.h>

/* One console zone, with 16 bytes of parity for each 128 bytes of the log. */
static const struct oopsbox_params params = OOPSBOX_PARAMS(65536, 0, 65536, 0, 0, 16);

struct ring {
	struct oopsbox_zone_place place;
	struct oopsbox_row table[OOPSBOX_TABLE];
	uint8_t *zone;
};

/* Makes these stores in the zone, in order. A word is one store of four bytes; all else is stored byte by byte. */
static void make(struct ring *ring, const struct oopsbox_stores *stores, const uint8_t *payload)
{
	for (const struct oopsbox_store *s = stores->stores; s < stores->stores + stores->count; s++) {
		volatile uint8_t *to = ring->zone + s->place;
		const uint8_t *from = s->what == OOPSBOX_PAYLOAD ? payload + s->from : s->bytes;
		if (s->what == OOPSBOX_WORD)
			*(volatile uint32_t *)to = s->word;
		else
			for (uint32_t i = 0; i < s->len; i++)
				to[i] = from[i];
	}
}

static uint32_t ring_append(struct ring *ring, const uint8_t *bytes, size_t length)
{
	struct oopsbox_flight flight;
	struct oopsbox_stores stores;
	uint32_t status = oopsbox_append(&ring->place, ring->zone, ring->place.size, bytes, length, &flight, &stores);
	while (status == OOPSBOX_DONE) {
		make(ring, &stores, bytes);
		if (stores.is_last)
			break;
		status = oopsbox_flight_next(&flight, ring->zone, ring->place.size, NULL, 0, bytes, length, ring->table,
					     OOPSBOX_TABLE, UINT32_MAX, &stores);
	}
	return status;
}

/* The log's bytes from `from` on, as many as there are and fit. */
static size_t ring_log(const struct ring *ring, uint64_t from, uint8_t *log, size_t length)
{
	uint64_t got = 0;
	oopsbox_zone_log(&ring->place, ring->zone, ring->place.size, ring->table, OOPSBOX_TABLE, from, log, length, &got);
	return (size_t)got;
}

/*
 * A boot of the zone: it corrects damage, and erases what is no log. Linux also erases a console that is one, after it
 * has shown it. It keeps an ftrace ring, and so this program boots its console as one.
 */
static uint32_t ring_boot(struct ring *ring)
{
	struct oopsbox_zone_place place = ring->place;
	struct oopsbox_boot boot;
	struct oopsbox_stores stores;
	uint32_t status;
	place.kind = OOPSBOX_FTRACE;
	status = oopsbox_boot_begin(&place, ring->zone, place.size, &boot);
	for (stores.is_last = 0; status == OOPSBOX_DONE && !stores.is_last;) {
		status = oopsbox_boot_next(&boot, ring->zone, place.size, &stores);
		if (status == OOPSBOX_DONE)
			make(ring, &stores, NULL);
	}
	return status;
}

/*
 * Makes a shorter file as long as the region; a longer one is not this program's. All of it is allocated now: once the
 * disk is full, a store into a hole would end the process (SIGBUS).
 */
static int fits(int file, off_t length)
{
	struct stat found;
	return fstat(file, &found) == 0 && found.st_size <= length && posix_fallocate(file, 0, length) == 0;
}

/* Opens the file's zone, or makes the file. What was logged before stays. */
static int ring_open(struct ring *ring, const char *path)
{
	struct oopsbox_layout_answer answer;
	void *region = MAP_FAILED;
	int file = open(path, O_RDWR | O_CREAT, 0666);
	if (oopsbox_zone_at(&params, OOPSBOX_CONSOLE, 0, &ring->place, &answer) != OOPSBOX_DONE
	    || oopsbox_table(ring->place.parity, ring->table, OOPSBOX_TABLE) != OOPSBOX_DONE)
		return -1;
	if (file >= 0 && fits(file, answer.mem))
		region = mmap(NULL, answer.mem, PROT_READ | PROT_WRITE, MAP_SHARED, file, 0);
	if (file >= 0)
		close(file);
	if (region == MAP_FAILED)
		return -1;
	ring->zone = (uint8_t *)region + ring->place.at;
	return ring_boot(ring) == OOPSBOX_DONE ? 0 : -1;
}

int main(int argc, char **argv)
{
	static struct ring ring;
	static uint8_t bytes[4096];
	int appends = argc == 3 && strcmp(argv[2], "append") == 0;
	if (!appends && (argc != 3 || strcmp(argv[2], "log") != 0))
		return printf("usage: ring FILE append|log\n"), 2;
	if (ring_open(&ring, argv[1]) != 0)
		return printf("ring: %s cannot be opened\n", argv[1]), 1;
	if (appends) {
		while (fgets((char *)bytes, sizeof(bytes), stdin) != NULL)
			if (ring_append(&ring, bytes, strlen((char *)bytes)) != OOPSBOX_DONE)
				return printf("ring: refused\n"), 1;
		return 0;
	}
	for (uint64_t from = 0;;) {
		size_t got = ring_log(&ring, from, bytes, sizeof(bytes));
		if (got == 0)
			return 0;
		fwrite(bytes, 1, got, stdout);
		from += got;
	}
}
