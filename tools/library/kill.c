/*
 * A writer is killed at a random moment, again and again, and what it left is read. tools/kill-test builds and explains
 * this.   Usage: kill PROGRAM KILLS PART FOLDER, with PART one of ours, linux-writes and linux-reads
 */
#define _GNU_SOURCE
#include "store.h"
#include <fcntl.h>
#include <signal.h>
#include <stdarg.h>
#include <stdio.h>
#include <stdlib.h>
#include <string.h>
#include <sys/mman.h>
#include <sys/wait.h>
#include <time.h>
#include <unistd.h>
#ifdef WITH_PEER
#include "peer.h"
#endif

enum { ZONES = 2, MOST = 32768, BLOCKS = 256, LONGEST = 17000 };
enum part { OURS, LINUX_WRITES, LINUX_READS };
enum writer { AS_TOLD, WRONG_ORDER, NO_PARITY, EARLY };

struct shape {
	uint32_t mem, console, pmsg, ecc_console, ecc_pmsg, block;
};

/* Of ten kills the shapes get 4, 1 and 5. */
static const struct shape shapes[][3] = {
	{{8192, 4096, 4096, 16, 0, 128}, {32768, 16384, 16384, 32, 0, 128}, {2048, 1024, 1024, 16, 0, 32}},
	{{8192, 4096, 4096, 0, 0, 128}, {32768, 16384, 16384, 32, 32, 128}, {8192, 4096, 4096, 16, 16, 128}}};
static const unsigned long tenths[3] = {4, 5, 10};

/* What the writer acknowledges, in memory that is shared and no part of the region. */
struct page {
	volatile uint64_t begun[ZONES], done[ZONES];
	volatile uint32_t ready;
};

/*
 * A zone, and what its data and words must be after all lines that were applied. A block is stale if a line was cut in
 * it: its parity is still that of its settled data.
 */
struct model {
	struct zone zone;
	uint32_t start, size;
	uint64_t applied;
	uint8_t data[MOST], settled[MOST], stale[BLOCKS];
};

/* The bytes of a line that a zone keeps, and the ring's places that they go to. */
struct run {
	const uint8_t *bytes;
	uint32_t len;
	uint8_t touches[BLOCKS];
};

struct reading {
	struct oopsbox_zone_answer answer;
	uint8_t log[MOST];
};

static struct {
	unsigned long lines, cuts, old, half, new, flips, by_program, by_linux;
} counts;

static struct model models[ZONES];
static struct run runs[ZONES];
static struct reading readings[ZONES], flipped[ZONES];
static uint8_t lines[ZONES][LONGEST], copy[MOST];
static uint8_t *region;
static struct page *page;
static const struct shape *shape;
static const char *program, *folder;
static char words[256];
static enum part part;
static enum writer writer;
static unsigned long killed;
static const int kinds[ZONES] = {OOPSBOX_CONSOLE, OOPSBOX_PMSG};
static const char *const names[ZONES] = {"console-ramoops-0", "pmsg-ramoops-0"};

static void fails(const char *format, ...)
{
	va_list arguments;
	FILE *file = fopen("/tmp/kill-test-failed.bin", "wb");
	printf("kill %lu, %s: ", killed, words);
	va_start(arguments, format);
	vprintf(format, arguments);
	va_end(arguments);
	printf("\n");
	if (file != NULL) {
		fwrite(region, 1, shape->mem, file);
		fclose(file);
		printf("the region is in /tmp/kill-test-failed.bin\n");
	}
	exit(1);
}

/* Line n of a zone, numbered; most are short, some span blocks, a few are longer than the zone. */
static uint32_t line_of(unsigned z, uint64_t n, uint32_t cap, uint8_t *line)
{
	uint32_t mixed = (uint32_t)((n * 2 + z) * 2654435761u) >> 8;
	uint32_t length = n % 101 == 50 ? cap + mixed % 300 : n % 16 == 5 ? 200 + mixed % 600 : 14 + mixed % 130;
	int front = sprintf((char *)line, "%u %08llu ", z, (unsigned long long)n);
	for (uint32_t i = (uint32_t)front; i < length - 1; i++)
		line[i] = (uint8_t)('a' + (mixed = mixed * 1664525 + 1013904223) % 26);
	line[length - 1] = '\n';
	return length;
}

static void run_of(unsigned z, uint64_t n, struct run *run)
{
	const struct model *m = &models[z];
	uint32_t cap = m->zone.place.cap, length = line_of(z, n, cap, lines[z]);
	run->len = length < cap ? length : cap;
	run->bytes = lines[z] + (length - run->len);
	memset(run->touches, 0, sizeof(run->touches));
	for (uint32_t i = 0; i < run->len; i++)
		run->touches[(m->start + i) % cap / m->zone.place.block] = 1;
}

static uint32_t size_after(const struct model *m, const struct run *run)
{
	uint32_t cap = m->zone.place.cap;
	return m->size + run->len < cap ? m->size + run->len : cap;
}

/* The parity of a block is that of its data now. */
static void settle(struct model *m, uint32_t b)
{
	uint32_t at = b * m->zone.place.block, cap = m->zone.place.cap;
	uint32_t left = at < cap ? cap - at : 0;
	memcpy(m->settled + at, m->data + at, left < m->zone.place.block ? left : m->zone.place.block);
	m->stale[b] = 0;
}

static void apply(struct model *m, const struct run *run)
{
	uint32_t cap = m->zone.place.cap;
	for (uint32_t i = 0; i < run->len; i++)
		m->data[(m->start + i) % cap] = run->bytes[i];
	for (uint32_t b = 0; b < m->zone.place.blocks; b++)
		if (run->touches[b])
			settle(m, b);
	m->size = size_after(m, run);
	m->start = (m->start + run->len) % cap;
	m->applied++;
}

/* ---- the writer ---- */

/* After a word. In one kill of three it is long, so that the ring is often not full yet, and the next word not there. */
static void rest(void)
{
	int rounds = killed % 3 == 0 ? 40000 : 60;
	for (volatile int i = 0; i < rounds; i++)
		;
}

static void write_line(struct zone *zone, const uint8_t *line, uint32_t length)
{
	struct oopsbox_flight flight;
	struct oopsbox_stores stores;
	struct oopsbox_store held;
	uint32_t header = zone->place.size - zone->place.parity;
	int holds = 0;
	stores.is_last = 0;
	if (oopsbox_append_begin(&zone->place, zone->bytes, zone->place.size, line, length, &flight) != OOPSBOX_DONE)
		_exit(3);
	while (!stores.is_last) {
		if (next_stores(zone, &flight, NULL, 0, line, length, UINT32_MAX, &stores) != OOPSBOX_DONE)
			_exit(4);
		for (uint32_t i = 0; i < stores.count; i++) {
			const struct oopsbox_store *store = &stores.stores[i];
			if (writer == NO_PARITY && store->what == OOPSBOX_BYTES && store->place < header)
				continue;
			if (writer == WRONG_ORDER && store->what == OOPSBOX_WORD && store->place == 8) {
				held = *store;
				holds = 1;
				continue;
			}
			make_store(zone, store, NULL, line);
			if (store->what == OOPSBOX_WORD)
				rest();
			if (holds)
				make_store(zone, &held, NULL, line);
			holds = 0;
		}
	}
}

/* Writes lines into both zones until it is killed. Each line is acknowledged after its last store. */
static void write_lines(void)
{
	static uint8_t line[LONGEST];
	page->ready = 1;
	for (;;) {
		unsigned z = below(ZONES);
		struct zone *zone = &models[z].zone;
		uint64_t n = page->begun[z] + 1;
		uint32_t length = line_of(z, n, zone->place.cap, line);
		page->begun[z] = n;
		if (writer == EARLY)
			page->done[z] = n;
#ifdef WITH_PEER
		if (part == LINUX_WRITES)
			peer_append(kinds[z], line, length);
		else
#endif
			write_line(zone, line, length);
		page->done[z] = n;
	}
}

static void kill_a_writer(void)
{
	struct timespec moment = {0, (long)below(killed % 8 == 0 ? 4000000 : 400000)};
	int status;
	page->ready = 0;
	pid_t child = fork();
	if (child == 0)
		write_lines();
	while (!page->ready && waitpid(child, &status, WNOHANG) == 0)
		;
	nanosleep(&moment, NULL);
	kill(child, SIGKILL);
	waitpid(child, &status, 0);
	if (!WIFSIGNALED(status) || WTERMSIG(status) != SIGKILL)
		fails("the writer ended by itself, with %d", status);
}

/* ---- the reader ---- */

static void read_zone(const struct model *m, const uint8_t *bytes, struct reading *reading)
{
	const struct zone *z = &m->zone;
	uint64_t from = 0, got = 1;
	if (oopsbox_zone_read(&z->place, bytes, z->place.size, z->table, z->rows, &reading->answer) != OOPSBOX_DONE)
		fails("the reader refuses the zone");
	while (got != 0) {
		uint32_t most = 1 + below(z->place.cap);
		if (oopsbox_zone_log(&z->place, bytes, z->place.size, z->table, z->rows, from, reading->log + from, most, &got)
		    != OOPSBOX_DONE)
			fails("the reader refuses the log");
		from += got;
	}
	if (from != reading->answer.log)
		fails("the log has %lu bytes, not %lu", (unsigned long)from, (unsigned long)reading->answer.log);
}

/* The header's words are those before the line in flight, with its size alone, or those after it. */
static unsigned long *check_words(unsigned z, int flies, const struct oopsbox_zone_answer *a)
{
	const struct model *m = &models[z];
	uint32_t cap = m->zone.place.cap, size = size_after(m, &runs[z]);
	if (a->sig == m->zone.place.sig && a->start == m->start && a->size == m->size)
		return &counts.old;
	if (flies && a->sig == m->zone.place.sig && a->start == m->start && a->size == size)
		return &counts.half;
	if (!flies || a->sig != m->zone.place.sig || a->start != (m->start + runs[z].len) % cap || a->size != size)
		fails("zone %u has start %u size %u, not %u %u", z, a->start, a->size, m->start, m->size);
	return &counts.new;
}

/*
 * Each byte of the log is the model's; at the places of the line in flight it may be the line's. A stale block can come
 * within half the parity of its settled data again, by the line in flight or by damage. Then it reads so.
 */
static void check_bytes(unsigned z, int flies, const struct reading *reading)
{
	const struct model *m = &models[z];
	const struct run *run = &runs[z];
	uint32_t cap = m->zone.place.cap;
	uint32_t log = reading->answer.size == 0 && reading->answer.start == 0 ? 0 : reading->answer.size;
	if (reading->answer.log != log)
		fails("zone %u: a log of %lu bytes with size %u", z, (unsigned long)reading->answer.log, reading->answer.size);
	for (uint32_t i = 0; i < log; i++) {
		uint32_t place = reading->answer.start + i;
		place -= place >= log ? log : 0;
		uint32_t in_run = (place + cap - m->start) % cap;
		if (reading->log[i] == m->data[place] || (flies && in_run < run->len && reading->log[i] == run->bytes[in_run]))
			continue;
		if (m->stale[place / m->zone.place.block] && reading->log[i] == m->settled[place])
			continue;
		fails("zone %u: byte %u of the log is %02x, not %02x", z, i, reading->log[i], m->data[place]);
	}
}

/* Parts that the line in flight did not touch have nothing to correct. */
static void check_counts(unsigned z, int flies, const struct oopsbox_zone_answer *a)
{
	const struct model *m = &models[z];
	uint32_t most = 0;
	for (uint32_t b = 0; b < m->zone.place.blocks; b++)
		most += m->stale[b] || (flies && runs[z].touches[b]);
	if (a->bad > most + (uint32_t)flies)
		fails("zone %u: %u parts cannot be corrected", z, a->bad);
	if (most == 0 && !flies && a->corrected > m->zone.place.parity / 2)
		fails("zone %u: %u corrected bytes", z, a->corrected);
}

static unsigned long *check_zone(unsigned z, int flies, const uint8_t *bytes, struct reading *reading)
{
	unsigned long *words_read;
	read_zone(&models[z], bytes, reading);
	words_read = check_words(z, flies, &reading->answer);
	check_bytes(z, flies, reading);
	return words_read;
}

/* ---- damage ---- */

static uint32_t part_of(const struct model *m, uint32_t b, uint32_t *at, uint32_t *parity_at)
{
	const struct oopsbox_zone_place *p = &m->zone.place;
	uint32_t left = b < p->blocks && b * p->block < p->cap ? p->cap - b * p->block : 0;
	*at = b == p->blocks ? 0 : 12 + b * p->block;
	*parity_at = 12 + p->cap + b * p->parity;
	return b == p->blocks ? 12 : left < p->block ? left : p->block;
}

static void flip_part(const struct model *m, uint8_t *bytes, uint32_t b, uint32_t most)
{
	uint32_t at, parity_at, len = part_of(m, b, &at, &parity_at), r = m->zone.place.parity;
	uint8_t is_flipped[256] = {0};
	for (uint32_t flips = below(most + 1); flips > 0 && len > 0;) {
		uint32_t k = below(len + r);
		if (is_flipped[k])
			continue;
		is_flipped[k] = 1;
		bytes[k < len ? at + k : parity_at + k - len] ^= (uint8_t)(1 + below(255));
		counts.flips++;
		flips--;
	}
}

/* How many bytes of a header and its parity differ from those of these words. */
static uint32_t header_distance(const struct model *m, const uint8_t *bytes, uint32_t start, uint32_t size)
{
	uint32_t numbers[3] = {m->zone.place.sig, start, size}, at, parity_at, distance = 0;
	uint8_t header[12], parity[128];
	part_of(m, m->zone.place.blocks, &at, &parity_at);
	for (uint32_t i = 0; i < 12; i++)
		header[i] = (uint8_t)(numbers[i / 4] >> 8 * (i % 4));
	oopsbox_rs_encode(header, 12, parity, m->zone.place.parity);
	for (uint32_t i = 0; i < 12; i++)
		distance += header[i] != bytes[i];
	for (uint32_t i = 0; i < m->zone.place.parity; i++)
		distance += parity[i] != bytes[parity_at + i];
	return distance;
}

/* How many more bytes of the header can be wrong before it may read as something else. */
static uint32_t header_room(unsigned z, int flies, const uint8_t *bytes)
{
	const struct model *m = &models[z];
	uint32_t half = m->zone.place.parity / 2, near = header_distance(m, bytes, m->start, m->size);
	if (flies) {
		uint32_t start = (m->start + runs[z].len) % m->zone.place.cap;
		uint32_t other = header_distance(m, bytes, start, size_after(m, &runs[z]));
		near = other < near ? other : near;
	}
	return near <= half ? half - near : 0;
}

/* At most half the parity of each part that the line in flight did not touch, and of the header what is left of it. */
static void flip_zone(unsigned z, int flies, uint8_t *bytes)
{
	const struct model *m = &models[z];
	uint32_t half = m->zone.place.parity / 2;
	if (half == 0)
		return;
	for (uint32_t b = 0; b < m->zone.place.blocks; b++)
		if (!m->stale[b] && !(flies && runs[z].touches[b]))
			flip_part(m, bytes, b, half);
	flip_part(m, bytes, m->zone.place.blocks, header_room(z, flies, bytes));
}

static void check_flipped(unsigned z, int flies, uint8_t *bytes)
{
	flip_zone(z, flies, bytes);
	check_zone(z, flies, bytes, &flipped[z]);
	const struct oopsbox_zone_answer *a = &readings[z].answer, *b = &flipped[z].answer;
	if (a->start != b->start || a->size != b->size || a->bad != b->bad)
		fails("zone %u: damage makes start %u size %u bad %u of %u %u %u", z, b->start, b->size, b->bad, a->start,
		      a->size, a->bad);
	if (memcmp(readings[z].log, flipped[z].log, a->log) != 0)
		fails("zone %u: damage changes the log", z);
}

/* ---- other readers ---- */

static size_t output_of(const char *command, uint8_t *text, size_t room)
{
	FILE *pipe = popen(command, "r");
	size_t got = fread(text, 1, room, pipe);
	if (pclose(pipe) != 0)
		fails("%s", command);
	return got;
}

/* The built program lists and extracts from a copy what the library reads. */
static void check_program(const struct reading *read)
{
	static uint8_t text[2 * MOST];
	char command[1024], path[512], list[4096];
	snprintf(path, sizeof(path), "%s/copy", folder);
	FILE *file = fopen(path, "wb");
	if (file == NULL || fwrite(copy, 1, shape->mem, file) != shape->mem || fclose(file) != 0)
		fails("%s cannot be written", path);
	snprintf(command, sizeof(command), "'%s' '%s' list %s", program, path, words);
	list[output_of(command, (uint8_t *)list, sizeof(list) - 1)] = 0;
	for (unsigned z = 0; z < ZONES; z++) {
		size_t log = read[z].answer.log, got;
		if ((strstr(list, names[z]) != NULL) != (log > 0))
			fails("the program lists %s", list);
		if (log == 0)
			continue;
		snprintf(command, sizeof(command), "'%s' '%s' extract %s %s", program, path, names[z], words);
		got = output_of(command, text, sizeof(text));
		if (got < log || memcmp(text, read[z].log, log) != 0)
			fails("the program extracts another %s", names[z]);
		if (models[z].zone.place.parity == 0 ? got != log : memcmp(text + log, "\nECC: ", 6) != 0)
			fails("the program extracts %zu bytes of %s, not %zu", got, names[z], log);
	}
	counts.by_program++;
}

#ifdef WITH_PEER
/*
 * Linux's boot of these bytes has the same log, outside the blocks that are torn: there its decoder may accept words
 * that are further from a codeword. A header that is as far is not compared.
 */
static void check_linux(uint8_t *bytes, const int *flies)
{
	int can_differ[ZONES] = {0};
	for (unsigned z = 0; z < ZONES; z++) {
		const struct model *m = &models[z];
		can_differ[z] = m->zone.place.parity > 0 && readings[z].answer.bad > 0
			&& header_distance(m, bytes + m->zone.place.at, m->start, m->size) > m->zone.place.parity / 2;
	}
	if (peer_boot(bytes, shape->mem, shape->console, shape->pmsg, (int)shape->ecc_console) != 0)
		fails("Linux refuses the layout");
	for (unsigned z = 0; z < ZONES; z++) {
		const struct model *m = &models[z];
		const struct oopsbox_zone_answer *a = &readings[z].answer;
		const uint8_t *log;
		size_t length = peer_old(kinds[z], &log);
		if (can_differ[z])
			continue;
		if (length != a->log)
			fails("Linux reads %zu bytes of zone %u, not %lu", length, z, (unsigned long)a->log);
		for (uint32_t i = 0; i < length; i++) {
			uint32_t place = (a->start + i) % a->size, b = place / m->zone.place.block;
			if (log[i] != readings[z].log[i] && !m->stale[b] && !(flies[z] && runs[z].touches[b]))
				fails("Linux reads another byte %u of zone %u", i, z);
		}
		counts.by_linux++;
	}
}
#endif

/* ---- one kill after another ---- */

static void check_all(const int *flies)
{
	memcpy(copy, region, shape->mem);
	for (unsigned z = 0; z < ZONES; z++) {
		*check_zone(z, flies[z], copy + models[z].zone.place.at, &readings[z]) += (unsigned)flies[z];
		check_counts(z, flies[z], &readings[z].answer);
	}
	if (killed % 40 == 0)
		check_program(readings);
#ifdef WITH_PEER
	if (part != OURS) {
		check_linux(copy, flies);
		peer_end();
		memcpy(copy, region, shape->mem);
	}
#endif
	for (unsigned z = 0; z < ZONES; z++)
		check_flipped(z, flies[z], copy + models[z].zone.place.at);
	if (killed % 40 == 20)
		check_program(flipped);
}

/* The zone after its boot, which the next writer finds. */
static void take_over(unsigned z, int flies)
{
	struct model *m = &models[z];
	static struct reading now;
	read_zone(m, m->zone.bytes, &now);
	if (now.answer.log != 0
	    && (now.answer.log != readings[z].answer.log || memcmp(now.log, readings[z].log, now.answer.log) != 0))
		fails("zone %u: a boot changes the log", z);
	for (uint32_t b = 0; flies && b < m->zone.place.blocks; b++)
		m->stale[b] |= runs[z].touches[b];
	memcpy(m->data, m->zone.bytes + 12, m->zone.place.cap);
	for (uint32_t b = 0; b < m->zone.place.blocks; b++)
		if (!m->stale[b])
			settle(m, b);
	m->start = now.answer.start;
	m->size = now.answer.size;
	m->applied = page->done[z] = page->begun[z];
}

static void boot_all(const int *flies)
{
	/* a console is erased, and an ftrace ring that is whole is kept: the writer goes on after it */
	int keeps = below(2) == 0;
	for (unsigned z = 0; z < ZONES && part != LINUX_WRITES; z++)
		if (boot_as(&models[z].zone, keeps ? OOPSBOX_FTRACE : models[z].zone.place.kind) != OOPSBOX_DONE)
			fails("a boot is refused");
#ifdef WITH_PEER
	if (part == LINUX_WRITES
	    && peer_boot(region, shape->mem, shape->console, shape->pmsg, (int)shape->ecc_console) != 0)
		fails("Linux refuses the layout");
#endif
	for (unsigned z = 0; z < ZONES; z++)
		take_over(z, flies[z]);
}

static void one_kill(void)
{
	int flies[ZONES];
	kill_a_writer();
#ifdef WITH_PEER
	if (part == LINUX_WRITES)
		peer_end();
#endif
	for (unsigned z = 0; z < ZONES; z++) {
		uint64_t done = page->done[z];
		counts.lines += done - models[z].applied;
		while (models[z].applied < done) {
			run_of(z, models[z].applied + 1, &runs[z]);
			apply(&models[z], &runs[z]);
		}
		flies[z] = page->begun[z] > done;
		run_of(z, done + 1, &runs[z]);
		counts.cuts += (unsigned)flies[z];
	}
	check_all(flies);
	boot_all(flies);
}

static void begin(const struct shape *of)
{
	struct oopsbox_params params = {of->mem, 0, of->console, 0, of->pmsg, of->ecc_console, 1, of->block, 0,
					of->ecc_console, 0, of->ecc_pmsg, 0, 0, 0};
	static const int none[ZONES];
	shape = of;
	snprintf(words, sizeof(words), "mem_size=%u record_size=0 console_size=%u ftrace_size=0 pmsg_size=%u ecc=%u "
		 "ecc_pmsg=%u block_size=%u", of->mem, of->console, of->pmsg, of->ecc_console, of->ecc_pmsg, of->block);
	memset(region, 0, MOST);
	memset(models, 0, sizeof(models));
	memset(page, 0, sizeof(*page));
	memset(readings, 0, sizeof(readings));
	for (unsigned z = 0; z < ZONES; z++)
		if (find_zone(&models[z].zone, &params, (uint32_t)kinds[z], 0, region) != OOPSBOX_DONE)
			fails("no zone");
	boot_all(none);
}

static void *shared(const char *name, size_t size)
{
	char path[512];
	snprintf(path, sizeof(path), "%s/%s", folder, name);
	int file = open(path, O_RDWR | O_CREAT, 0600);
	if (file < 0 || ftruncate(file, (off_t)size) != 0)
		exit(2);
	return mmap(NULL, size, PROT_READ | PROT_WRITE, MAP_SHARED, file, 0);
}

int main(int argc, char **argv)
{
	const char *how = getenv("KILL_TEST_WRITER");
	if (argc != 5)
		return printf("usage: kill PROGRAM KILLS ours|linux-writes|linux-reads FOLDER\n"), 2;
	program = argv[1];
	folder = argv[4];
	part = strcmp(argv[3], "ours") == 0 ? OURS : strcmp(argv[3], "linux-writes") == 0 ? LINUX_WRITES : LINUX_READS;
	if (how != NULL)
		writer = strcmp(how, "order") == 0 ? WRONG_ORDER : strcmp(how, "parity") == 0 ? NO_PARITY : EARLY;
	region = shared("region", MOST);
	page = shared("page", sizeof(*page));
	if (region == MAP_FAILED || page == MAP_FAILED)
		return 2;
	unsigned long kills = strtoul(argv[2], NULL, 10);
	for (unsigned s = 0; s < 3; s++) {
		begin(&shapes[part != OURS][s]);
		for (unsigned long last = kills * tenths[s] / 10; killed < last; killed++)
			one_kill();
#ifdef WITH_PEER
		if (part == LINUX_WRITES)
			peer_end();
#endif
	}
	printf("%-12s %lu kills, %lu lines acknowledged, %lu lines cut (words before %lu, size alone %lu, after %lu), "
	       "%lu bytes flipped, %lu readings by the program", argv[3], killed, counts.lines, counts.cuts, counts.old,
	       counts.half, counts.new, counts.flips, counts.by_program);
	printf(part == OURS ? "\n" : ", %lu by Linux\n", counts.by_linux);
	return 0;
}
