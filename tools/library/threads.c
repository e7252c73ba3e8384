/*
 * Several threads make every call at once, on the same image, words and script and on buffers of their own. Each answer
 * is the one that a single thread got before.   Usage: threads [ROUNDS]
 */
#include <oopsbox.h>
#include <pthread.h>
#include <stdio.h>
#include <stdlib.h>
#include <string.h>

enum { THREADS = 4, MEM = 16384, TEXT = 65536 };

static const char params[] = "mem_size=16384 record_size=4096 console_size=4096 ftrace_size=4096 pmsg_size=4096 ecc=1";
static const char script[] = "boot\nwrite console 616263\nwrite pmsg 646566\n";
static uint8_t image[MEM];
static int rounds = 200;

/* What one thread's calls answered. */
struct answers {
	uint32_t status[6];
	uint8_t parity[32], data[200], places[16], log[4096], after[MEM], text[TEXT];
	uint32_t corrected;
	struct oopsbox_zone_place zones[8];
	struct oopsbox_layout_answer layout;
	struct oopsbox_zone_answer zone;
	struct oopsbox_lengths lengths;
	struct oopsbox_report_answer told;
	uint8_t line[TEXT];
};

static struct answers expected;

static uint32_t run(const char *command, const char *input, uint8_t *on, uint8_t *text, struct oopsbox_lengths *lengths)
{
	char words[256];
	int length = snprintf(words, sizeof(words), "image %s %s", command, params);
	return oopsbox_run((const uint8_t *)words, (size_t)length, (const uint8_t *)input, strlen(input), on, MEM, text,
			   TEXT, lengths);
}

static void make_calls(struct answers *a)
{
	const uint8_t *words = (const uint8_t *)params;
	size_t length = strlen(params);
	memset(a, 0, sizeof(*a));
	memcpy(a->data, image, sizeof(a->data));
	a->status[0] = oopsbox_rs_encode(a->data, sizeof(a->data), a->parity, sizeof(a->parity));
	a->data[3] ^= 0x55;
	a->data[150] ^= 0xff;
	a->status[1] = oopsbox_rs_decode(a->data, sizeof(a->data), a->parity, sizeof(a->parity), a->places,
					 sizeof(a->places), &a->corrected);
	a->status[2] = oopsbox_layout(words, length, a->zones, 8, &a->layout);
	a->status[3] = oopsbox_zone(words, length, 1, image, MEM, a->log, sizeof(a->log), &a->zone);
	memcpy(a->after, image, MEM);
	a->lengths.image = MEM;
	a->status[4] = run("run", script, a->after, a->text, &a->lengths);
	a->status[5] = oopsbox_report(words, length, words, length, NULL, 0, image, MEM, OOPSBOX_JSON, a->line, TEXT, &a->told);
}

static void *work(void *unused)
{
	struct answers *a = malloc(sizeof(*a));
	long wrong = a == NULL;
	(void)unused;
	for (int i = 0; i < rounds && !wrong; i++) {
		make_calls(a);
		wrong = memcmp(a, &expected, sizeof(*a)) != 0;
	}
	free(a);
	return (void *)wrong;
}

int main(int argc, char **argv)
{
	pthread_t threads[THREADS];
	struct oopsbox_lengths lengths = {MEM, 0};
	int failed = 0;
	if (argc > 1)
		rounds = atoi(argv[1]);
	failed |= run("run", script, image, expected.text, &lengths) != OOPSBOX_DONE;
	make_calls(&expected);
	for (int i = 0; i < 6; i++)
		failed |= expected.status[i] != OOPSBOX_DONE;
	failed |= expected.corrected != 2 || expected.zone.log < 3 || expected.layout.zones != 4;
	if (failed)
		printf("threads: a call was not done\n");
	for (int i = 0; i < THREADS; i++)
		failed |= pthread_create(&threads[i], NULL, work, NULL) != 0;
	for (int i = 0; i < THREADS; i++) {
		void *wrong;
		failed |= pthread_join(threads[i], &wrong) != 0 || wrong != NULL;
	}
	printf(failed ? "threads: other answers\n" : "the same answers in each thread\n");
	return failed;
}
