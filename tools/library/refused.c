/*
 * Each growth of memory of a run refused in turn: malloc or realloc answers NULL once. A vector that finds no room for
 * twice its length then asks for less, so the run can still be done: image and text are then those of the run of which
 * nothing was refused. Else the answer is 1, 6, 7 or OOPSBOX_MEMORY; on 1 the image is untouched, and on OOPSBOX_MEMORY
 * nothing was written. Of a report the answer is OOPSBOX_DONE or OOPSBOX_MEMORY. It is linked with -Wl,--wrap=malloc,--wrap=realloc.
 */
#include <oopsbox.h>
#include <stdio.h>
#include <stdlib.h>
#include <string.h>

enum { MEM = 16384, TEXT = 65536 };

static long left;
static int refused;

void *__real_malloc(size_t size);
void *__real_realloc(void *old, size_t size);

static int refuses(void)
{
	if (left == 0 || --left > 0)
		return 0;
	refused = 1;
	return 1;
}

void *__wrap_malloc(size_t size)
{
	return refuses() ? NULL : __real_malloc(size);
}

void *__wrap_realloc(void *old, size_t size)
{
	return refuses() ? NULL : __real_realloc(old, size);
}

static const char *const commands[] = {"run", "list", "make 7", "blank", "layout"};
static const char params[] = "mem_size=16384 record_size=4096 console_size=4096 ftrace_size=4096 pmsg_size=4096 ecc=1";
static const char script[] = "boot\nwrite console 616263\ndump 7 8 D 646566\n";
static uint8_t image[MEM], text[TEXT], image_done[MEM], text_done[TEXT], nothing[TEXT];
static struct oopsbox_lengths lengths, lengths_done;

static uint32_t run(const char *command, long growth)
{
	char words[256];
	int length = snprintf(words, sizeof(words), "image %s %s", command, params);
	uint32_t status;
	lengths = (struct oopsbox_lengths){MEM, 7};
	memset(image, 0, MEM);
	memset(text, 0, TEXT);
	refused = 0;
	left = growth;
	status = oopsbox_run((const uint8_t *)words, (size_t)length, (const uint8_t *)script, strlen(script), image, MEM, text,
			     TEXT, &lengths);
	left = 0;
	return status;
}

static const struct {
	const char *what, *words;
	uint32_t format;
} reports[] = {{"a text", params, OOPSBOX_TEXT}, {"a line of JSON", params, OOPSBOX_JSON},
	       {"a page", params, OOPSBOX_HTML}, {"a layout", "", OOPSBOX_TEXT}};
static struct oopsbox_report_answer told, told_done;

/* A report of the image that a run left. On OOPSBOX_MEMORY nothing was written. */
static uint32_t report(size_t r, long growth)
{
	uint32_t status;
	memset(text, 0, TEXT);
	memset(&told, 7, sizeof(told));
	refused = 0;
	left = growth;
	status = oopsbox_report((const uint8_t *)"image", 5, (const uint8_t *)reports[r].words, strlen(reports[r].words),
				NULL, 0, image_done, MEM, reports[r].format, text, TEXT, &told);
	left = 0;
	return status;
}

/* Each growth of each report refused in turn; how many of them failed, or -1. */
static long reports_fail(void)
{
	struct oopsbox_report_answer seven;
	long failing = 0;
	memset(&seven, 7, sizeof(seven));
	for (size_t r = 0; r < sizeof(reports) / sizeof(reports[0]); r++) {
		if (report(r, 0) != OOPSBOX_DONE)
			return printf("refused: %s is not done\n", reports[r].what), -1;
		memcpy(text_done, text, TEXT);
		told_done = told;
		for (long growth = 1;; growth++) {
			uint32_t status = report(r, growth);
			if (!refused)
				break;
			failing += status != OOPSBOX_DONE;
			const uint8_t *wanted = status == OOPSBOX_DONE ? text_done : nothing;
			if ((status != OOPSBOX_DONE && status != OOPSBOX_MEMORY) || memcmp(text, wanted, TEXT) != 0
			    || memcmp(&told, status == OOPSBOX_DONE ? &told_done : &seven, sizeof(told)) != 0)
				return printf("refused: growth %ld of %s answers %u\n", growth, reports[r].what, status), -1;
		}
	}
	return failing;
}

static int is_done(void)
{
	return memcmp(image, image_done, MEM) == 0 && memcmp(text, text_done, TEXT) == 0
	       && lengths.image == lengths_done.image && lengths.text == lengths_done.text;
}

static int is_untouched(void)
{
	return memcmp(image, nothing, MEM) == 0 && memcmp(text, nothing, TEXT) == 0 && lengths.image == MEM && lengths.text == 7;
}

static int is_stated(uint32_t status)
{
	if (status == OOPSBOX_DONE)
		return is_done();
	if (status == OOPSBOX_MEMORY)
		return is_untouched();
	return status == 1 ? memcmp(image, nothing, MEM) == 0 : status == 6 || status == 7;
}

int main(void)
{
	size_t runs = 0, failing = 0;
	for (size_t c = 0; c < sizeof(commands) / sizeof(commands[0]); c++) {
		if (run(commands[c], 0) != OOPSBOX_DONE) {
			printf("refused: %s is not done\n", commands[c]);
			return 1;
		}
		memcpy(image_done, image, MEM);
		memcpy(text_done, text, TEXT);
		lengths_done = lengths;
		for (long growth = 1;; growth++) {
			uint32_t status = run(commands[c], growth);
			if (!refused)
				break;
			runs++;
			failing += status != OOPSBOX_DONE;
			if (!is_stated(status)) {
				printf("refused: growth %ld of %s answers %u\n", growth, commands[c], status);
				return 1;
			}
		}
	}
	if (failing < 20) {
		printf("refused: %zu runs failed, so hardly a growth was refused\n", failing);
		return 1;
	}
	printf("%zu runs, each growth refused in turn, %zu of them failed\n", runs, failing);
	memset(image, 0, MEM);
	if (run("run", 0) != OOPSBOX_DONE)
		return 1;
	memcpy(image_done, image, MEM);
	long reported = reports_fail();
	if (reported < 20)
		return printf("refused: %ld reports failed\n", reported), 1;
	printf("reports, each growth refused in turn, %ld of them failed\n", reported);
	return 0;
}
