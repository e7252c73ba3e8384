/*
 * Prints the report of an image as a line of JSON: of a ramoops region whose layout the words give, or that shows it.
 *
 *     cc -Wall -Wextra -Werror report.c -loopsbox -o report
 *     ./report region.bin "mem_size=65536 ecc=1"
 *     ./report region.bin
 */
#include <oopsbox.h>
#include <stdio.h>
#include <stdlib.h>
#include <string.h>

enum { MOST = 16 << 20 }; /* no image is longer than 16 MiB */

static uint8_t image[MOST];

int main(int argc, char **argv)
{
	FILE *file = argc < 2 ? NULL : fopen(argv[1], "rb");
	if (file == NULL)
		return printf("usage: report REGION [WORDS]\n"), 2;
	size_t size = fread(image, 1, MOST, file);
	fclose(file);
	const char *name = argv[1], *words = argc > 2 ? argv[2] : "";
	struct oopsbox_report_answer answer = {0};
	uint8_t *text = NULL;
	uint32_t status = OOPSBOX_ROOM;
	for (size_t room = 0; status == OOPSBOX_ROOM; room = answer.text) {
		text = realloc(text, room + 1);
		if (text == NULL)
			return 1;
		status = oopsbox_report((const uint8_t *)name, strlen(name), (const uint8_t *)words, strlen(words), NULL, 0,
					image, size, OOPSBOX_JSON, text, room, &answer);
	}
	if (status == OOPSBOX_DONE || status == OOPSBOX_UNLAID) {
		fwrite(text, 1, answer.hint, stderr); /* the lines on a layout that was looked for */
		fwrite(text + answer.hint, 1, answer.text - answer.hint, stdout);
	}
	if (status != OOPSBOX_DONE)
		fprintf(stderr, "status %u, fault %u\n", (unsigned)status, (unsigned)answer.fault);
	free(text);
	return status != OOPSBOX_DONE;
}
