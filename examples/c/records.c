/*
 * Prints the records of a ramoops region: each name, length and time, and then what it holds.
 *
 *     cc -Wall -Wextra -Werror records.c -loopsbox -o records
 *     ./records region.bin mem_size=65536 ecc=1
 */
#include <oopsbox.h>
#include <stdio.h>
#include <stdlib.h>
#include <string.h>

#define MOST (16u << 20) /* no image is longer than 16 MiB */

static uint8_t region[MOST], text[2 * MOST];
static char parameters[4096];
static uint64_t size;

/* Runs a command on the region, and returns its text, which ends with a 0; or says why not, and ends. */
static char *run(const char *command)
{
	struct oopsbox_lengths lengths = {size, 0};
	char words[8192];
	int length = snprintf(words, sizeof(words), "region %s%s", command, parameters);
	uint32_t status = oopsbox_run((const uint8_t *)words, (size_t)length, NULL, 0, region, sizeof(region), text,
				      sizeof(text) - 1, &lengths);
	text[status <= 10 ? lengths.text : 0] = 0;
	if (status != OOPSBOX_DONE) {
		printf("status %u: %s", (unsigned)status, (char *)text);
		exit(1);
	}
	size = lengths.image;
	fwrite(text, 1, lengths.text, stdout);
	return (char *)text;
}

int main(int argc, char **argv)
{
	FILE *file = argc < 2 ? NULL : fopen(argv[1], "rb");
	if (file == NULL)
		return printf("usage: records REGION key=value ..\n"), 2;
	size = fread(region, 1, sizeof(region), file);
	fclose(file);
	for (int i = 2; i < argc && strlen(parameters) + strlen(argv[i]) + 2 < sizeof(parameters); i++)
		strcat(strcat(parameters, " "), argv[i]);
	char *list = strdup(run("list"));
	strtok(list, "\n"); /* "records N" */
	for (char *line = strtok(NULL, "\n"); line != NULL; line = strtok(NULL, "\n")) {
		char command[64];
		snprintf(command, sizeof(command), "extract %.*s", (int)strcspn(line, " "), line);
		run(command);
	}
	free(list);
	return 0;
}
