/*
 * Random blocks with at most half as many wrong bytes as parity, through this library and through Debian's libfec: both
 * give the same parity, data, count and places. Run it as: blocks COUNT
 */
#include <fec.h>
#include <oopsbox.h>
#include <stdio.h>
#include <stdlib.h>
#include <string.h>

static uint64_t state = 88172645463325252u;

static unsigned below(unsigned bound)
{
	state ^= state << 13;
	state ^= state >> 7;
	state ^= state << 17;
	return (unsigned)((state >> 32) % bound);
}

static int one_block(void)
{
	unsigned r = 1 + below(127), length = 1 + below(255 - r), wrong = below(r / 2 + 1);
	uint8_t word[255], theirs[255], places[64], is_wrong[255] = {0};
	uint32_t corrected = 99;
	void *coder = init_rs_char(8, 0x11d, 0, 1, (int)r, (int)(255 - r - length));
	for (unsigned i = 0; i < length; i++)
		word[i] = (uint8_t)below(256);
	memcpy(theirs, word, length);
	encode_rs_char(coder, theirs, theirs + length);
	if (oopsbox_rs_encode(word, length, word + length, r) != OOPSBOX_DONE || memcmp(word, theirs, length + r) != 0)
		return 1;
	uint8_t sent[255];
	memcpy(sent, word, length + r);
	for (unsigned i = 0; i < wrong;) {
		unsigned place = below(length + r);
		if (is_wrong[place])
			continue;
		is_wrong[place] = 1;
		word[place] ^= (uint8_t)(1 + below(255));
		i++;
	}
	memcpy(theirs, word, length + r);
	int count = decode_rs_char(coder, theirs, NULL, 0);
	free_rs_char(coder);
	if (oopsbox_rs_decode(word, length, word + length, r, places, sizeof(places), &corrected) != OOPSBOX_DONE)
		return 2;
	if (corrected != wrong || count != (int)wrong)
		return 3;
	if (memcmp(word, sent, length) != 0 || memcmp(theirs, sent, length) != 0)
		return 4;
	for (unsigned i = 0, place = 0; i < corrected; i++, place++) {
		while (place < length + r && !is_wrong[place])
			place++;
		if (places[i] != place)
			return 5;
	}
	return 0;
}

int main(int argc, char **argv)
{
	long count = argc > 1 ? atol(argv[1]) : 100000;
	for (long i = 0; i < count; i++) {
		int fault = one_block();
		if (fault != 0)
			return printf("block %ld differs (%d)\n", i, fault), 1;
	}
	printf("%ld blocks as libfec\n", count);
	return 0;
}
