/*
 * What the library's last four calls and the programs want of an allocator. The toolchain has these three functions for
 * x86-64 alone (liblibc_c.a); here they are over malloc, realloc and free, for any processor with pointers of 64 bits.
 */
#include <stdint.h>
#include <stdlib.h>

struct answer {
	uint64_t is_there;
	void *room;
};

static char nothing;

static struct answer answer(void *room)
{
	struct answer made = {room != NULL, room != NULL ? room : &nothing};
	return made;
}

struct answer rattle_alloc(size_t size, size_t align)
{
	return answer(malloc(size != 0 ? size : align));
}

struct answer rattle_realloc(void *room, size_t old, size_t size, size_t align)
{
	(void)old;
	return answer(realloc(room, size != 0 ? size : align));
}

void rattle_dealloc(void *room)
{
	free(room);
}
