/*
 * What the programs want of the toolchain's C code beside the allocator, which comes for x86-64 alone: their arguments,
 * the environment and errno. The contracts stand in the toolchain's os/src/c.rt.
 */
#include <errno.h>
#include <fcntl.h>
#include <stddef.h>
#include <stdint.h>
#include <stdlib.h>
#include <sys/types.h>

extern char **environ;

static int count;
static char **words;

__attribute__((constructor)) static void keep(int argc, char **argv)
{
	count = argc;
	words = argv;
}

/* Copies a text without its zero: its length, -1 if there is none, -2 if it does not fit. */
static ssize_t copy(const char *text, uint8_t *to, size_t room)
{
	size_t length = 0;
	if (text == NULL)
		return -1;
	for (; text[length] != 0; length++) {
		if (length == room)
			return -2;
		to[length] = (uint8_t)text[length];
	}
	return (ssize_t)length;
}

ssize_t rattle_arg(size_t i, uint8_t *to, size_t room)
{
	return copy(i < (size_t)count ? words[i] : NULL, to, room);
}

ssize_t rattle_env(const char *name, uint8_t *to, size_t room)
{
	return copy(getenv(name), to, room);
}

ssize_t rattle_env_at(size_t i, uint8_t *to, size_t room)
{
	char **entry = environ;
	while (entry != NULL && *entry != NULL && i > 0) {
		entry++;
		i--;
	}
	return copy(entry != NULL ? *entry : NULL, to, room);
}

int rattle_errno(void)
{
	return errno;
}

void rattle_set_errno(int number)
{
	errno = number;
}

/* A directory, opened for reading: not one that a link at the path's end leads to, unless a "/" follows it. */
int rattle_open_dir_at(int dir, const char *name)
{
	return openat(dir, name, O_RDONLY | O_DIRECTORY | O_NOFOLLOW | O_CLOEXEC);
}
