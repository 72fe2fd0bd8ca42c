/*
 * What a compiled program calls beside the C library's functions, for a machine for which the
 * toolchain has none of it. Each function does what the toolchain's own does on its default
 * machine. Nothing proves them: they are trusted.
 */
#include <errno.h>
#include <stddef.h>
#include <stdint.h>
#include <stdlib.h>

/* 1 and the memory, or 0 and a pointer that nobody follows. It is handed back in two registers. */
struct memory {
	uint64_t is_there;
	void *at;
};

static struct memory memory_at(void *at) {
	static char nothing;

	return at != NULL ? (struct memory){1, at} : (struct memory){0, &nothing};
}

/*
 * New memory of `size` bytes, or of `align` where `size` is 0. `align` is at most malloc's own,
 * that of max_align_t.
 */
struct memory rattle_alloc(size_t size, size_t align) {
	return memory_at(malloc(size != 0 ? size : align));
}

/*
 * The same memory with `size` bytes, as above, which begin as it did. Where there is none it stays
 * as it was.
 */
struct memory rattle_realloc(void *at, size_t old_size, size_t size, size_t align) {
	(void)old_size;
	return memory_at(realloc(at, size != 0 ? size : align));
}

/* Gives back the memory at a place that one of the two above gave. */
void rattle_dealloc(void *at) {
	free(at);
}

static int argument_count;
static char **arguments;

/*
 * Keeps, before main, what the program is called with: glibc hands each constructor the same, in a
 * static file too.
 */
__attribute__((constructor)) static void keep_arguments(int count, char **words) {
	argument_count = count;
	arguments = words;
}

/*
 * Copies argument `index` without its zero byte and gives its length, -1 where there is none, -2
 * where it has no room.
 */
int64_t rattle_arg(size_t index, char *to, size_t room) {
	size_t length = 0;

	if (index >= (size_t)argument_count || arguments[index] == NULL)
		return -1;
	for (; arguments[index][length] != '\0'; length++) {
		if (length == room)
			return -2;
		to[length] = arguments[index][length];
	}
	return (int64_t)length;
}

/* The number of the error that the C library met last in this thread. */
int rattle_errno(void) {
	return errno;
}

/* From now on that number is this one. */
void rattle_set_errno(int number) {
	errno = number;
}
