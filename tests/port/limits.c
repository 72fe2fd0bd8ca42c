/*
 * Calls each function of port/rattle.c at its limits. It is called with the words `abc` and an
 * empty one, or with none. It ends with 0, or with the number of the line that fails.
 */
#include <limits.h>
#include <malloc.h>
#include <string.h>
#include <unistd.h>
#include "../../port/rattle.c"

#define CHECK(fact) do { if (!(fact)) return __LINE__; } while (0)

/* More than any machine has, and unknown to the compiler. */
static volatile size_t vast = SIZE_MAX / 2;

static int new_memory(void) {
	struct memory none = rattle_alloc(0, 16);
	struct memory some = rattle_alloc(3, 1);
	struct memory refused = rattle_alloc(vast, 16);

	CHECK(none.is_there == 1 && (uintptr_t)none.at % 16 == 0);
	CHECK(malloc_usable_size(none.at) >= 16);
	memset(none.at, 1, 16);
	CHECK(some.is_there == 1 && (uintptr_t)some.at % 16 == 0 && some.at != none.at);
	CHECK(refused.is_there == 0 && refused.at != NULL);
	rattle_dealloc(some.at);
	rattle_dealloc(none.at);
	return 0;
}

static int grown_and_shrunk_memory(void) {
	struct memory some = rattle_alloc(3, 1);

	memcpy(some.at, "abc", 3);
	some = rattle_realloc(some.at, 3, 4096, 1);
	CHECK(some.is_there == 1 && memcmp(some.at, "abc", 3) == 0);
	memset((char *)some.at + 3, 'd', 4093);
	CHECK(rattle_realloc(some.at, 4096, vast, 1).is_there == 0);
	CHECK(memcmp(some.at, "abcd", 4) == 0 && ((char *)some.at)[4095] == 'd');
	some = rattle_realloc(some.at, 4096, 0, 8);
	CHECK(some.is_there == 1 && memcmp(some.at, "abcddddd", 8) == 0);
	rattle_dealloc(some.at);
	return 0;
}

/* The C library tells how many bytes it has out, in its heap and beside it. */
static size_t bytes_out(void) {
	struct mallinfo2 told = mallinfo2();

	return told.uordblks + told.hblkhd;
}

static int memory_that_is_given_back(void) {
	size_t before = bytes_out();
	struct memory some = rattle_alloc(1 << 20, 16);

	CHECK(some.is_there == 1 && bytes_out() >= before + (1 << 20));
	rattle_dealloc(some.at);
	CHECK(bytes_out() == before);
	return 0;
}

static int words_that_fit_and_dont(void) {
	char to[5] = "....";

	CHECK(rattle_arg(1, to, 4) == 3 && strcmp(to, "abc.") == 0);
	CHECK(rattle_arg(1, to, 3) == 3 && strcmp(to, "abc.") == 0);
	strcpy(to, "....");
	CHECK(rattle_arg(1, to, 2) == -2 && strcmp(to + 2, "..") == 0);
	CHECK(rattle_arg(1, to, 0) == -2);
	CHECK(rattle_arg(2, to, 4) == 0 && rattle_arg(2, NULL, 0) == 0);
	CHECK(rattle_arg(3, to, 4) == -1);
	return 0;
}

/* However it is called, the first word is the program's name. */
static int no_such_word(size_t count, const char *name) {
	char to[4096];
	size_t length = strlen(name);

	CHECK(rattle_arg(0, to, length) == (int64_t)length && memcmp(to, name, length) == 0);
	CHECK(rattle_arg(0, to, length - 1) == -2);
	CHECK(rattle_arg(count, to, sizeof to) == -1);
	CHECK(rattle_arg(count + 1, to, sizeof to) == -1);
	CHECK(rattle_arg((size_t)1 << 32, to, sizeof to) == -1);
	CHECK(rattle_arg(SIZE_MAX, to, sizeof to) == -1);
	return 0;
}

static int numbers_of_errors(void) {
	CHECK(close(-1) == -1 && rattle_errno() == EBADF);
	rattle_set_errno(INT_MAX);
	CHECK(rattle_errno() == INT_MAX && errno == INT_MAX);
	rattle_set_errno(0);
	CHECK(rattle_errno() == 0);
	return 0;
}

int main(int count, char **words) {
	int line = new_memory();

	if (line == 0)
		line = grown_and_shrunk_memory();
	if (line == 0)
		line = memory_that_is_given_back();
	if (line == 0)
		line = no_such_word((size_t)count, words[0]);
	if (line == 0 && count > 1)
		line = words_that_fit_and_dont();
	if (line == 0)
		line = numbers_of_errors();
	return line;
}
