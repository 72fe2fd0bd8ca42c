/*
 * Stands under the barebox-state of dt-utils in place of a board, by LD_PRELOAD: that tool looks
 * its device up by udev otherwise, which knows none on a machine without a devicetree. The device
 * is the file that BOARD_FILE names. Where BOARD_FLASH has the bytes of a page and of a block, the
 * file answers as a flash's MTD character device does: an erase fills a block with 0xFF, and a
 * write only clears bits.
 */
#define _GNU_SOURCE
#include <arpa/inet.h>
#include <dlfcn.h>
#include <errno.h>
#include <mtd/mtd-user.h>
#include <stdarg.h>
#include <stdint.h>
#include <stdio.h>
#include <stdlib.h>
#include <string.h>
#include <sys/ioctl.h>
#include <sys/stat.h>
#include <unistd.h>

/* Of libdt-utils: a property of a node, and its length in bytes. */
const void *of_get_property(const void *node, const char *name, int *length);

/*
 * In place of that of libdt-utils: a partition's file, and its place there by two cells of `reg`.
 */
int of_get_devicepath(void *node, char **path, off_t *offset, size_t *size)
{
	const char *file = getenv("BOARD_FILE");
	int length = 0;
	const uint32_t *cells = of_get_property(node, "reg", &length);

	if (!file || !cells || length != 8)
		return -ENODEV;
	*path = strdup(file);
	*offset = ntohl(cells[0]);
	*size = ntohl(cells[1]);
	return *path ? 0 : -ENOMEM;
}

/* Whether the descriptor is that of a flash; its page and block then. */
static int is_flash(int descriptor, unsigned *page, unsigned *block)
{
	const char *flash = getenv("BOARD_FLASH");
	struct stat board;
	struct stat found;

	return flash && sscanf(flash, "%u %u", page, block) == 2 &&
		stat(getenv("BOARD_FILE"), &board) == 0 && fstat(descriptor, &found) == 0 &&
		board.st_dev == found.st_dev && board.st_ino == found.st_ino;
}

static int tell(int descriptor, struct mtd_info_user *info, unsigned page, unsigned block)
{
	struct stat found;

	if (fstat(descriptor, &found) != 0)
		return -1;
	memset(info, 0, sizeof *info);
	info->type = MTD_NORFLASH;
	info->flags = MTD_CAP_NORFLASH;
	info->size = (unsigned)found.st_size;
	info->erasesize = block;
	info->writesize = page;
	return 0;
}

static int erase(int descriptor, const struct erase_info_user *part)
{
	unsigned char blank[256];
	unsigned done;

	memset(blank, 0xff, sizeof blank);
	for (done = 0; done < part->length; done += sizeof blank)
		if (pwrite(descriptor, blank, sizeof blank, (off_t)part->start + done) != sizeof blank)
			return -1;
	return 0;
}

int ioctl(int descriptor, unsigned long request, ...)
{
	unsigned page;
	unsigned block;
	void *argument;
	va_list rest;

	va_start(rest, request);
	argument = va_arg(rest, void *);
	va_end(rest);
	if (is_flash(descriptor, &page, &block)) {
		if (request == MEMGETINFO)
			return tell(descriptor, argument, page, block);
		if (request == MEMERASE)
			return erase(descriptor, argument);
		if (request == MEMGETBADBLOCK)
			return 0;
	}
	errno = ENOTTY;
	return -1;
}

/* One byte after the other, which is slow and plain. */
static ssize_t program(int descriptor, const unsigned char *bytes, size_t count)
{
	off_t at = lseek(descriptor, 0, SEEK_CUR);
	unsigned char byte;
	size_t done;

	if (at < 0)
		return -1;
	for (done = 0; done < count; done++) {
		if (pread(descriptor, &byte, 1, at + (off_t)done) != 1)
			return -1;
		byte &= bytes[done];
		if (pwrite(descriptor, &byte, 1, at + (off_t)done) != 1)
			return -1;
	}
	return lseek(descriptor, at + (off_t)count, SEEK_SET) < 0 ? -1 : (ssize_t)count;
}

ssize_t write(int descriptor, const void *bytes, size_t count)
{
	ssize_t (*real)(int, const void *, size_t);
	unsigned page;
	unsigned block;

	if (is_flash(descriptor, &page, &block))
		return program(descriptor, bytes, count);
	real = (ssize_t (*)(int, const void *, size_t))dlsym(RTLD_NEXT, "write");
	return real(descriptor, bytes, count);
}
