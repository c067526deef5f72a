#define _GNU_SOURCE
#include "disk.h"

#include <errno.h>
#include <fcntl.h>
#include <stdlib.h>
#include <string.h>
#include <unistd.h>

/* Opens the path, where there is one, and takes memory for a job. */
static int64_t begin(struct disk *d, const char *path, uint64_t page)
{
	*d = (struct disk){ .fd = -1, .page = page };
	d->bytes = malloc(page ? page : 1);
	if (!d->bytes)
		return PCACHE_NO_MEMORY;
	if (!path)
		return 0;
	d->fd = open(path, O_RDWR | O_CREAT | O_CLOEXEC, 0644);
	return d->fd < 0 ? PCACHE_IO : 0;
}

int64_t disk_make(struct disk *d, const char *path, uint64_t page, uint64_t frames, uint64_t dirty_limit, uint64_t blocks)
{
	int64_t made = begin(d, path, page);

	if (made == 0)
		made = pcache_make(&d->cache, page, frames, dirty_limit, blocks, path != NULL);
	if (made < 0)
		disk_free(d);
	return made;
}

int64_t disk_adopt(struct disk *d, const char *path, uint64_t page, uint64_t frames, uint64_t dirty_limit, uint64_t blocks,
		   const uint64_t *sizes, size_t files, const struct pcache_extent *extents, size_t count, uint64_t *wrong)
{
	int64_t made = begin(d, path, page);

	if (made == 0)
		made = pcache_adopt(&d->cache, page, frames, dirty_limit, blocks, sizes, files, extents, count, wrong);
	if (made < 0)
		disk_free(d);
	return made;
}

void disk_free(struct disk *d)
{
	pcache_free(&d->cache);
	if (d->fd >= 0)
		close(d->fd);
	free(d->bytes);
	d->fd = -1;
	d->bytes = NULL;
}

/* Reads or writes the block whole. What lies past the end of the file reads as zeros. */
static int move_block(struct disk *d, bool writes, uint64_t block)
{
	size_t done = 0;

	while (done < d->page) {
		off_t at = (off_t)(block * d->page + done);
		ssize_t n = writes ? pwrite(d->fd, d->bytes + done, d->page - done, at) : pread(d->fd, d->bytes + done, d->page - done, at);

		if (n < 0 && errno == EINTR)
			continue;
		if (n < 0)
			return errno;
		if (n == 0 && writes)
			return EIO;
		if (n == 0) {
			memset(d->bytes + done, 0, d->page - done);
			break;
		}
		done += (size_t)n;
	}
	return 0;
}

static int make_job(struct disk *d, int64_t kind, uint64_t block)
{
	if (kind == PCACHE_FLUSH)
		return fdatasync(d->fd) ? errno : 0;
	return move_block(d, kind == PCACHE_WRITE, block);
}

int64_t disk_serve(struct disk *d)
{
	for (;;) {
		uint64_t block;
		int64_t kind = pcache_next(&d->cache, &block, d->bytes, d->page);
		if (kind <= 0)
			return kind;
		int error = make_job(d, kind, block);
		int64_t ended = pcache_end(&d->cache, (uint32_t)kind, block, d->bytes, d->page, (uint32_t)error);
		if (ended < 0)
			return ended;
		if (error && kind != PCACHE_READ)
			return PCACHE_IO;
	}
}

int64_t disk_pread(struct disk *d, uint64_t handle, uint64_t offset, void *out, size_t length)
{
	for (;;) {
		int64_t n = pcache_pread(&d->cache, handle, offset, out, length);
		if (n != PCACHE_WAITS)
			return n;
		int64_t served = disk_serve(d);
		if (served < 0)
			return served;
	}
}

int64_t disk_pwrite(struct disk *d, uint64_t handle, uint64_t offset, const void *bytes, size_t length)
{
	const unsigned char *from = bytes;
	size_t done = 0;

	do {
		int64_t n = pcache_pwrite(&d->cache, handle, offset + done, from + done, length - done);
		if (n == PCACHE_WAITS)
			n = disk_serve(d);
		if (n < 0)
			return n;
		done += (size_t)n;
	} while (done < length);
	return (int64_t)length;
}

int64_t disk_truncate(struct disk *d, uint64_t handle, uint64_t size)
{
	for (;;) {
		int64_t r = pcache_truncate(&d->cache, handle, size);
		if (r != PCACHE_WAITS)
			return r;
		int64_t served = disk_serve(d);
		if (served < 0)
			return served;
	}
}

int64_t disk_fsync(struct disk *d, uint64_t handle)
{
	for (;;) {
		int64_t r = pcache_fsync(&d->cache, handle);
		if (r != PCACHE_WAITS)
			return r;
		int64_t served = disk_serve(d);
		/* a write or a flush failed: the next fsync tells its code */
		if (served < 0) {
			r = pcache_fsync(&d->cache, handle);
			return r == PCACHE_WAITS ? served : r;
		}
	}
}

int64_t disk_sync_all(struct disk *d)
{
	for (;;) {
		int64_t r = pcache_sync_all(&d->cache);
		if (r != PCACHE_WAITS)
			return r;
		int64_t served = disk_serve(d);
		if (served < 0) {
			r = pcache_sync_all(&d->cache);
			return r == PCACHE_WAITS ? served : r;
		}
	}
}
