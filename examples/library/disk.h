/* A cache over a file of the system, or over memory: its jobs are made by pread, pwrite and fdatasync. */
#ifndef DISK_H
#define DISK_H

#include "pcache.h"

struct disk {
	struct pcache cache;
	int fd;       /* -1: over memory */
	size_t page;
	unsigned char *bytes; /* of one job */
};

/* Over the file at the path, which is made, or over memory where it is null. Block b is the page at b * page. */
int64_t disk_make(struct disk *d, const char *path, uint64_t page, uint64_t frames, uint64_t dirty_limit, uint64_t blocks);

/* Over the files that the file at the path has already, as pcache_adopt does. */
int64_t disk_adopt(struct disk *d, const char *path, uint64_t page, uint64_t frames, uint64_t dirty_limit, uint64_t blocks,
		   const uint64_t *sizes, size_t files, const struct pcache_extent *extents, size_t count, uint64_t *wrong);

void disk_free(struct disk *d);

/* Makes the jobs until there is none, or a write or a flush fails: PCACHE_IO then. */
int64_t disk_serve(struct disk *d);

/* As the calls of pcache.h, but they never answer PCACHE_WAITS, and disk_pwrite writes all or is refused. */
int64_t disk_pread(struct disk *d, uint64_t handle, uint64_t offset, void *out, size_t length);
int64_t disk_pwrite(struct disk *d, uint64_t handle, uint64_t offset, const void *bytes, size_t length);
int64_t disk_truncate(struct disk *d, uint64_t handle, uint64_t size);
int64_t disk_fsync(struct disk *d, uint64_t handle);
int64_t disk_sync_all(struct disk *d);

#endif
