/*
 * pcache: files behind a page cache with tagged writeback, proved in Rattle, for C. A struct pcache is a cache: up to 64 files over one
 * device, and up to 1,024 open handles.
 *
 * A call answers a count or a number, 0 or more, or a refusal below 0: one of enum pcache_refusal, which pcache_strerror() names.
 * After a refusal the files are as they were.
 *
 * What C has to keep, which nothing checks:
 *   - A struct pcache is made of zero bytes (`struct pcache cache = {0};`), and its bytes are the library's from then on. It may be
 *     moved, but of two copies only one is used, and nothing behind `at` is read or written.
 *   - One call at a time for each struct, and all on the thread that made it.
 *   - A slice is a pointer that is not null, also where its length is 0, and a length within one object; no two of a call overlap.
 *   - malloc, realloc and free are of one allocator. No call comes from a signal handler, nor from the child of a fork of a process
 *     with threads.
 *
 * A file is as plain files are: "the file" below is the bytes that were written, cut and padded as POSIX has it. Over a device in memory
 * that is proved. Over a device whose calls the program makes it has the premise that this device returns what was written.
 */
#ifndef PCACHE_H
#define PCACHE_H

#include <stdbool.h>
#include <stddef.h>
#include <stdint.h>

#ifdef __cplusplus
extern "C" {
#endif

/* A cache, or none. */
struct pcache {
	bool full;
	void *at;
};

enum pcache_refusal {
	PCACHE_BAD_CONFIG = -1,
	PCACHE_TOO_MANY_FILES = -2,
	PCACHE_TOO_MANY_HANDLES = -3,
	PCACHE_BAD_HANDLE = -4,
	PCACHE_NO_SUCH_FILE = -5,
	PCACHE_TOO_LARGE = -7,
	PCACHE_NO_FRAME = -8,
	PCACHE_NO_SPACE = -9,
	PCACHE_DIRTY_LIMIT = -10,
	PCACHE_TOO_MANY_IN_FLIGHT = -11,
	PCACHE_BUSY = -12,
	PCACHE_NO_MEMORY = -13,
	PCACHE_IO = -14,
	PCACHE_STRANGER = -15,
	PCACHE_BAD_RANGE = -24,
	/* not refused: there are jobs, and the call is to be made again once they are done */
	PCACHE_WAITS = -32,
	/* an extent that pcache_adopt doesn't take */
	PCACHE_EXTENT_EMPTY = -40,
	PCACHE_EXTENT_PAST_SIZE = -41,
	PCACHE_EXTENT_OUT_OF_ORDER = -42,
	PCACHE_EXTENT_PAST_DEVICE = -43,
	PCACHE_EXTENT_BLOCK_TWICE = -44,
};

/* ---- a cache */

/* Makes a cache without files. A page, which is a block of the device too: 16 to 4,096 bytes, a power of two. 48 to 65,536 frames; a
 * dirty limit of 16 to frames - 32; up to 2^32 blocks. With `by_jobs` the program makes the device's calls (pcache_next), else the
 * device is in memory, and takes page * blocks bytes at once. What was in the struct is freed. Refused by PCACHE_BAD_CONFIG and
 * PCACHE_NO_MEMORY; then the struct is as before. */
int64_t pcache_make(struct pcache *cache, uint64_t page, uint64_t frames, uint64_t dirty_limit, uint64_t blocks, bool by_jobs);

/* Frees the cache with its files and handles. The struct holds none then, as before pcache_make: each other call answers
 * PCACHE_BAD_HANDLE, and changes nothing. To free it twice does nothing. What was not synced is lost. */
void pcache_free(struct pcache *cache);

/* Writes every dirty page of every file, and has all made durable. After 0 no page is dirty, and all that the device holds is durable. */
int64_t pcache_sync_all(struct pcache *cache);

/* Puts the errno of the last call that answered PCACHE_IO into `code`, or 0. */
int64_t pcache_io_code(struct pcache *cache, uint32_t *code);

/* ---- files and handles */

/* Makes a file without bytes, and answers its number: 0, 1, and so on. It stays as long as the cache. Refused by PCACHE_TOO_MANY_FILES
 * where there are 64. */
int64_t pcache_create(struct pcache *cache);

/* Opens a file, and answers the handle's number. Each call below names a file by a handle; where no open handle has the number it
 * answers PCACHE_BAD_HANDLE, and nothing changes. Refused by PCACHE_NO_SUCH_FILE, and by PCACHE_TOO_MANY_HANDLES where 1,024 are open. */
int64_t pcache_open(struct pcache *cache, uint64_t file);

/* Closes a handle. Its number may be another's afterwards. The file stays, and so do its dirty pages. */
int64_t pcache_close(struct pcache *cache, uint64_t handle);

/* Reads into the front of `out`. Answers how many bytes: exactly as many as fit and as the file has from `offset` on, and they are the
 * file's. No file changes. After a refusal `out` may hold a part. */
int64_t pcache_pread(struct pcache *cache, uint64_t handle, uint64_t offset, void *out, size_t length);

/* Writes from the front of `bytes`, of any length. Answers how many bytes it wrote: all, or fewer where a later part was refused, as
 * write(2) does. The file is then as after a POSIX pwrite of just these; a gap before them reads as zeros. It has 2^40 bytes at most.
 * No other file changes. */
int64_t pcache_pwrite(struct pcache *cache, uint64_t handle, uint64_t offset, const void *bytes, size_t length);

/* Makes the file `size` bytes long: cut, or with zeros at its end. No other file changes. */
int64_t pcache_truncate(struct pcache *cache, uint64_t handle, uint64_t size);

/* How long the file is. */
int64_t pcache_size(struct pcache *cache, uint64_t handle);

/* After 0 the device holds each page of the file, and all that it holds is durable. A failed fsync says so: PCACHE_IO comes exactly if a
 * write of the file failed since the handle was last told, or the flush failed; the next fsync tries again what failed. */
int64_t pcache_fsync(struct pcache *cache, uint64_t handle);

/* The same for the pages from `first` to `last`. PCACHE_BAD_RANGE where first > last. */
int64_t pcache_fsync_range(struct pcache *cache, uint64_t handle, uint64_t first, uint64_t last);

/* The errno of a failed write of the file that the handle was not told of, and is told now; or 0. */
int64_t pcache_poll_error(struct pcache *cache, uint64_t handle);

/* ---- files that are there already */

/* Pages of a file whose blocks stand side by side, in the order of the pages. All but the last are whole. */
struct pcache_extent {
	uint64_t file;
	uint64_t first; /* its first page */
	uint64_t block; /* that page's block */
	uint64_t bytes; /* from that block's first byte on */
};

/* Makes a cache over files that a device has already, as pcache_make does with `by_jobs`: file f has sizes[f] bytes. A page that no
 * extent has reads as zeros. It reads nothing: that the blocks have the files' bytes is the program's matter, and so is that no other
 * cache is used over the device.
 *
 * The extents of a file come in the order of their pages; of several files they may be mixed. A list that can't be is refused by one of
 * these, and the place of what is wrong is put into `wrong`. The struct is as before then.
 *   of `sizes`    PCACHE_TOO_MANY_FILES  there are more than 64;  PCACHE_TOO_LARGE  a file has more than 2^40 bytes
 *   of `extents`  PCACHE_NO_SUCH_FILE, PCACHE_EXTENT_EMPTY  no bytes, PCACHE_EXTENT_PAST_SIZE  it ends past its file's size,
 *                 PCACHE_EXTENT_OUT_OF_ORDER  an earlier one of the file has its first page or a later one,
 *                 PCACHE_EXTENT_PAST_DEVICE, PCACHE_EXTENT_BLOCK_TWICE  an earlier one has a block of it
 * Refused by PCACHE_BAD_CONFIG and PCACHE_NO_MEMORY too. It takes time and memory by the page that has a block. */
int64_t pcache_adopt(struct pcache *cache, uint64_t page, uint64_t frames, uint64_t dirty_limit, uint64_t blocks, const uint64_t *sizes,
		     size_t files, const struct pcache_extent *extents, size_t count, uint64_t *wrong);

/* Puts the file's first extent from page `from` on into `extent`, as the file stands on the device now, and answers 1; or 0 where it has
 * none. Once pcache_sync_all answered 0 the files' extents and sizes are what pcache_adopt wants to begin anew, until the next call that
 * may write. PCACHE_NO_SUCH_FILE, PCACHE_NO_MEMORY. The first such call after another call takes time and memory by the page. */
int64_t pcache_next_extent(struct pcache *cache, uint64_t file, uint64_t from, struct pcache_extent *extent);

/* ---- the device's calls, made by the program */

enum pcache_job {
	PCACHE_NO_JOB = 0,
	PCACHE_READ = 1,
	PCACHE_WRITE = 2,
	PCACHE_FLUSH = 3,
};

/* The next job of a cache by jobs, or PCACHE_NO_JOB. A job is the same until its end was told. `bytes` are as long as a page.
 *   PCACHE_READ   a call waits for `block`
 *   PCACHE_WRITE  `bytes` are to be written to `block`. Writes come in the order in which the cache made them
 *   PCACHE_FLUSH  all that was written is to be made durable, as by fdatasync(2)
 * A call that answers PCACHE_WAITS has left a job, and is made again once there is none; so has one that waits for writes to be made.
 */
int64_t pcache_next(struct pcache *cache, uint64_t *block, void *bytes, size_t length);

/* How the next job ended: by an errno, or 0. For a read that went well `bytes` are the block's, as long as a page. PCACHE_STRANGER where
 * (kind, block) is not the next job; nothing changes then. A write that failed stays the next job with its bytes, and the next fsync
 * fails with its errno. A read that failed fails the call that waits for it. After a flush that failed every fsync that has to
 * flush fails with its errno: the system may have dropped what it could not write. */
int64_t pcache_end(struct pcache *cache, uint32_t kind, uint64_t block, const void *bytes, size_t length, uint32_t code);

/* The refusal in words. */
static inline const char *pcache_strerror(int64_t refusal)
{
	switch (refusal) {
	case PCACHE_BAD_CONFIG: return "a size is outside its limits";
	case PCACHE_TOO_MANY_FILES: return "a cache has 64 files at most";
	case PCACHE_TOO_MANY_HANDLES: return "1,024 handles are open";
	case PCACHE_BAD_HANDLE: return "no open handle has the number, or there is no cache in the struct";
	case PCACHE_NO_SUCH_FILE: return "no file has the number";
	case PCACHE_TOO_LARGE: return "the file would end past 2^40 bytes";
	case PCACHE_NO_FRAME: return "too few free frames";
	case PCACHE_NO_SPACE: return "too few free blocks";
	case PCACHE_DIRTY_LIMIT: return "too many pages would be dirty";
	case PCACHE_TOO_MANY_IN_FLIGHT: return "too many requests are in flight";
	case PCACHE_BUSY: return "a call is in progress";
	case PCACHE_NO_MEMORY: return "no memory is left";
	case PCACHE_IO: return "the device failed: see pcache_io_code";
	case PCACHE_STRANGER: return "this is not the next job";
	case PCACHE_BAD_RANGE: return "the first page of the range is past its last";
	case PCACHE_WAITS: return "the call waits for jobs";
	case PCACHE_EXTENT_EMPTY: return "an extent has no bytes";
	case PCACHE_EXTENT_PAST_SIZE: return "an extent ends past its file's size";
	case PCACHE_EXTENT_OUT_OF_ORDER: return "the extents of a file overlap, or don't come in the order of their pages";
	case PCACHE_EXTENT_PAST_DEVICE: return "an extent ends past the device's last block";
	case PCACHE_EXTENT_BLOCK_TWICE: return "a block is of two pages";
	default: return refusal >= 0 ? "no refusal" : "another refusal";
	}
}

#ifdef __cplusplus
}
#endif
#endif
