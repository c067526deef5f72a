/* Bad input, many handles, files that are there already, faults, and random calls over memory and over a file beside plain copies. Prints a
 * line for each part. */
#define _GNU_SOURCE
#include "disk.h"

#include <errno.h>
#include <stdio.h>
#include <stdlib.h>
#include <string.h>
#include <unistd.h>

static int failed;

static void want(int holds, const char *what)
{
	if (!holds) {
		printf("FAILED: %s\n", what);
		failed = 1;
	}
}

#define WANT(x) want((x), #x)

static unsigned char big[40 * 4096], out[40 * 4096];

/* Each call by this handle is refused, and changes nothing. */
static void want_closed(struct pcache *c, uint64_t h)
{
	WANT(pcache_pread(c, h, 0, out, 1) == PCACHE_BAD_HANDLE);
	WANT(pcache_pwrite(c, h, 0, big, 1) == PCACHE_BAD_HANDLE);
	WANT(pcache_truncate(c, h, 0) == PCACHE_BAD_HANDLE);
	WANT(pcache_size(c, h) == PCACHE_BAD_HANDLE);
	WANT(pcache_fsync(c, h) == PCACHE_BAD_HANDLE);
	WANT(pcache_fsync_range(c, h, 0, 1) == PCACHE_BAD_HANDLE);
	WANT(pcache_poll_error(c, h) == PCACHE_BAD_HANDLE);
	WANT(pcache_close(c, h) == PCACHE_BAD_HANDLE);
}

/* Each call is refused where the struct holds no cache. */
static void want_none(struct pcache *c)
{
	struct pcache_extent extent;
	uint32_t code;
	uint64_t block;

	want_closed(c, 0);
	WANT(pcache_create(c) == PCACHE_BAD_HANDLE);
	WANT(pcache_open(c, 0) == PCACHE_BAD_HANDLE);
	WANT(pcache_sync_all(c) == PCACHE_BAD_HANDLE);
	WANT(pcache_next_extent(c, 0, 0, &extent) == PCACHE_BAD_HANDLE);
	WANT(pcache_io_code(c, &code) == PCACHE_BAD_HANDLE);
	WANT(pcache_next(c, &block, out, 4096) == PCACHE_BAD_HANDLE);
	WANT(pcache_end(c, PCACHE_FLUSH, 0, out, 4096, 0) == PCACHE_BAD_HANDLE);
}

/* A cache with one file, whose handle is 0. */
static void make_one(struct pcache *c, uint64_t frames, uint64_t dirty_limit, uint64_t blocks, bool by_jobs)
{
	WANT(pcache_make(c, 4096, frames, dirty_limit, blocks, by_jobs) == 0);
	WANT(pcache_create(c) == 0 && pcache_open(c, 0) == 0);
}

static void caches(void)
{
	struct pcache c = { 0 };
	uint64_t block;

	/* zero bytes, and freed though never made */
	want_none(&c);
	pcache_free(&c);
	want_none(&c);

	/* sizes outside their limits */
	WANT(pcache_make(&c, 4095, 64, 16, 64, false) == PCACHE_BAD_CONFIG);
	WANT(pcache_make(&c, 4096, 64, 60, 64, false) == PCACHE_BAD_CONFIG);
	want_none(&c);
	make_one(&c, 64, 16, 64, false);
	WANT(pcache_pwrite(&c, 0, 0, "one", 3) == 3);
	WANT(pcache_make(&c, 4096, 64, 60, 64, false) == PCACHE_BAD_CONFIG && pcache_size(&c, 0) == 3);

	/* jobs where there are none */
	WANT(pcache_next(&c, &block, out, 4096) == PCACHE_NO_JOB);
	WANT(pcache_end(&c, PCACHE_FLUSH, 0, out, 4096, 0) == PCACHE_STRANGER);

	/* a new cache in place of the old one, freed, used after, freed twice */
	make_one(&c, 64, 16, 64, false);
	WANT(pcache_size(&c, 0) == 0);
	pcache_free(&c);
	want_none(&c);
	pcache_free(&c);
	want_none(&c);
	printf("caches: done\n");
}

static void handles(void)
{
	static uint64_t numbers[1024];
	static bool seen[1024];
	struct pcache c = { 0 };

	/* no file yet, and no handle */
	WANT(pcache_make(&c, 4096, 64, 16, 64, false) == 0);
	WANT(pcache_open(&c, 0) == PCACHE_NO_SUCH_FILE);
	want_closed(&c, 0);

	/* 64 files */
	for (int f = 0; f < 64; f++)
		WANT(pcache_create(&c) == f);
	WANT(pcache_create(&c) == PCACHE_TOO_MANY_FILES);
	WANT(pcache_open(&c, 64) == PCACHE_NO_SUCH_FILE && pcache_open(&c, UINT64_MAX) == PCACHE_NO_SUCH_FILE);

	/* 1,024 handles, each of a number of its own */
	for (int i = 0; i < 1024; i++) {
		int64_t h = pcache_open(&c, (uint64_t)i % 64);
		WANT(h >= 0 && h < 1024 && !seen[h]);
		if (failed)
			return;
		seen[h] = true;
		numbers[i] = (uint64_t)h;
	}
	WANT(pcache_open(&c, 0) == PCACHE_TOO_MANY_HANDLES);
	want_closed(&c, 1024);
	want_closed(&c, UINT64_MAX);

	/* what one handle writes another of the file reads, and no other file has it */
	WANT(pcache_pwrite(&c, numbers[5], 10, "five", 4) == 4);
	WANT(pcache_pread(&c, numbers[5 + 64], 10, out, 9) == 4 && !memcmp(out, "five", 4));
	for (int i = 0; i < 64; i++)
		WANT(pcache_size(&c, numbers[i]) == (i == 5 ? 14 : 0));

	/* a handle that is closed, and one that gets its number: the others stay open */
	WANT(pcache_close(&c, numbers[5]) == 0);
	want_closed(&c, numbers[5]);
	WANT(pcache_size(&c, numbers[5 + 64]) == 14);
	WANT(pcache_open(&c, 7) == (int64_t)numbers[5] && pcache_size(&c, numbers[5]) == 0);
	WANT(pcache_open(&c, 0) == PCACHE_TOO_MANY_HANDLES);
	for (int i = 6; i < 1024; i++)
		WANT(pcache_close(&c, numbers[i]) == 0);
	want_closed(&c, numbers[6]);
	WANT(pcache_sync_all(&c) == 0 && pcache_sync_all(&c) == 0);
	WANT(pcache_open(&c, 5) >= 0);
	pcache_free(&c);
	printf("handles: done\n");
}

/* What a refused adoption answers, and the place that it tells. */
static int64_t adopted(struct pcache *c, const uint64_t *sizes, size_t files, const struct pcache_extent *extents, size_t count, uint64_t *wrong)
{
	*wrong = 99;
	return pcache_adopt(c, 4096, 64, 16, 100, sizes, files, extents, count, wrong);
}

static void adoptions(void)
{
	static const uint64_t sizes[] = { 9000, 0, 4096, (UINT64_C(1) << 40) + 1 };
	static const uint64_t many[65];
	/* pages 0 and 1 of file 0, half of its page 2, and file 2 */
	static const struct pcache_extent all[] = { { 0, 0, 10, 8192 }, { 2, 0, 99, 4096 }, { 0, 2, 3, 808 } };
	static const struct {
		struct pcache_extent extent;
		int64_t answer;
	} bad[] = {
		{ { 3, 0, 0, 1 }, PCACHE_NO_SUCH_FILE },
		{ { UINT64_MAX, 0, 0, 1 }, PCACHE_NO_SUCH_FILE },
		{ { 0, 2, 0, 0 }, PCACHE_EXTENT_EMPTY },
		{ { 1, 0, 0, 1 }, PCACHE_EXTENT_PAST_SIZE },
		{ { 0, 2, 0, 809 }, PCACHE_EXTENT_PAST_SIZE },
		{ { 0, UINT64_MAX, 0, UINT64_MAX }, PCACHE_EXTENT_PAST_SIZE },
		{ { 0, 1, 0, 1 }, PCACHE_EXTENT_OUT_OF_ORDER },
		{ { 0, 0, 0, 8192 }, PCACHE_EXTENT_OUT_OF_ORDER },
		{ { 0, 2, 100, 1 }, PCACHE_EXTENT_PAST_DEVICE },
		{ { 0, 2, UINT64_C(1) << 40, 1 }, PCACHE_EXTENT_PAST_DEVICE },
		{ { 0, 2, 11, 808 }, PCACHE_EXTENT_BLOCK_TWICE },
	};
	struct pcache c = { 0 };
	struct pcache_extent extents[2] = { all[0] }, next;
	uint64_t wrong, block;

	/* lists that can't be, each told with its place; the struct is as before */
	WANT(adopted(&c, many, 65, all, 0, &wrong) == PCACHE_TOO_MANY_FILES && wrong == 64);
	WANT(adopted(&c, sizes, 4, all, 3, &wrong) == PCACHE_TOO_LARGE && wrong == 3);
	want_none(&c);
	make_one(&c, 64, 16, 64, false);
	WANT(pcache_pwrite(&c, 0, 0, "one", 3) == 3);
	for (size_t i = 0; i < sizeof bad / sizeof *bad; i++) {
		extents[1] = bad[i].extent;
		WANT(adopted(&c, sizes, 3, extents, 2, &wrong) == bad[i].answer && wrong == 1);
	}
	WANT(pcache_adopt(&c, 4095, 64, 16, 100, sizes, 3, all, 3, &wrong) == PCACHE_BAD_CONFIG);
	WANT(pcache_pread(&c, 0, 0, out, 9) == 3 && !memcmp(out, "one", 3));

	/* three files, whose extents are told as they were given */
	WANT(adopted(&c, sizes, 3, all, 3, &wrong) == 0);
	want_closed(&c, 0);
	WANT(pcache_next_extent(&c, 0, 0, &next) == 1 && !memcmp(&next, &all[0], sizeof next));
	WANT(pcache_next_extent(&c, 0, 2, &next) == 1 && !memcmp(&next, &all[2], sizeof next));
	WANT(pcache_next_extent(&c, 0, 3, &next) == 0 && pcache_next_extent(&c, 1, 0, &next) == 0);
	WANT(pcache_next_extent(&c, 2, 0, &next) == 1 && !memcmp(&next, &all[1], sizeof next));
	WANT(pcache_next_extent(&c, 3, 0, &next) == PCACHE_NO_SUCH_FILE);

	/* each page is read from its block, and past its extent's bytes it has zeros */
	for (uint64_t f = 0; f < 3; f++) {
		WANT(pcache_open(&c, f) == (int64_t)f && pcache_size(&c, f) == (int64_t)sizes[f]);
		WANT(pcache_next(&c, &block, out, 4096) == PCACHE_NO_JOB);
	}
	for (uint64_t p = 0; p < 3; p++) {
		WANT(pcache_pread(&c, 0, p * 4096, out, 4096) == PCACHE_WAITS);
		WANT(pcache_next(&c, &block, out, 4096) == PCACHE_READ && block == (p < 2 ? 10 + p : 3));
		memset(big, 'a' + (int)p, 4096);
		WANT(pcache_end(&c, PCACHE_READ, block, big, 4096, 0) == 0);
		WANT(pcache_pread(&c, 0, p * 4096, out, 4096) == (p < 2 ? 4096 : 808) && !memcmp(out, big, p < 2 ? 4096 : 808));
	}
	WANT(pcache_truncate(&c, 0, 9010) == 0 && pcache_pread(&c, 0, 8999, out, 100) == 11);
	WANT(out[0] == 'c' && out[1] == 0 && out[10] == 0);
	pcache_free(&c);
	printf("adoptions: done\n");
}

static void bounds(void)
{
	struct pcache c = { 0 };
	const uint64_t end = UINT64_C(1) << 40;

	make_one(&c, 64, 16, 100, false);
	WANT(pcache_pread(&c, 0, 0, out, 0) == 0 && pcache_pwrite(&c, 0, end, big, 0) == 0 && pcache_size(&c, 0) == 0);
	WANT(pcache_pread(&c, 0, end, out, 9) == 0 && pcache_pread(&c, 0, UINT64_MAX, out, 9) == 0);
	WANT(pcache_pwrite(&c, 0, end, big, 1) == PCACHE_TOO_LARGE);
	WANT(pcache_pwrite(&c, 0, UINT64_MAX, big, 9) == PCACHE_TOO_LARGE);
	WANT(pcache_truncate(&c, 0, end + 1) == PCACHE_TOO_LARGE && pcache_size(&c, 0) == 0);
	WANT(pcache_pwrite(&c, 0, end - 1, "x", 1) == 1 && pcache_size(&c, 0) == (int64_t)end);
	WANT(pcache_pread(&c, 0, end - 2, out, 9) == 2 && out[0] == 0 && out[1] == 'x');
	WANT(pcache_fsync_range(&c, 0, 2, 1) == PCACHE_BAD_RANGE && pcache_fsync_range(&c, 0, 0, UINT64_MAX) == 0);
	WANT(pcache_truncate(&c, 0, 0) == 0);

	/* slices of more than 16 pages, also across pages */
	for (size_t i = 0; i < sizeof big; i++)
		big[i] = (unsigned char)(i * 31 + i / 4096);
	WANT(pcache_pwrite(&c, 0, 100, big, sizeof big) == (int64_t)sizeof big);
	memset(out, 1, sizeof out);
	WANT(pcache_pread(&c, 0, 100, out, sizeof out) == (int64_t)sizeof out && !memcmp(out, big, sizeof big));
	WANT(pcache_pread(&c, 0, 101, out, sizeof out) == (int64_t)sizeof out - 1 && !memcmp(out, big + 1, sizeof big - 1));
	WANT(pcache_fsync(&c, 0) == 0 && pcache_poll_error(&c, 0) == 0);

	/* 41 of 100 blocks are taken, 40 more are, and of the next 40 pages only the first 16 fit */
	WANT(pcache_pwrite(&c, 0, 60 * 4096, big, sizeof big) == (int64_t)sizeof big);
	WANT(pcache_pwrite(&c, 0, 120 * 4096, big, sizeof big) == 16 * 4096);
	WANT(pcache_pwrite(&c, 0, 200 * 4096, big, sizeof big) == PCACHE_NO_SPACE);
	WANT(pcache_pread(&c, 0, 120 * 4096, out, sizeof out) == 16 * 4096 && !memcmp(out, big, 16 * 4096));
	pcache_free(&c);
	printf("bounds: done\n");
}

/* A device that fails: a write, a flush and a read, each told, and nothing lost. */
static void faults(void)
{
	struct pcache c = { 0 };
	uint64_t block;
	uint32_t code;
	int64_t kind;

	make_one(&c, 64, 16, 200, true);
	WANT(pcache_pwrite(&c, 0, 0, "kept", 4) == 4);
	WANT(pcache_fsync(&c, 0) == PCACHE_WAITS);
	WANT(pcache_next(&c, &block, out, 4095) == PCACHE_STRANGER);
	WANT(pcache_next(&c, &block, out, 4096) == PCACHE_WRITE && !memcmp(out, "kept", 4));
	WANT(pcache_end(&c, PCACHE_FLUSH, 0, out, 4096, 0) == PCACHE_STRANGER);
	WANT(pcache_end(&c, PCACHE_WRITE, block + 1, out, 4096, 0) == PCACHE_STRANGER);
	WANT(pcache_end(&c, 9, block, out, 4096, 0) == PCACHE_STRANGER);
	WANT(pcache_end(&c, PCACHE_WRITE, block, out, 4096, ENOSPC) == 0);
	WANT(pcache_fsync(&c, 0) == PCACHE_IO && pcache_io_code(&c, &code) == 0 && code == ENOSPC);
	WANT(pcache_fsync(&c, 0) == PCACHE_WAITS);
	memset(out, 0, 4096);
	WANT(pcache_next(&c, &block, out, 4096) == PCACHE_WRITE && !memcmp(out, "kept", 4));
	WANT(pcache_end(&c, PCACHE_WRITE, block, out, 4096, 0) == 0);
	WANT(pcache_next(&c, &block, out, 4096) == PCACHE_FLUSH);
	WANT(pcache_end(&c, PCACHE_FLUSH, 0, out, 4096, 0) == 0);
	WANT(pcache_fsync(&c, 0) == 0);
	WANT(pcache_next(&c, &block, out, 4096) == PCACHE_NO_JOB);
	WANT(pcache_fsync(&c, 0) == 0);

	/* a read that fails is the call's answer, and the next call asks again */
	for (uint64_t p = 0; p < 100; p++)
		while (pcache_pwrite(&c, 0, p * 4096, "page", 4) == PCACHE_WAITS)
			while ((kind = pcache_next(&c, &block, out, 4096)) > 0)
				WANT(pcache_end(&c, (uint32_t)kind, block, out, 4096, 0) == 0);
	while ((kind = pcache_next(&c, &block, out, 4096)) > 0)
		WANT(pcache_end(&c, (uint32_t)kind, block, out, 4096, 0) == 0);
	WANT(pcache_pread(&c, 0, 0, out, 4) == PCACHE_WAITS && pcache_next(&c, &block, out, 4096) == PCACHE_READ);
	WANT(pcache_end(&c, PCACHE_READ, block, out, 4096, EIO) == 0);
	WANT(pcache_pread(&c, 0, 0, out, 4) == PCACHE_IO && pcache_io_code(&c, &code) == 0 && code == EIO);
	WANT(pcache_pread(&c, 0, 0, out, 4) == PCACHE_WAITS && pcache_next(&c, &block, out, 4096) == PCACHE_READ);
	memset(big, 'z', 4096);
	WANT(pcache_end(&c, PCACHE_READ, block, big, 4096, 0) == 0);
	WANT(pcache_pread(&c, 0, 0, out, 4) == 4 && !memcmp(out, "zzzz", 4));

	/* a read that a call waited for, and a write of the page before the read was made: the block as it was comes back to nobody */
	WANT(pcache_pread(&c, 0, 5 * 4096, out, 4) == PCACHE_WAITS);
	memset(big, 'n', 4096);
	WANT(pcache_pwrite(&c, 0, 5 * 4096, big, 4096) == 4096 && pcache_fsync(&c, 0) == PCACHE_WAITS);
	while ((kind = pcache_next(&c, &block, out, 4096)) > 0) {
		WANT(kind != PCACHE_READ);
		WANT(pcache_end(&c, (uint32_t)kind, block, out, 4096, 0) == 0);
	}
	WANT(pcache_fsync(&c, 0) == 0 && pcache_pread(&c, 0, 5 * 4096, out, 4) == 4 && !memcmp(out, "nnnn", 4));

	/* after a flush that failed none is called a success */
	WANT(pcache_pwrite(&c, 0, 0, "more", 4) == 4 && pcache_fsync(&c, 0) == PCACHE_WAITS);
	while ((kind = pcache_next(&c, &block, out, 4096)) > 0)
		WANT(pcache_end(&c, (uint32_t)kind, block, out, 4096, kind == PCACHE_FLUSH ? EIO : 0) == 0);
	WANT(pcache_fsync(&c, 0) == PCACHE_IO && pcache_io_code(&c, &code) == 0 && code == EIO);
	WANT(pcache_fsync(&c, 0) == PCACHE_IO);
	WANT(pcache_pread(&c, 0, 0, out, 4) == 4 && !memcmp(out, "more", 4));
	pcache_free(&c);
	printf("faults: done\n");
}

static unsigned rnd(unsigned *seed)
{
	*seed = *seed * 1103515245 + 12345;
	return *seed >> 8;
}

enum { FILES = 3, HANDLES = 8, SIZE = 150 * 4096 };

static unsigned char plain[FILES][SIZE];
static size_t sizes[FILES];

/* A random call by a handle of the file, beside its plain copy. */
static void one_call(struct disk *d, uint64_t h, int f, unsigned *seed)
{
	unsigned what = rnd(seed) % 100;
	size_t at = rnd(seed) % SIZE, n = rnd(seed) % (what % 10 ? 5000 : 20 * 4096);

	if (n > SIZE - at)
		n = SIZE - at;
	if (what < 45) {
		for (size_t k = 0; k < n; k++)
			big[k] = (unsigned char)rnd(seed);
		WANT(disk_pwrite(d, h, at, big, n) == (int64_t)n);
		memcpy(plain[f] + at, big, n);
		if (n && at + n > sizes[f])
			sizes[f] = at + n;
	} else if (what < 93) {
		size_t there = at < sizes[f] ? sizes[f] - at : 0;
		WANT(disk_pread(d, h, at, out, n) == (int64_t)(n < there ? n : there));
		WANT(!memcmp(out, plain[f] + at, n < there ? n : there));
	} else if (what < 94) {
		WANT(disk_truncate(d, h, at) == 0);
		if (at < sizes[f])
			memset(plain[f] + at, 0, sizes[f] - at);
		sizes[f] = at;
	} else {
		WANT(what < 99 ? disk_fsync(d, h) == 0 : disk_sync_all(d) == 0);
	}
	WANT(pcache_size(&d->cache, h) == (int64_t)sizes[f]);
}

/* Ends the cache, and begins another over the same file with what the first told of its files. */
static void restart(struct disk *d, const char *path)
{
	static struct pcache_extent extents[1024];
	uint64_t lengths[FILES], wrong;
	size_t count = 0;

	WANT(disk_sync_all(d) == 0);
	for (int f = 0; f < FILES; f++) {
		lengths[f] = sizes[f];
		for (uint64_t from = 0; count < 1024 && pcache_next_extent(&d->cache, (uint64_t)f, from, &extents[count]) == 1; count++)
			from = extents[count].first + (extents[count].bytes + 4095) / 4096;
	}
	disk_free(d);
	WANT(count < 1024 && disk_adopt(d, path, 4096, 64, 24, 600, lengths, FILES, extents, count, &wrong) == 0);
}

/* Random calls by many handles that come and go, beside plain copies of the files. Over a file the cache begins anew now and then. */
static void beside(const char *path, unsigned seed)
{
	const int calls = path ? 4000 : 20000;
	int64_t handles[HANDLES];
	struct disk d;

	memset(plain, 0, sizeof plain);
	memset(sizes, 0, sizeof sizes);
	WANT(disk_make(&d, path, 4096, 64, 24, 600) == 0);
	for (int f = 0; f < FILES; f++)
		WANT(pcache_create(&d.cache) == f);
	for (int k = 0; k < HANDLES; k++)
		handles[k] = pcache_open(&d.cache, (uint64_t)(k % FILES));
	for (int i = 0; i < calls && !failed; i++) {
		int k = (int)(rnd(&seed) % HANDLES);
		one_call(&d, (uint64_t)handles[k], k % FILES, &seed);
		if (i % 50 == 49) {
			WANT(pcache_close(&d.cache, (uint64_t)handles[k]) == 0);
			want_closed(&d.cache, (uint64_t)handles[k]);
			handles[k] = pcache_open(&d.cache, (uint64_t)(k % FILES));
		}
		if (path && i % 200 == 199) {
			restart(&d, path);
			for (int j = 0; j < HANDLES; j++)
				handles[j] = pcache_open(&d.cache, (uint64_t)(j % FILES));
		}
	}
	disk_free(&d);
	printf("beside plain files, over %s: done\n", path ? "a file" : "memory");
}

int main(void)
{
	char path[] = "/tmp/pcache-test-XXXXXX";
	int fd = mkstemp(path);

	caches();
	handles();
	bounds();
	adoptions();
	faults();
	beside(NULL, 1);
	if (fd >= 0) {
		close(fd);
		beside(path, 2);
		unlink(path);
	}
	printf(failed ? "failed\n" : "all well\n");
	return failed;
}
