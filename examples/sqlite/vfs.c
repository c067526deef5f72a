#define _GNU_SOURCE
#include "vfs.h"

#include <sqlite3.h>
#include <stdio.h>
#include <string.h>
#include <sys/stat.h>
#include <unistd.h>

/* A name, and the file of a cache that it has. A name that is taken anew has its old file, without bytes. */
struct name {
	char text[512];
	struct disk *disk;
	int64_t file; /* below 0: none yet */
	int users;
	int is_taken, is_deleted;
};

/* An open file: a handle of its name's cache. */
struct file {
	sqlite3_file base;
	struct name *name;
	uint64_t handle;
};

enum { PAGE = 4096, BLOCKS = 16384, NAMES = 32 };

static struct disk of_all, of_adopted;
static struct name names[NAMES];
static sqlite3_vfs *unix_vfs;

static int result_of(int64_t done, int otherwise)
{
	if (done >= 0)
		return SQLITE_OK;
	if (done == PCACHE_NO_SPACE || done == PCACHE_TOO_LARGE)
		return SQLITE_FULL;
	return done == PCACHE_NO_MEMORY ? SQLITE_IOERR_NOMEM : otherwise;
}

static struct name *find(const char *text)
{
	for (size_t i = 0; i < NAMES; i++)
		if (names[i].is_taken && !names[i].is_deleted && !strcmp(names[i].text, text))
			return &names[i];
	return NULL;
}

/* Takes a free name, with a file without bytes. */
static int take(const char *text, struct name **out)
{
	struct name *n = names;

	while (n < names + NAMES && n->is_taken)
		n++;
	if (n == names + NAMES || strlen(text) >= sizeof n->text)
		return SQLITE_CANTOPEN;
	if (!n->disk) {
		int64_t file = pcache_create(&of_all.cache);
		if (file < 0)
			return result_of(file, SQLITE_CANTOPEN);
		n->disk = &of_all;
		n->file = file;
	}
	strcpy(n->text, text);
	n->is_taken = 1;
	n->is_deleted = n->users = 0;
	*out = n;
	return SQLITE_OK;
}

/* Gives a name back. Its file loses its bytes. */
static int release(struct name *n)
{
	int64_t handle = pcache_open(&n->disk->cache, (uint64_t)n->file), cut = handle;

	if (handle >= 0) {
		cut = disk_truncate(n->disk, (uint64_t)handle, 0);
		pcache_close(&n->disk->cache, (uint64_t)handle);
	}
	n->is_taken = 0;
	return result_of(cut, SQLITE_IOERR_DELETE);
}

static struct file *of(sqlite3_file *f)
{
	return (struct file *)f;
}

static struct disk *disk_of(sqlite3_file *f)
{
	return of(f)->name->disk;
}

static int x_close(sqlite3_file *f)
{
	struct name *n = of(f)->name;

	pcache_close(&n->disk->cache, of(f)->handle);
	return --n->users == 0 && n->is_deleted ? release(n) : SQLITE_OK;
}

static int x_read(sqlite3_file *f, void *out, int length, sqlite3_int64 at)
{
	int64_t n = disk_pread(disk_of(f), of(f)->handle, (uint64_t)at, out, (size_t)length);

	if (n < 0)
		return result_of(n, SQLITE_IOERR_READ);
	if (n == length)
		return SQLITE_OK;
	memset((char *)out + n, 0, (size_t)(length - n));
	return SQLITE_IOERR_SHORT_READ;
}

/* Writes the zeros of a gap first, so that each new page gets the lowest free block: of an adopted file page p stands on block p. */
static int64_t fill_gap(sqlite3_file *f, uint64_t end)
{
	static const unsigned char zeros[PAGE];
	int64_t size = pcache_size(&disk_of(f)->cache, of(f)->handle);

	while (size >= 0 && (uint64_t)size < end) {
		size_t n = PAGE - (size_t)size % PAGE;
		if (n > end - (uint64_t)size)
			n = (size_t)(end - (uint64_t)size);
		int64_t wrote = disk_pwrite(disk_of(f), of(f)->handle, (uint64_t)size, zeros, n);
		if (wrote < 0)
			return wrote;
		size += wrote;
	}
	return size;
}

static int x_write(sqlite3_file *f, const void *bytes, int length, sqlite3_int64 at)
{
	int64_t done = fill_gap(f, (uint64_t)at);

	if (done >= 0)
		done = disk_pwrite(disk_of(f), of(f)->handle, (uint64_t)at, bytes, (size_t)length);
	return result_of(done, SQLITE_IOERR_WRITE);
}

static int x_truncate(sqlite3_file *f, sqlite3_int64 size)
{
	return result_of(disk_truncate(disk_of(f), of(f)->handle, (uint64_t)size), SQLITE_IOERR_TRUNCATE);
}

static int x_sync(sqlite3_file *f, int flags)
{
	(void)flags;
	return result_of(disk_fsync(disk_of(f), of(f)->handle), SQLITE_IOERR_FSYNC);
}

static int x_file_size(sqlite3_file *f, sqlite3_int64 *size)
{
	*size = pcache_size(&disk_of(f)->cache, of(f)->handle);
	return result_of(*size, SQLITE_IOERR_FSTAT);
}

/* There is one process, and one connection to a file. */
static int x_lock(sqlite3_file *f, int level)
{
	(void)f;
	(void)level;
	return SQLITE_OK;
}

static int x_check(sqlite3_file *f, int *reserved)
{
	(void)f;
	*reserved = 0;
	return SQLITE_OK;
}

static int x_control(sqlite3_file *f, int op, void *arg)
{
	(void)f;
	(void)op;
	(void)arg;
	return SQLITE_NOTFOUND;
}

static int x_sector_size(sqlite3_file *f)
{
	(void)f;
	return PAGE;
}

static int x_traits(sqlite3_file *f)
{
	(void)f;
	return 0;
}

static const sqlite3_io_methods methods = {
	.iVersion = 1,
	.xClose = x_close,
	.xRead = x_read,
	.xWrite = x_write,
	.xTruncate = x_truncate,
	.xSync = x_sync,
	.xFileSize = x_file_size,
	.xLock = x_lock,
	.xUnlock = x_lock,
	.xCheckReservedLock = x_check,
	.xFileControl = x_control,
	.xSectorSize = x_sector_size,
	.xDeviceCharacteristics = x_traits,
};

static int x_open(sqlite3_vfs *vfs, const char *text, sqlite3_file *f, int flags, int *out)
{
	static int temporary;
	char other[32];

	(void)vfs;
	f->pMethods = NULL;
	if (!text) {
		snprintf(other, sizeof other, "*temporary %d", temporary++);
		text = other;
	}
	struct name *n = find(text);
	if (!n) {
		int rc = flags & SQLITE_OPEN_CREATE ? take(text, &n) : SQLITE_CANTOPEN;
		if (rc != SQLITE_OK)
			return rc;
	}
	int64_t handle = pcache_open(&n->disk->cache, (uint64_t)n->file);
	if (handle < 0)
		return result_of(handle, SQLITE_CANTOPEN);
	n->users++;
	if (flags & SQLITE_OPEN_DELETEONCLOSE)
		n->is_deleted = 1;
	of(f)->name = n;
	of(f)->handle = (uint64_t)handle;
	f->pMethods = &methods;
	if (out)
		*out = flags;
	return SQLITE_OK;
}

static int x_delete(sqlite3_vfs *vfs, const char *text, int durable)
{
	struct name *n = find(text);

	(void)vfs;
	(void)durable;
	if (!n)
		return SQLITE_IOERR_DELETE_NOENT;
	n->is_deleted = 1;
	return n->users == 0 ? release(n) : SQLITE_OK;
}

static int x_access(sqlite3_vfs *vfs, const char *text, int flags, int *out)
{
	(void)vfs;
	(void)flags;
	*out = find(text) != NULL;
	return SQLITE_OK;
}

static int x_full_name(sqlite3_vfs *vfs, const char *text, int length, char *out)
{
	(void)vfs;
	sqlite3_snprintf(length, out, "%s", text);
	return SQLITE_OK;
}

static int x_randomness(sqlite3_vfs *vfs, int length, char *out)
{
	(void)vfs;
	return unix_vfs->xRandomness(unix_vfs, length, out);
}

static int x_sleep(sqlite3_vfs *vfs, int micros)
{
	(void)vfs;
	return unix_vfs->xSleep(unix_vfs, micros);
}

static int x_time(sqlite3_vfs *vfs, double *now)
{
	(void)vfs;
	return unix_vfs->xCurrentTime(unix_vfs, now);
}

static int x_last_error(sqlite3_vfs *vfs, int length, char *out)
{
	(void)vfs;
	(void)length;
	(void)out;
	return 0;
}

static sqlite3_vfs vfs = {
	.iVersion = 1,
	.szOsFile = sizeof(struct file),
	.mxPathname = 512,
	.zName = "pcache",
	.xOpen = x_open,
	.xDelete = x_delete,
	.xAccess = x_access,
	.xFullPathname = x_full_name,
	.xRandomness = x_randomness,
	.xSleep = x_sleep,
	.xCurrentTime = x_time,
	.xGetLastError = x_last_error,
};

int vfs_register(const char *path, uint64_t frames)
{
	unix_vfs = sqlite3_vfs_find("unix");
	if (disk_make(&of_all, path, PAGE, frames, frames / 2, BLOCKS) < 0)
		return SQLITE_CANTOPEN;
	return sqlite3_vfs_register(&vfs, 0);
}

int vfs_adopt(const char *path, uint64_t frames)
{
	struct name *n = names;
	struct stat now;
	uint64_t wrong;

	if (stat(path, &now) || n->is_taken || strlen(path) >= sizeof n->text)
		return SQLITE_CANTOPEN;
	const uint64_t size = (uint64_t)now.st_size;
	const struct pcache_extent whole = { .bytes = size };
	int64_t made = disk_adopt(&of_adopted, path, PAGE, frames, frames / 2, BLOCKS, &size, 1, &whole, size > 0, &wrong);
	if (made < 0)
		return result_of(made, SQLITE_CANTOPEN);
	*n = (struct name){ .disk = &of_adopted, .is_taken = 1 };
	strcpy(n->text, path);
	return SQLITE_OK;
}

/* Has all of the adopted file in its place, and cuts off what stands behind it. */
static int settle(struct disk *d)
{
	struct pcache_extent extent = { .bytes = 0 };
	int64_t handle = pcache_open(&d->cache, 0), size = pcache_size(&d->cache, (uint64_t)handle);

	if (size < 0 || disk_sync_all(d) < 0 || pcache_next_extent(&d->cache, 0, 0, &extent) < 0)
		return SQLITE_IOERR;
	if (extent.first || extent.block || extent.bytes != (uint64_t)size)
		return SQLITE_CORRUPT;
	return ftruncate(d->fd, size) || fsync(d->fd) ? SQLITE_IOERR : SQLITE_OK;
}

int vfs_release(void)
{
	int rc = of_adopted.cache.full ? settle(&of_adopted) : SQLITE_OK;

	disk_free(&of_adopted);
	disk_free(&of_all);
	memset(names, 0, sizeof names);
	return rc;
}
