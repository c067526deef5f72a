/*
 * An nbdkit plugin: a file that is there already, served as a network block device through the cache. Page p of it is block p.
 *
 *     nbdkit ./nbdkit-pcache-plugin.so file=PATH [frames=1024]
 *
 * A cache stays on the thread that made it, and nbdkit's callbacks may come on any. So a thread of the plugin's own has the cache, and
 * each callback hands its request to that thread.
 */
#define _GNU_SOURCE
#define NBDKIT_API_VERSION 2
#include "disk.h"

#include <nbdkit-plugin.h>

#include <errno.h>
#include <pthread.h>
#include <stdlib.h>
#include <string.h>
#include <sys/stat.h>
#include <unistd.h>

#define THREAD_MODEL NBDKIT_THREAD_MODEL_SERIALIZE_ALL_REQUESTS

enum { PAGE = 4096 };

enum work { NOTHING, READ, WRITE, FLUSH, END };

/* The request that the cache's thread works on. */
struct request {
	enum work work;
	void *bytes;
	uint32_t count;
	uint64_t offset;
	int error; /* how it ended: an errno, or 0 */
};

static char *path;
static uint64_t frames = 1024, size;
static pthread_t thread;
static pthread_mutex_t lock = PTHREAD_MUTEX_INITIALIZER;
static pthread_cond_t changed = PTHREAD_COND_INITIALIZER;
static struct request request;
static bool is_running;

static int error_of(struct disk *d, int64_t done)
{
	uint32_t code = 0;

	if (done >= 0)
		return 0;
	if (done == PCACHE_NO_SPACE)
		return ENOSPC;
	if (done == PCACHE_NO_MEMORY)
		return ENOMEM;
	pcache_io_code(&d->cache, &code);
	return done == PCACHE_IO && code ? (int)code : EIO;
}

static int64_t make_cache(struct disk *d)
{
	const struct pcache_extent whole = { .bytes = size };
	const uint64_t blocks = size / PAGE + 1;
	uint64_t wrong;
	int64_t made = disk_adopt(d, path, PAGE, frames, frames / 2, blocks, &size, 1, &whole, size > 0, &wrong);

	return made < 0 ? made : pcache_open(&d->cache, 0);
}

/* Has all in the file, whose last block is cut to its size again. */
static int64_t end(struct disk *d)
{
	int64_t done = disk_sync_all(d);

	return done < 0 ? done : ftruncate(d->fd, (off_t)size) ? PCACHE_IO : 0;
}

static int64_t work_on(struct disk *d, uint64_t handle, const struct request *r)
{
	switch (r->work) {
	case READ: return disk_pread(d, handle, r->offset, r->bytes, r->count);
	case WRITE: return disk_pwrite(d, handle, r->offset, r->bytes, r->count);
	case FLUSH: return disk_fsync(d, handle);
	default: return end(d);
	}
}

/* The cache's thread: it makes the cache, and works on one request after the other up to the end. */
static void *serve(void *nothing)
{
	struct disk d;
	int64_t handle = make_cache(&d);
	bool ends = handle < 0;

	(void)nothing;
	pthread_mutex_lock(&lock);
	request.error = ends ? EIO : 0;
	is_running = !ends;
	request.work = NOTHING;
	pthread_cond_broadcast(&changed);
	while (!ends) {
		while (request.work == NOTHING)
			pthread_cond_wait(&changed, &lock);
		ends = request.work == END;
		request.error = error_of(&d, work_on(&d, (uint64_t)handle, &request));
		request.work = NOTHING;
		pthread_cond_broadcast(&changed);
	}
	pthread_mutex_unlock(&lock);
	if (handle >= 0)
		disk_free(&d);
	return NULL;
}

/* Has the cache's thread work on it, and waits for the end. */
static int ask(enum work work, void *bytes, uint32_t count, uint64_t offset)
{
	pthread_mutex_lock(&lock);
	request = (struct request){ .work = work, .bytes = bytes, .count = count, .offset = offset };
	pthread_cond_broadcast(&changed);
	while (request.work != NOTHING)
		pthread_cond_wait(&changed, &lock);
	int error = request.error;
	pthread_mutex_unlock(&lock);
	if (!error)
		return 0;
	nbdkit_error("%s: %s", path, strerror(error));
	nbdkit_set_error(error);
	return -1;
}

static int p_config(const char *key, const char *value)
{
	if (!strcmp(key, "file")) {
		path = nbdkit_realpath(value);
		return path ? 0 : -1;
	}
	if (!strcmp(key, "frames"))
		return nbdkit_parse_uint64_t("frames", value, &frames);
	nbdkit_error("unknown parameter: %s", key);
	return -1;
}

static int p_config_complete(void)
{
	struct stat now;

	if (!path || stat(path, &now) || !S_ISREG(now.st_mode)) {
		nbdkit_error("file=PATH has to name a regular file");
		return -1;
	}
	size = (uint64_t)now.st_size;
	return 0;
}

/* The server is in the background by now, if it goes there. */
static int p_after_fork(void)
{
	request.work = READ;
	if (pthread_create(&thread, NULL, serve, NULL)) {
		nbdkit_error("no thread for the cache");
		return -1;
	}
	pthread_mutex_lock(&lock);
	while (request.work != NOTHING)
		pthread_cond_wait(&changed, &lock);
	pthread_mutex_unlock(&lock);
	if (!is_running) {
		pthread_join(thread, NULL);
		nbdkit_error("no cache over %s", path);
		return -1;
	}
	return 0;
}

static void p_cleanup(void)
{
	if (!is_running)
		return;
	ask(END, NULL, 0, 0);
	pthread_join(thread, NULL);
	is_running = false;
}

static void p_unload(void)
{
	free(path);
}

static void *p_open(int readonly)
{
	(void)readonly;
	return NBDKIT_HANDLE_NOT_NEEDED;
}

static int64_t p_get_size(void *handle)
{
	(void)handle;
	return (int64_t)size;
}

static int p_can_multi_conn(void *handle)
{
	(void)handle;
	return 1;
}

static int p_pread(void *handle, void *bytes, uint32_t count, uint64_t offset, uint32_t flags)
{
	(void)handle;
	(void)flags;
	return ask(READ, bytes, count, offset);
}

static int p_pwrite(void *handle, const void *bytes, uint32_t count, uint64_t offset, uint32_t flags)
{
	(void)handle;
	(void)flags;
	return ask(WRITE, (void *)bytes, count, offset);
}

static int p_flush(void *handle, uint32_t flags)
{
	(void)handle;
	(void)flags;
	return ask(FLUSH, NULL, 0, 0);
}

static struct nbdkit_plugin plugin = {
	.name = "pcache",
	.description = "a file through a page cache",
	.unload = p_unload,
	.config = p_config,
	.config_complete = p_config_complete,
	.config_help = "file=PATH    the file to serve\nframes=N     pages of 4,096 bytes in the cache: 1,024",
	.magic_config_key = "file",
	.after_fork = p_after_fork,
	.cleanup = p_cleanup,
	.open = p_open,
	.get_size = p_get_size,
	.can_multi_conn = p_can_multi_conn,
	.pread = p_pread,
	.pwrite = p_pwrite,
	.flush = p_flush,
};

NBDKIT_REGISTER_PLUGIN(plugin)
