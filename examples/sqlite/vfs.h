/* An SQLite VFS over the cache: each file of SQLite's is a file of a cache. */
#ifndef VFS_H
#define VFS_H

#include "disk.h"

/* Registers the VFS `pcache`. Its files stand in one cache of so many frames, over the file at the path, or over memory where there is
 * none. One process, one thread, one connection to a database. Answers an SQLite code. */
int vfs_register(const char *path, uint64_t frames);

/* The file that is at the path already is the VFS's file of that name, in a cache of its own: page p of it stands on block p. At most one,
 * and before any other. */
int vfs_adopt(const char *path, uint64_t frames);

/* Frees all files, once SQLite has closed its databases. An adopted file is on the disk first, with its size and its bytes in place. */
int vfs_release(void);

#endif
