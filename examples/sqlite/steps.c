/*
 * A database that is there already: each step is a transaction on it, by SQLite's own files or over a cache that adopts the file.
 *
 *     steps unix FILE STEP..           by the unix VFS; step 0 makes the database
 *     steps FRAMES FILE STEP..         over a cache of so many frames
 *
 * Prints what the database holds at the end.
 */
#define _GNU_SOURCE
#include "vfs.h"

#include <sqlite3.h>
#include <stdio.h>
#include <stdlib.h>
#include <string.h>

static int failed;

/* Prints a row. */
static int print(void *nothing, int columns, char **values, char **titles)
{
	(void)nothing;
	(void)titles;
	for (int i = 0; i < columns; i++)
		printf("%s%s", values[i] ? values[i] : "NULL", i + 1 < columns ? " " : "\n");
	return 0;
}

static void run(sqlite3 *db, const char *sql)
{
	char *why = NULL;

	if (sqlite3_exec(db, sql, print, NULL, &why) != SQLITE_OK) {
		printf("FAILED: %s: %.60s\n", why ? why : "no memory", sql);
		sqlite3_free(why);
		failed = 1;
	}
}

static void insert(sqlite3 *db, int rows, int step)
{
	char sql[256];

	snprintf(sql, sizeof sql,
		 "WITH RECURSIVE n(i) AS (SELECT 1 UNION ALL SELECT i + 1 FROM n WHERE i < %d) "
		 "INSERT INTO t(b, c) SELECT hex(i * 7919 + %d), zeroblob((i * %d) %% 700) FROM n;", rows, step, step + 3);
	run(db, sql);
}

static void one_step(sqlite3 *db, int step)
{
	if (step == 0)
		run(db, "CREATE TABLE t(a INTEGER PRIMARY KEY, b TEXT, c BLOB); CREATE INDEX tb ON t(b);");
	run(db, "BEGIN;");
	insert(db, step ? 400 : 3000, step);
	if (step % 2)
		run(db, "UPDATE t SET b = b || 'y' WHERE a % 5 = 0;");
	if (step % 3 == 2)
		run(db, "DELETE FROM t WHERE a % 4 = 1;");
	run(db, step % 4 == 3 ? "ROLLBACK;" : "COMMIT;");
	if (step % 5 == 4)
		run(db, "VACUUM;");
}

int main(int count, char **words)
{
	sqlite3 *db = NULL;

	if (count < 3)
		return 2;
	const char *file = words[2];
	const int is_cached = strcmp(words[1], "unix") != 0;
	const uint64_t frames = strtoull(words[1], NULL, 10);
	if (is_cached && (vfs_adopt(file, frames) != SQLITE_OK || vfs_register(NULL, frames) != SQLITE_OK))
		return 2;
	if (sqlite3_open_v2(file, &db, SQLITE_OPEN_READWRITE | SQLITE_OPEN_CREATE, is_cached ? "pcache" : "unix") != SQLITE_OK)
		return 2;
	run(db, "PRAGMA synchronous = FULL; PRAGMA cache_size = 20;");
	for (int i = 3; i < count; i++)
		one_step(db, atoi(words[i]));
	run(db, "SELECT count(*), sum(length(b)), sum(length(c)), sum(a) FROM t; PRAGMA integrity_check;");
	sqlite3_close(db);
	return (is_cached && vfs_release() != SQLITE_OK) || failed;
}
