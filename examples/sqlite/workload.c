/*
 * SQLite over the cache, beside SQLite's own unix VFS: 20 x 1,000 rows with rollbacks, UPDATE, DELETE, VACUUM and small updates, in four
 * journal modes. Each database is checked, and has to hold what it holds by the unix VFS.
 *
 *     workload FRAMES [PATH]     over one cache, over the file at the path, or over memory where none is named
 *     workload unix FOLDER       the times of the unix VFS in this folder
 */
#define _GNU_SOURCE
#include "vfs.h"

#include <sqlite3.h>
#include <stdio.h>
#include <stdlib.h>
#include <string.h>
#include <time.h>
#include <unistd.h>

static const char *const modes[] = { "DELETE", "TRUNCATE", "MEMORY", "WAL" };
static int failed;

static double now(void)
{
	struct timespec t;

	clock_gettime(CLOCK_MONOTONIC, &t);
	return (double)t.tv_sec + (double)t.tv_nsec * 1e-9;
}

/* Puts the row behind what the answer has. */
static int add_row(void *answer, int columns, char **values, char **titles)
{
	char *text = answer;

	(void)titles;
	for (int i = 0; i < columns; i++) {
		size_t n = strlen(text);
		snprintf(text + n, 256 - n, "%s%s", n ? " " : "", values[i] ? values[i] : "NULL");
	}
	return 0;
}

static void run(sqlite3 *db, const char *sql, char *answer)
{
	char ignored[256] = "", *why = NULL;

	if (sqlite3_exec(db, sql, add_row, answer ? answer : ignored, &why) != SQLITE_OK) {
		printf("FAILED: %s: %.60s\n", why ? why : "no memory", sql);
		sqlite3_free(why);
		failed = 1;
	}
}

static void fill(sqlite3 *db)
{
	char sql[256];

	run(db, "CREATE TABLE t(a INTEGER PRIMARY KEY, b TEXT, c BLOB); CREATE INDEX tb ON t(b);", NULL);
	for (int k = 0; k < 20; k++) {
		run(db, "BEGIN", NULL);
		snprintf(sql, sizeof sql, "WITH RECURSIVE n(i) AS (SELECT 1 UNION ALL SELECT i + 1 FROM n WHERE i < 1000) INSERT INTO t(b, c) SELECT hex(i * 7919 + %d), zeroblob(i %% 300) FROM n;", k);
		run(db, sql, NULL);
		run(db, k % 5 == 4 ? "ROLLBACK" : "COMMIT", NULL);
	}
	run(db, "UPDATE t SET b = b || 'x' WHERE a % 3 = 0; DELETE FROM t WHERE a % 7 = 0; VACUUM;", NULL);
	for (int k = 0; k < 200; k++) {
		snprintf(sql, sizeof sql, "UPDATE t SET c = zeroblob(%d) WHERE a = %d;", k * 20, k * 13 + 1);
		run(db, sql, NULL);
	}
}

static sqlite3 *open_database(const char *vfs, const char *path, const char *mode)
{
	sqlite3 *db = NULL;
	char sql[160];

	if (sqlite3_open_v2(path, &db, SQLITE_OPEN_READWRITE | SQLITE_OPEN_CREATE, vfs) != SQLITE_OK) {
		printf("FAILED: %s: %s\n", path, sqlite3_errmsg(db));
		failed = 1;
	}
	snprintf(sql, sizeof sql, "PRAGMA locking_mode = EXCLUSIVE; PRAGMA journal_mode = %s; PRAGMA synchronous = FULL; PRAGMA cache_size = 20;", mode);
	run(db, sql, NULL);
	return db;
}

/* Runs it in one journal mode, opens the database again, and puts what it holds into `answer`. */
static void work(const char *vfs, const char *folder, const char *mode, char *answer)
{
	char path[512];

	snprintf(path, sizeof path, "%s/%s.db", folder, mode);
	sqlite3 *db = open_database(vfs, path, mode);
	double began = now();
	fill(db);
	sqlite3_close(db);
	double seconds = now() - began;
	db = open_database(vfs, path, mode);
	run(db, "SELECT count(*), sum(length(b)), sum(length(c)), sum(a) FROM t; PRAGMA integrity_check;", answer);
	sqlite3_close(db);
	printf("%-9s %6.3f s   %s\n", mode, seconds, answer);
	if (!strstr(answer, " ok"))
		failed = 1;
}

static void work_all(const char *vfs, const char *folder)
{
	char answers[4][256];

	for (int i = 0; i < 4; i++) {
		answers[i][0] = 0;
		work(vfs, folder, modes[i], answers[i]);
		if (strcmp(answers[i], answers[0])) {
			printf("FAILED: %s and %s differ\n", modes[i], modes[0]);
			failed = 1;
		}
	}
}

int main(int count, char **words)
{
	if (count == 3 && !strcmp(words[1], "unix")) {
		work_all("unix", words[2]);
		return failed;
	}
	if (count != 2 && count != 3)
		return 2;
	if (vfs_register(count == 3 ? words[2] : NULL, strtoull(words[1], NULL, 10)) != SQLITE_OK)
		return 2;
	work_all("pcache", "");
	return vfs_release() != SQLITE_OK || failed;
}
