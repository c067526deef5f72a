/* Nanoseconds of a call through the library, beside a plain copy of as many bytes: the fastest of 40 rounds of 100,000 calls on a cached
 * file of 64 MiB in memory. Places and rounds are those of `bench time`, so its rows compare with these where both run in one hour. */
#define _GNU_SOURCE
#include "disk.h"

#include <stdio.h>
#include <stdlib.h>
#include <string.h>
#include <time.h>

enum { PAGE = 4096, PAGES = 16384, ENTRIES = 1000000, CALLS = 100000, ROUNDS = 40 };

static const size_t FILE_SIZE = (size_t)PAGE * PAGES;

enum what { READ, COPY_OUT, WRITE, COPY_IN };

static const char *const names[] = { "pread", "copy", "pwrite", "copy in" };

static unsigned char *plain, bytes[PAGE];
static uint32_t order[ENTRIES];
static size_t places[CALLS];

static double now(void)
{
	struct timespec t;

	clock_gettime(CLOCK_MONOTONIC, &t);
	return (double)t.tv_sec * 1e9 + (double)t.tv_nsec;
}

/* Fisher and Yates, by Marsaglia's xorshift. */
static void shuffle(void)
{
	uint64_t seed = 88172645463325252u;

	for (uint32_t i = 0; i < ENTRIES; i++)
		order[i] = i;
	for (uint64_t last = ENTRIES - 1; last > 0; last--) {
		seed ^= seed << 13;
		seed ^= seed >> 7;
		seed ^= seed << 17;
		uint64_t chosen = seed % (last + 1);
		uint32_t held = order[last];
		order[last] = order[chosen];
		order[chosen] = held;
	}
}

static int64_t call(struct disk *d, enum what what, size_t place, size_t length)
{
	switch (what) {
	case READ:
		return pcache_pread(&d->cache, 0, place, bytes, length);
	case WRITE:
		return pcache_pwrite(&d->cache, 0, place, bytes, length);
	case COPY_OUT:
		memcpy(bytes, plain + place, length);
		break;
	case COPY_IN:
		memcpy(plain + place, bytes, length);
		break;
	}
	__asm__ volatile("" : : "r"(bytes), "r"(plain) : "memory");
	return (int64_t)length;
}

static double time_round(struct disk *d, enum what what, size_t length)
{
	double began = now();

	for (int i = 0; i < CALLS; i++)
		if (call(d, what, places[i], length) != (int64_t)length)
			exit(1);
	return (now() - began) / CALLS;
}

static void time_row(struct disk *d, enum what what, size_t length)
{
	double best = 1e18;

	for (int i = 0; i < CALLS; i++)
		places[i] = order[i] * length % FILE_SIZE;
	for (int i = 0; i < ROUNDS; i++) {
		double t = time_round(d, what, length);
		best = t < best ? t : best;
	}
	printf("%.2f ns  %s of %zu bytes, cached, random, through the library\n", best, names[what], length);
}

int main(void)
{
	struct disk d;

	plain = malloc(FILE_SIZE);
	if (!plain || disk_make(&d, NULL, PAGE, PAGES + 64, PAGES + 32, 2 * PAGES) < 0)
		return 1;
	memset(plain, 7, FILE_SIZE);
	if (pcache_create(&d.cache) != 0 || pcache_open(&d.cache, 0) != 0 || disk_pwrite(&d, 0, 0, plain, FILE_SIZE) < 0 ||
	    disk_fsync(&d, 0) < 0)
		return 1;
	shuffle();
	for (enum what what = READ; what <= COPY_IN; what++) {
		time_row(&d, what, 64);
		time_row(&d, what, PAGE);
	}
	disk_free(&d);
	free(plain);
	return 0;
}
