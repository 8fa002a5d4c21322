/* Times youthgoat_crc_a against libnfc's iso14443a_crc, in one run. */
#define _POSIX_C_SOURCE 200809L

#include "youthgoat.h"

#include <nfc/nfc.h>
#include <stdio.h>
#include <stdlib.h>
#include <time.h>

enum { ROUNDS = 21, MEGABYTE = 1048576 };

/* The sum of all results: printed, so that no call can be left out. */
static uint64_t used;

static double now(void)
{
    struct timespec t;
    clock_gettime(CLOCK_MONOTONIC, &t);
    return (double)t.tv_sec * 1e9 + (double)t.tv_nsec;
}

/* Nanoseconds for all runs of the buffer, passes times; the results' sum goes to sum. */
static double time_ours(uint8_t *bytes, size_t run, size_t runs, unsigned passes, uint64_t *sum)
{
    uint64_t total = 0;
    double start = now();
    for (unsigned p = 0; p < passes; p++)
        for (size_t i = 0; i < runs; i++)
            total = total * 31 + youthgoat_crc_a(bytes + i * run, run);
    double end = now();
    *sum = total;
    return end - start;
}

static double time_libnfc(uint8_t *bytes, size_t run, size_t runs, unsigned passes, uint64_t *sum)
{
    uint64_t total = 0;
    double start = now();
    for (unsigned p = 0; p < passes; p++)
        for (size_t i = 0; i < runs; i++) {
            uint8_t sent[2];
            iso14443a_crc(bytes + i * run, run, sent);
            total = total * 31 + (unsigned)(sent[0] | sent[1] << 8);
        }
    double end = now();
    *sum = total;
    return end - start;
}

static int rising(const void *a, const void *b)
{
    double x = *(const double *)a, y = *(const double *)b;
    return (x > y) - (x < y);
}

static void line(const char *name, double best, double median, size_t run)
{
    /* Bytes per nanosecond times 1e9 are bytes per second. */
    printf("  %-16s best %12.1f ns per run, %8.1f MB/s;  median %12.1f ns per run, %8.1f MB/s\n",
           name, best, (double)run / best * 1e9 / MEGABYTE, median, (double)run / median * 1e9 / MEGABYTE);
}

/* Each run's results are compared one by one first, and the sums of all timed ones after each round. */
static void compare(uint8_t *bytes, size_t run, size_t runs, unsigned passes)
{
    for (size_t i = 0; i < runs; i++) {
        uint8_t sent[2];
        iso14443a_crc(bytes + i * run, run, sent);
        uint16_t got = youthgoat_crc_a(bytes + i * run, run);
        if ((got & 0xFF) != sent[0] || got >> 8 != sent[1]) {
            printf("results differ at run %zu of %zu bytes\n", i, run);
            exit(1);
        }
    }
    double ours[ROUNDS], theirs[ROUNDS];
    for (int r = 0; r < ROUNDS; r++) {
        uint64_t our_sum, their_sum;
        /* Each goes first in every other round. */
        if (r % 2 == 0) {
            ours[r] = time_ours(bytes, run, runs, passes, &our_sum);
            theirs[r] = time_libnfc(bytes, run, runs, passes, &their_sum);
        } else {
            theirs[r] = time_libnfc(bytes, run, runs, passes, &their_sum);
            ours[r] = time_ours(bytes, run, runs, passes, &our_sum);
        }
        if (our_sum != their_sum) {
            printf("sums of results differ in round %d of %zu-byte runs\n", r, run);
            exit(1);
        }
        used += our_sum;
    }
    qsort(ours, ROUNDS, sizeof ours[0], rising);
    qsort(theirs, ROUNDS, sizeof theirs[0], rising);
    double count = (double)runs * passes;
    printf("%zu-byte runs: %zu in the buffer, %u passes over it in each of %d rounds\n", run, runs, passes, ROUNDS);
    line("youthgoat_crc_a", ours[0] / count, ours[ROUNDS / 2] / count, run);
    line("iso14443a_crc", theirs[0] / count, theirs[ROUNDS / 2] / count, run);
    printf("  iso14443a_crc takes %.2f times as long as youthgoat_crc_a at best, %.2f at the median\n",
           theirs[0] / ours[0], theirs[ROUNDS / 2] / ours[ROUNDS / 2]);
}

int main(void)
{
    uint8_t *bytes = malloc(MEGABYTE);
    if (bytes == NULL) {
        fprintf(stderr, "bench: no memory\n");
        return 2;
    }
    uint64_t state = UINT64_C(0x2545F4914F6CDD1D);
    for (size_t i = 0; i < MEGABYTE; i++) {
        state ^= state << 13;
        state ^= state >> 7;
        state ^= state << 17;
        bytes[i] = (uint8_t)(state >> 56);
    }
    printf("the buffer was filled once, with random bytes, before any timing; 1 MB is %d bytes\n", MEGABYTE);
    compare(bytes, 64, 512, 300);
    compare(bytes, MEGABYTE, 1, 8);
    printf("all results equal; sum of the results used: %016llX\n", (unsigned long long)used);
    free(bytes);
    return 0;
}
