/*
 * The library's runner in second/race: reads a graph and a marking as they lie in memory, and looks for an end with the
 * largest store, once and then RUNS times more. Prints the number, the verdict, the fewest entries, the markings looked
 * at and found, and the nanoseconds of the first search and of the others' median.
 */
#include <stdio.h>
#include <stdlib.h>
#include <string.h>
#include <time.h>
#include "ulzhartep.h"

enum { BYTES = ULZ_STORE_MOST * ULZ_MARKING_BYTES };

static ulz_graph graph;
static ulz_marking marking;
static uint8_t stores[2][BYTES];

static long now(void) {
    struct timespec at;
    clock_gettime(CLOCK_MONOTONIC, &at);
    return at.tv_sec * 1000000000L + at.tv_nsec;
}

static long searched(void) {
    long start = now();
    ulz_can_end(&graph, marking, stores[0], BYTES);
    return now() - start;
}

/* Where nothing was found, two stores that differed before still do. */
static unsigned found(void) {
    unsigned places = 0;
    for (int i = 0; i < 2; i++) {
        memset(stores[i], -i, BYTES);
        ulz_can_end(&graph, marking, stores[i], BYTES);
    }
    while (places < ULZ_STORE_MOST && stores[0][ULZ_MARKING_BYTES * places] == stores[1][ULZ_MARKING_BYTES * places])
        places++;
    return places;
}

static int by_size(const void *a, const void *b) {
    long x = *(const long *)a, y = *(const long *)b;
    return (x > y) - (x < y);
}

int main(int count, char **words) {
    FILE *file = count == 3 ? fopen(words[1], "rb") : NULL;
    int runs = file ? atoi(words[2]) : 0;
    if (runs < 1 || fread(&graph, sizeof graph, 1, file) != 1 || fread(&marking, sizeof marking, 1, file) != 1) {
        fputs("race: use: race FILE RUNS\n", stderr);
        return 2;
    }
    long first = searched();
    long *times = calloc(runs, sizeof *times);
    for (int i = 0; i < runs; i++)
        times[i] = searched();
    qsort(times, runs, sizeof *times, by_size);
    ulz_ends ends = ulz_can_end(&graph, marking, stores[0], BYTES);
    printf("%d %d %d %d ", (int)ends.number, (int)ends.verdict, (int)ends.fewest, (int)ends.looked);
    printf("%u %ld %ld\n", found(), first, times[runs / 2]);
    return 0;
}
