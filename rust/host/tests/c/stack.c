/* Measures the stack of each call: it runs on a stack that was filled with a
 * pattern, and the lowest byte that changed tells how deep it went. What the
 * thread itself takes is measured by an empty call and taken off.
 *
 * stack STEPS FILE..: prints, for each file, the bytes of check, run, trial, bound,
 * lean, fill and count. */
#define _GNU_SOURCE
#include "station.h"

#include <pthread.h>
#include <stdio.h>
#include <stdlib.h>
#include <string.h>
#include <sys/mman.h>

enum { STACK = 1 << 20, PATTERN = 0xc7 };

static uint8_t work[STATION_WORK_BYTES];
static uint8_t results[STATION_RESULTS_BYTES];
static uint8_t bounds[STATION_BOUNDS_BYTES];
static uint8_t places[STATION_PLACES_BYTES];
static uint8_t counts[STATION_COUNT_BYTES];
static uint8_t text[STATION_TEXT_BYTES + 1];
static size_t len;
static uint32_t steps;
static volatile uint32_t answer;

static void *nothing(void *unused)
{
    answer = 0;
    return unused;
}

static void *checked(void *unused)
{
    answer = station_check(text, len, work, sizeof work);
    return unused;
}

static void *ran(void *unused)
{
    answer = station_run(text, len, work, sizeof work, steps, results, sizeof results);
    return unused;
}

static void *tried(void *unused)
{
    answer = station_trial(text, len, work, sizeof work, steps, results, sizeof results);
    return unused;
}

static void *bounded(void *unused)
{
    answer = station_bound(text, len, work, sizeof work, bounds, sizeof bounds);
    return unused;
}

static void *leaned(void *unused)
{
    answer = station_lean(text, len, work, sizeof work, steps, results, sizeof results);
    return unused;
}

static void *filled(void *unused)
{
    answer = station_fill(text, len, work, sizeof work, places, sizeof places);
    return unused;
}

static void *counted(void *unused)
{
    answer = station_count(4, steps, text, len, text, len, text, len, text, len, work, sizeof work, 64, 64, 64, 64, counts, sizeof counts);
    return unused;
}

static long depth(void *(*call)(void *))
{
    uint8_t *stack = mmap(NULL, STACK, PROT_READ | PROT_WRITE, MAP_PRIVATE | MAP_ANONYMOUS, -1, 0);
    pthread_attr_t attr;
    pthread_t thread;
    size_t low = 0;

    if (stack == MAP_FAILED)
        exit(2);
    memset(stack, PATTERN, STACK);
    if (pthread_attr_init(&attr) || pthread_attr_setstack(&attr, stack, STACK)
        || pthread_create(&thread, &attr, call, NULL) || pthread_join(thread, NULL))
        exit(2);
    while (low < STACK && stack[low] == PATTERN)
        low++;
    munmap(stack, STACK);
    return STACK - (long)low;
}

int main(int count, char **words)
{
    long empty;

    if (count < 3)
        return 2;
    steps = (uint32_t)strtoul(words[1], NULL, 10);
    depth(nothing);
    empty = depth(nothing);
    for (int i = 2; i < count; i++) {
        FILE *file = fopen(words[i], "rb");
        if (!file)
            return 2;
        len = fread(text, 1, sizeof text, file);
        fclose(file);
        long of_check = depth(checked) - empty;
        long of_run = depth(ran) - empty;
        long of_trial = depth(tried) - empty;
        long of_bound = depth(bounded) - empty;
        long of_lean = depth(leaned) - empty;
        long of_fill = depth(filled) - empty;
        long of_count = depth(counted) - empty;
        printf("%ld %ld %ld %ld %ld %ld %ld %s\n", of_check, of_run, of_trial, of_bound, of_lean, of_fill, of_count, words[i]);
    }
    return 0;
}
