/* Calls the library on each file from 8 threads at once, with pages that may not
 * be touched right before and right after every area and every text; a text's own
 * pages may only be read. Each thread has areas of its own; the texts are shared.
 *
 * guard STEPS FILE..: prints what check, run, trial, bound, lean and fill returned,
 * and count of the text twice, for each file, and a sum of the results, bounds and
 * places areas. Exit status 1 if two
 * threads differ, if lean and run do, or if the work area is not all zero after a
 * call. */
#define _GNU_SOURCE
#include "station.h"

#include <pthread.h>
#include <stdio.h>
#include <stdlib.h>
#include <string.h>
#include <sys/mman.h>

enum { THREADS = 8, PAGE = 4096 };

/* With 1 each length is told a byte too long, and the page after a text is touched. */
#ifndef LONGER
#define LONGER 0
#endif

struct text {
    const uint8_t *before, *after; /* a page that may not be touched is right before, right after */
    size_t len;
};

struct answer {
    uint32_t checked, ran, tried, bounded, leaned, filled, counted, sum;
};

static struct text *texts;
static int count;
static uint32_t steps;
static struct answer *answers[THREADS];
static int wrong;

/* Pages for so many bytes, between two that may not be touched. */
static uint8_t *pages(size_t bytes, size_t *room)
{
    *room = (bytes + PAGE - 1) / PAGE * PAGE;
    uint8_t *all = mmap(NULL, *room + 2 * PAGE, PROT_NONE, MAP_PRIVATE | MAP_ANONYMOUS, -1, 0);
    if (all == MAP_FAILED || (*room && mprotect(all + PAGE, *room, PROT_READ | PROT_WRITE)))
        exit(2);
    return all + PAGE;
}

static const uint8_t *kept(const uint8_t *bytes, size_t len, int at_end)
{
    size_t room;
    uint8_t *area = pages(len, &room);
    uint8_t *start = at_end ? area + room - len : area;
    if (len)
        memcpy(start, bytes, len);
    if (room && mprotect(area, room, PROT_READ))
        exit(2);
    return start;
}

static int all_zero(const uint8_t *bytes, size_t len)
{
    for (size_t i = 0; i < len; i++)
        if (bytes[i])
            return 0;
    return 1;
}

static uint32_t added(uint32_t sum, const uint8_t *area, size_t len)
{
    for (size_t i = 0; i < len; i++)
        sum = sum * 31 + area[i];
    return sum;
}

/* A count of a text that stands in two places. */
static uint32_t counted(const uint8_t *one, const uint8_t *other, size_t len, uint8_t *work, uint8_t *results)
{
    return station_count(2, steps, one, len, other, len, NULL, 0, NULL, 0, work, STATION_WORK_BYTES, 3, 200, 0, 0, results,
                         STATION_COUNT_BYTES);
}

static void *work_on(void *own)
{
    struct answer *answer = own;
    size_t room, results_room, bounds_room, places_room, counts_room;
    uint8_t *work = pages(STATION_WORK_BYTES, &room);
    uint8_t *low = pages(STATION_RESULTS_BYTES, &results_room);
    uint8_t *high = low + results_room - STATION_RESULTS_BYTES;
    uint8_t *first = pages(STATION_BOUNDS_BYTES, &bounds_room);
    uint8_t *last = first + bounds_room - STATION_BOUNDS_BYTES;
    uint8_t *front = pages(STATION_PLACES_BYTES, &places_room);
    uint8_t *back = front + places_room - STATION_PLACES_BYTES;
    uint8_t *top = pages(STATION_COUNT_BYTES, &counts_room);
    uint8_t *bottom = top + counts_room - STATION_COUNT_BYTES;

    for (int i = 0; i < count; i++) {
        memset(work, 0xa5, STATION_WORK_BYTES);
        answer[i].checked = station_check(texts[i].after, texts[i].len + LONGER, work, STATION_WORK_BYTES);
        int clear = all_zero(work, STATION_WORK_BYTES);
        memset(work, 0x5a, STATION_WORK_BYTES);
        memset(low, 0xa5, results_room);
        answer[i].ran = station_run(texts[i].after, texts[i].len, work, STATION_WORK_BYTES, steps, high, STATION_RESULTS_BYTES);
        answer[i].sum = added(0, high, STATION_RESULTS_BYTES);
        uint32_t again = station_run(texts[i].before, texts[i].len, work, STATION_WORK_BYTES, steps, low, STATION_RESULTS_BYTES);
        if (!clear || !all_zero(work, STATION_WORK_BYTES) || again != answer[i].ran || added(0, low, STATION_RESULTS_BYTES) != answer[i].sum)
            wrong = 1;
        memset(work, 0x5a, STATION_WORK_BYTES);
        memset(low, 0xa5, results_room);
        answer[i].tried = station_trial(texts[i].after, texts[i].len, work, STATION_WORK_BYTES, steps, high, STATION_RESULTS_BYTES);
        answer[i].sum = added(answer[i].sum, high, STATION_RESULTS_BYTES);
        again = station_trial(texts[i].before, texts[i].len, work, STATION_WORK_BYTES, steps, low, STATION_RESULTS_BYTES);
        if (!all_zero(work, STATION_WORK_BYTES) || again != answer[i].tried || memcmp(low, high, STATION_RESULTS_BYTES))
            wrong = 1;
        memset(work, 0x5a, STATION_WORK_BYTES);
        memset(first, 0xa5, bounds_room);
        answer[i].bounded = station_bound(texts[i].after, texts[i].len, work, STATION_WORK_BYTES, last, STATION_BOUNDS_BYTES);
        answer[i].sum = added(answer[i].sum, last, STATION_BOUNDS_BYTES);
        again = station_bound(texts[i].before, texts[i].len, work, STATION_WORK_BYTES, first, STATION_BOUNDS_BYTES);
        if (!all_zero(work, STATION_WORK_BYTES) || again != answer[i].bounded || memcmp(first, last, STATION_BOUNDS_BYTES))
            wrong = 1;
        memset(work, 0x5a, STATION_WORK_BYTES);
        memset(low, 0xa5, results_room);
        answer[i].leaned = station_lean(texts[i].after, texts[i].len, work, STATION_WORK_BYTES, steps, high, STATION_RESULTS_BYTES);
        answer[i].sum = added(answer[i].sum, high, STATION_RESULTS_BYTES);
        clear = all_zero(work, STATION_WORK_BYTES);
        again = station_lean(texts[i].before, texts[i].len, work, STATION_WORK_BYTES, steps, low, STATION_RESULTS_BYTES);
        if (!clear || !all_zero(work, STATION_WORK_BYTES) || again != answer[i].leaned || memcmp(low, high, STATION_RESULTS_BYTES))
            wrong = 1;
        memset(high, 0x5a, STATION_RESULTS_BYTES);
        again = station_run(texts[i].after, texts[i].len, work, STATION_WORK_BYTES, steps, high, STATION_RESULTS_BYTES);
        if (again != answer[i].leaned || memcmp(low, high, STATION_RESULTS_BYTES))
            wrong = 1;
        memset(work, 0x5a, STATION_WORK_BYTES);
        memset(front, 0xa5, places_room);
        answer[i].filled = station_fill(texts[i].after, texts[i].len, work, STATION_WORK_BYTES, back, STATION_PLACES_BYTES);
        answer[i].sum = added(answer[i].sum, back, STATION_PLACES_BYTES);
        again = station_fill(texts[i].before, texts[i].len, work, STATION_WORK_BYTES, front, STATION_PLACES_BYTES);
        if (!all_zero(work, STATION_WORK_BYTES) || again != answer[i].filled || memcmp(front, back, STATION_PLACES_BYTES))
            wrong = 1;
        memset(work, 0x5a, STATION_WORK_BYTES);
        memset(top, 0xa5, counts_room);
        answer[i].counted = counted(texts[i].after, texts[i].before, texts[i].len, work, bottom);
        answer[i].sum = added(answer[i].sum, bottom, STATION_COUNT_BYTES);
        again = counted(texts[i].before, texts[i].after, texts[i].len, work, top);
        if (!all_zero(work, STATION_WORK_BYTES) || again != answer[i].counted || memcmp(top, bottom, STATION_COUNT_BYTES))
            wrong = 1;
    }
    return NULL;
}

int main(int words, char **word)
{
    static uint8_t read[STATION_TEXT_BYTES + 1];
    pthread_t threads[THREADS];

    if (words < 3)
        return 2;
    steps = (uint32_t)strtoul(word[1], NULL, 10);
    count = words - 2;
    texts = calloc((size_t)count, sizeof *texts);
    for (int i = 0; i < count; i++) {
        FILE *file = fopen(word[i + 2], "rb");
        if (!file || !texts)
            return 2;
        texts[i].len = fread(read, 1, sizeof read, file);
        fclose(file);
        texts[i].after = kept(read, texts[i].len, 1);
        texts[i].before = kept(read, texts[i].len, 0);
    }
    for (int t = 0; t < THREADS; t++) {
        answers[t] = calloc((size_t)count, sizeof **answers);
        if (!answers[t] || pthread_create(&threads[t], NULL, work_on, answers[t]))
            return 2;
    }
    for (int t = 0; t < THREADS; t++) {
        pthread_join(threads[t], NULL);
        if (memcmp(answers[t], answers[0], (size_t)count * sizeof **answers))
            wrong = 1;
    }
    for (int i = 0; i < count; i++)
        printf("%u %u %u %u %u %u %u %u\n", answers[0][i].checked, answers[0][i].ran, answers[0][i].tried, answers[0][i].bounded, answers[0][i].leaned,
               answers[0][i].filled, answers[0][i].counted, answers[0][i].sum);
    for (int t = 0; t < THREADS; t++)
        free(answers[t]);
    free(texts);
    return wrong;
}
