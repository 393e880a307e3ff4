/* Calls the library on each file with areas fresh from malloc, so that valgrind
 * sees a byte that is read or written outside them, and a result that rests on
 * what they held before.
 *
 * replay STEPS FILE..: prints what check, run, trial, bound, lean and fill returned,
 * and count of the text twice, for each file, and a sum of the results, bounds and
 * places. */
#include "station.h"

#include <stdio.h>
#include <stdlib.h>
#include <string.h>

int main(int count, char **words)
{
    static uint8_t read[STATION_TEXT_BYTES + 1];

    if (count < 3)
        return 2;
    uint32_t steps = (uint32_t)strtoul(words[1], NULL, 10);
    for (int i = 2; i < count; i++) {
        FILE *file = fopen(words[i], "rb");
        if (!file)
            return 2;
        size_t len = fread(read, 1, sizeof read, file);
        fclose(file);
        uint8_t *text = malloc(len ? len : 1);
        uint8_t *work = malloc(STATION_WORK_BYTES);
        uint8_t *again = malloc(STATION_WORK_BYTES);
        uint8_t *third = malloc(STATION_WORK_BYTES);
        uint8_t *fourth = malloc(STATION_WORK_BYTES);
        uint8_t *fifth = malloc(STATION_WORK_BYTES);
        uint8_t *sixth = malloc(STATION_WORK_BYTES);
        uint8_t *seventh = malloc(STATION_WORK_BYTES);
        uint8_t *results = malloc(STATION_RESULTS_BYTES);
        uint8_t *others = malloc(STATION_RESULTS_BYTES);
        uint8_t *leanly = malloc(STATION_RESULTS_BYTES);
        uint8_t *bounds = malloc(STATION_BOUNDS_BYTES);
        uint8_t *places = malloc(STATION_PLACES_BYTES);
        uint8_t *counts = malloc(STATION_COUNT_BYTES);
        if (!text || !work || !again || !third || !fourth || !fifth || !sixth || !seventh || !results || !others || !leanly || !bounds || !places || !counts)
            return 2;
        memcpy(text, read, len);
        uint32_t checked = station_check(text, len, work, STATION_WORK_BYTES);
        uint32_t ran = station_run(text, len, again, STATION_WORK_BYTES, steps, results, STATION_RESULTS_BYTES);
        uint32_t tried = station_trial(text, len, third, STATION_WORK_BYTES, steps, others, STATION_RESULTS_BYTES);
        uint32_t bounded = station_bound(text, len, fourth, STATION_WORK_BYTES, bounds, STATION_BOUNDS_BYTES);
        uint32_t leaned = station_lean(text, len, fifth, STATION_WORK_BYTES, steps, leanly, STATION_RESULTS_BYTES);
        uint32_t filled = station_fill(text, len, sixth, STATION_WORK_BYTES, places, STATION_PLACES_BYTES);
        uint32_t counted = station_count(2, steps, text, len, text, len, NULL, 0, NULL, 0, seventh, STATION_WORK_BYTES, 3, 200, 0, 0,
                                         counts, STATION_COUNT_BYTES);
        uint32_t sum = 0;
        for (size_t at = 0; at < STATION_RESULTS_BYTES; at++)
            sum = sum * 31 + results[at];
        for (size_t at = 0; at < STATION_RESULTS_BYTES; at++)
            sum = sum * 31 + others[at];
        for (size_t at = 0; at < STATION_BOUNDS_BYTES; at++)
            sum = sum * 31 + bounds[at];
        for (size_t at = 0; at < STATION_RESULTS_BYTES; at++)
            sum = sum * 31 + leanly[at];
        for (size_t at = 0; at < STATION_PLACES_BYTES; at++)
            sum = sum * 31 + places[at];
        for (size_t at = 0; at < STATION_COUNT_BYTES; at++)
            sum = sum * 31 + counts[at];
        printf("%u %u %u %u %u %u %u %u\n", checked, ran, tried, bounded, leaned, filled, counted, sum);
        free(text);
        free(work);
        free(again);
        free(third);
        free(fourth);
        free(fifth);
        free(sixth);
        free(seventh);
        free(results);
        free(others);
        free(leanly);
        free(bounds);
        free(places);
        free(counts);
    }
    return 0;
}
