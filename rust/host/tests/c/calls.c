/* Calls the functions as a C program would. Exit status 0 if all is as said. */
#include "station.h"

#include <stdio.h>
#include <string.h>

static uint8_t work[STATION_WORK_BYTES + 1];
static uint8_t results[STATION_RESULTS_BYTES + 1];
static uint8_t bounds[STATION_BOUNDS_BYTES + 1];
static uint8_t places[STATION_PLACES_BYTES + 1];
static uint8_t counts[STATION_COUNT_BYTES + 1];
static int wrong;

static void expect(int holds, const char *what)
{
    if (!holds) {
        printf("wrong: %s\n", what);
        wrong = 1;
    }
}

static int all(const uint8_t *bytes, size_t count, uint8_t byte)
{
    for (size_t i = 0; i < count; i++)
        if (bytes[i] != byte)
            return 0;
    return 1;
}

static void garbage(void)
{
    memset(work, 0xa5, sizeof work);
    memset(results, 0x5a, sizeof results);
    memset(bounds, 0x5a, sizeof bounds);
    memset(places, 0x5a, sizeof places);
    memset(counts, 0x5a, sizeof counts);
}

static uint32_t word(size_t at)
{
    const uint8_t *b = results + 4 * at;
    return b[0] | (uint32_t)b[1] << 8 | (uint32_t)b[2] << 16 | (uint32_t)b[3] << 24;
}

static void bound_calls(const uint8_t *text, size_t len)
{
    const char *endless = "main\nloop\teq\t1\t1\nagain\nend\n";
    const uint8_t given[] = {2, 0, 0, 0, 1, 0, 0, 0};
    uint32_t returned;

    garbage();
    returned = station_bound(text, len, work, STATION_WORK_BYTES, bounds, STATION_BOUNDS_BYTES);
    expect(returned == STATION_DONE, "the script has a bound");
    expect(!memcmp(bounds, given, sizeof given), "two steps and one frame");
    expect(all(work, STATION_WORK_BYTES, 0), "bound clears the work area");
    expect(work[STATION_WORK_BYTES] == 0xa5 && bounds[STATION_BOUNDS_BYTES] == 0x5a, "bound stays within the areas");

    returned = station_bound((const uint8_t *)endless, strlen(endless), work, STATION_WORK_BYTES, bounds, STATION_BOUNDS_BYTES);
    expect(returned == STATION_UNBOUNDED * 65536 + 2, "a loop has no bound");
    expect(all(bounds, STATION_BOUNDS_BYTES, 0), "zeros where there is no bound");
    garbage();
    returned = station_bound(NULL, 0, work, STATION_WORK_BYTES, bounds, STATION_BOUNDS_BYTES);
    expect(returned == STATION_UNFINISHED * 65536, "bound of a null text");
    expect(all(bounds, STATION_BOUNDS_BYTES, 0), "zeros after a refusal");

    garbage();
    returned = station_bound(text, len, work, STATION_WORK_BYTES + 1, bounds, STATION_BOUNDS_BYTES);
    expect(returned == STATION_AREA_LENGTH * 65536, "a work area too long for bound");
    returned = station_bound(text, len, work, STATION_WORK_BYTES, bounds, STATION_BOUNDS_BYTES - 1);
    expect(returned == STATION_AREA_LENGTH * 65536, "a bounds area too short");
    expect(all(work, sizeof work, 0xa5) && all(bounds, sizeof bounds, 0x5a), "number 1 leaves both areas of bound");
}

/* A script with one star, which stands for its second and third place. */
static void fill_calls(const uint8_t *bare, size_t bare_len)
{
    const char *starred = "class\tS\nfield\tint\ta\nfield\tint\tb\nmethod\tint\tm\tS\ts\nrequires\t*\n"
                          "ensures\tacc\tthis\tb\tacc\ts\ta\nend\nmain\nend\n";
    const uint8_t *text = (const uint8_t *)starred;
    const uint8_t given[] = {2, 3, 0, 0};
    size_t len = strlen(starred);
    uint32_t returned;

    garbage();
    returned = station_fill(text, len, work, STATION_WORK_BYTES, places, STATION_PLACES_BYTES);
    expect(returned == STATION_DONE, "the star is filled in");
    expect(!memcmp(places, given, sizeof given), "the second and the third place");
    expect(all(work, STATION_WORK_BYTES, 0), "fill clears the work area");
    expect(work[STATION_WORK_BYTES] == 0xa5 && places[STATION_PLACES_BYTES] == 0x5a, "fill stays within the areas");
    returned = station_check(text, len, work, STATION_WORK_BYTES);
    expect(returned == STATION_FORM * 65536 + 5, "check refuses the star");

    returned = station_fill(bare, bare_len, work, STATION_WORK_BYTES, places, STATION_PLACES_BYTES);
    expect(returned == STATION_STARS * 65536, "there is no star");
    expect(all(places, STATION_PLACES_BYTES, 0), "zeros where there is no star");
    garbage();
    returned = station_fill(NULL, 0, work, STATION_WORK_BYTES, places, STATION_PLACES_BYTES);
    expect(returned == STATION_UNFINISHED * 65536, "fill of a null text");
    expect(all(places, STATION_PLACES_BYTES, 0), "zeros after a refusal of fill");

    garbage();
    returned = station_fill(text, len, work, STATION_WORK_BYTES - 1, places, STATION_PLACES_BYTES);
    expect(returned == STATION_AREA_LENGTH * 65536, "a work area too short for fill");
    returned = station_fill(text, len, work, STATION_WORK_BYTES, places, STATION_PLACES_BYTES + 1);
    expect(returned == STATION_AREA_LENGTH * 65536, "a places area too long");
    returned = station_fill(text, len, NULL, 0, NULL, 0);
    expect(returned == STATION_AREA_LENGTH * 65536, "no areas for fill");
    expect(all(work, sizeof work, 0xa5) && all(places, sizeof places, 0x5a), "number 1 leaves both areas of fill");
}

/* What station_run returns and leaves, for the steps; number 1 changes nothing. */
static void lean_calls(const uint8_t *text, size_t len, uint32_t steps)
{
    uint8_t expected[STATION_RESULTS_BYTES];
    uint32_t ran, returned;

    garbage();
    ran = station_run(text, len, work, STATION_WORK_BYTES, steps, results, STATION_RESULTS_BYTES);
    memcpy(expected, results, sizeof expected);
    garbage();
    returned = station_lean(text, len, work, STATION_WORK_BYTES, steps, results, STATION_RESULTS_BYTES);
    expect(returned == ran, "lean returns what run returns");
    expect(!memcmp(results, expected, sizeof expected), "lean leaves the results of run");
    expect(all(work, STATION_WORK_BYTES, 0), "lean clears the work area");
    expect(work[STATION_WORK_BYTES] == 0xa5 && results[STATION_RESULTS_BYTES] == 0x5a, "lean stays within the areas");

    const size_t lengths[][2] = {
        {STATION_WORK_BYTES + 1, STATION_RESULTS_BYTES},
        {STATION_WORK_BYTES - 1, STATION_RESULTS_BYTES},
        {STATION_WORK_BYTES, STATION_RESULTS_BYTES + 1},
        {STATION_WORK_BYTES, STATION_RESULTS_BYTES - 1},
        {STATION_WORK_BYTES, 0},
        {0, 0},
    };
    for (size_t at = 0; at < sizeof lengths / sizeof *lengths; at++) {
        garbage();
        returned = station_lean(text, len, lengths[at][0] ? work : NULL, lengths[at][0], steps,
                                lengths[at][1] ? results : NULL, lengths[at][1]);
        expect(returned == STATION_AREA_LENGTH * 65536, "an area of wrong length for lean");
        expect(all(work, sizeof work, 0xa5) && all(results, sizeof results, 0x5a), "number 1 leaves both areas of lean");
    }
}

/* A count of the text with areas of these lengths, and nothing for what is not looked at. */
static uint32_t count_of(uint32_t scripts, const uint8_t *text, size_t len, uint32_t share, size_t work_len, size_t counts_len)
{
    return station_count(scripts, 1000, text, len, text, len, NULL, 0, NULL, 0, work, work_len, share, 256 - share, 0, 0, counts, counts_len);
}

/* Two scripts, each as station_run leaves it; shares that do not fit; number 1. */
static void count_calls(const uint8_t *text, size_t len)
{
    const size_t room = STATION_WORK_BYTES, each = STATION_SCRIPT_BYTES;
    uint32_t ran, returned;

    garbage();
    ran = station_run(text, len, work, room, 1000, results, STATION_RESULTS_BYTES);
    returned = count_of(2, text, len, 1, room, STATION_COUNT_BYTES);
    expect(returned == STATION_DONE, "a count of two scripts");
    for (size_t at = 0; at < 2; at++) {
        const uint8_t *one = counts + at * each;
        uint32_t of_one = one[0] | (uint32_t)one[1] << 8 | (uint32_t)one[2] << 16 | (uint32_t)one[3] << 24;
        expect(of_one == ran, "each script ends as alone");
        expect(!memcmp(one + 4, results, STATION_RESULTS_BYTES), "each script has the results that it has alone");
    }
    expect(all(counts + 2 * each, STATION_COUNT_BYTES - 2 * each, 0), "zeros past the scripts");
    expect(all(work, room, 0), "count clears the work area");
    expect(work[room] == 0xa5 && counts[STATION_COUNT_BYTES] == 0x5a, "count stays within the areas");

    garbage();
    expect(count_of(0, text, len, 1, room, STATION_COUNT_BYTES) == STATION_SHARES * 65536, "no script");
    expect(all(counts, STATION_COUNT_BYTES, 0) && all(work, room, 0), "zeros after a refusal of count");
    expect(count_of(5, text, len, 1, room, STATION_COUNT_BYTES) == STATION_SHARES * 65536, "five scripts");
    expect(count_of(2, text, len, 0, room, STATION_COUNT_BYTES) == STATION_SHARES * 65536, "a share of 0");
    expect(count_of(1, text, len, 257, room, STATION_COUNT_BYTES) == STATION_SHARES * 65536, "a share above the heap");
    expect(count_of(1, NULL, 0, 256, room, STATION_COUNT_BYTES) == STATION_DONE, "count of a null text");

    garbage();
    expect(count_of(0, text, len, 1, room + 1, STATION_COUNT_BYTES) == STATION_AREA_LENGTH * 65536, "a work area too long for count");
    expect(count_of(2, text, len, 1, room, STATION_COUNT_BYTES - 1) == STATION_AREA_LENGTH * 65536, "a results area too short for count");
    expect(all(work, sizeof work, 0xa5) && all(counts, sizeof counts, 0x5a), "number 1 leaves both areas of count");
}

int main(void)
{
    const char *script = "main\nvar\tint\ta\nvar\tint\tb\nlet\ta\t-7\nend\n";
    const uint8_t *text = (const uint8_t *)script;
    size_t len = strlen(script);
    uint32_t returned;

    garbage();
    returned = station_check(text, len, work, STATION_WORK_BYTES);
    expect(returned == STATION_DONE, "the script is accepted");
    expect(all(work, STATION_WORK_BYTES, 0), "check clears the work area");
    expect(work[STATION_WORK_BYTES] == 0xa5, "check stays within the work area");

    garbage();
    returned = station_run(text, len, work, STATION_WORK_BYTES, 1000, results, STATION_RESULTS_BYTES);
    expect(STATION_NUMBER(returned) == STATION_DONE && STATION_LINE(returned) == 5, "the run ends at line 5");
    expect(word(0) == 2 && (int32_t)word(1) == -7, "two steps, and a is -7");
    expect(all(results + 8, 4 * (STATION_VALUES - 1), 0), "zeros after the last variable");
    expect(all(work, STATION_WORK_BYTES, 0), "run clears the work area");
    expect(work[STATION_WORK_BYTES] == 0xa5 && results[STATION_RESULTS_BYTES] == 0x5a, "run stays within the areas");

    returned = station_run(text, len, work, STATION_WORK_BYTES, 1, results, STATION_RESULTS_BYTES);
    expect(returned == STATION_OUT_OF_STEPS * 65536 + 5, "one step is not enough");

    const char *refused = "main\nvar\tint\ta\nlet\ta\t-7\nassert\teq\ta\t7\nend\n";
    garbage();
    returned = station_run((const uint8_t *)refused, strlen(refused), work, STATION_WORK_BYTES, 9, results, STATION_RESULTS_BYTES);
    expect(returned == STATION_NOT_SHOWN * 65536 + 4, "run refuses what check refuses");
    expect(all(results, STATION_RESULTS_BYTES, 0), "zeros after check's refusal");
    returned = station_trial((const uint8_t *)refused, strlen(refused), work, STATION_WORK_BYTES, 9, results, STATION_RESULTS_BYTES);
    expect(returned == STATION_FORMULA_FALSE * 65536 + 4, "a trial runs it");
    expect(word(0) == 1 && (int32_t)word(1) == -7, "one step, and a is -7");
    returned = station_trial(text, len, work, STATION_WORK_BYTES, 1000, results, STATION_RESULTS_BYTES);
    expect(returned == 5 && word(0) == 2 && (int32_t)word(1) == -7, "a trial of an accepted script is as its run");

    garbage();
    expect(station_check(NULL, 0, work, STATION_WORK_BYTES) == STATION_UNFINISHED * 65536, "check of a null text");
    returned = station_run(NULL, 0, work, STATION_WORK_BYTES, 1, results, STATION_RESULTS_BYTES);
    expect(returned == STATION_UNFINISHED * 65536, "run of a null text");
    expect(all(results, STATION_RESULTS_BYTES, 0), "zeros after a refusal");

    garbage();
    expect(station_check(text, len, work, STATION_WORK_BYTES + 1) == 65536, "a work area too long for check");
    expect(station_check(text, len, NULL, 0) == 65536, "no work area for check");
    returned = station_run(text, len, work, STATION_WORK_BYTES - 1, 9, results, STATION_RESULTS_BYTES);
    expect(returned == STATION_AREA_LENGTH * 65536, "a work area too short for run");
    returned = station_run(text, len, work, STATION_WORK_BYTES, 9, results, STATION_RESULTS_BYTES + 1);
    expect(returned == STATION_AREA_LENGTH * 65536, "a results area too long");
    returned = station_trial(text, len, work, STATION_WORK_BYTES, 9, results, STATION_RESULTS_BYTES - 1);
    expect(returned == STATION_AREA_LENGTH * 65536, "a results area too short for trial");
    expect(all(work, sizeof work, 0xa5) && all(results, sizeof results, 0x5a), "number 1 changes nothing");

    bound_calls(text, len);
    fill_calls(text, len);
    count_calls(text, len);
    lean_calls(text, len, 0);
    lean_calls(text, len, 1);
    lean_calls(text, len, 1000);
    lean_calls((const uint8_t *)refused, strlen(refused), 9);
    lean_calls(NULL, 0, 9);

    puts(wrong ? "wrong" : "right");
    return wrong;
}
