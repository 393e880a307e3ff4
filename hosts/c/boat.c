/* Runs a script over a large catalogue, on the lean machine: the script is checked
 * first, as station_run does, and the answer is the same. If the script has a bound,
 * that many steps are allowed; otherwise the caller gives the number of steps.
 *
 *   cc -o boat boat.c $(pkg-config --cflags --libs nuyardi-static)
 *   ./boat FILE [STEPS]
 */
#include <station.h>

#include <stdio.h>

/* One byte more than the longest text, so that a longer one is detected and refused. */
static uint8_t text[STATION_TEXT_BYTES + 1];
static uint8_t work[STATION_WORK_BYTES];
static uint8_t results[STATION_RESULTS_BYTES];
static uint8_t bounds[STATION_BOUNDS_BYTES];

static uint32_t word(const uint8_t *area, int at)
{
    const uint8_t *b = area + 4 * at;
    return b[0] | (uint32_t)b[1] << 8 | (uint32_t)b[2] << 16 | (uint32_t)b[3] << 24;
}

/* The steps of a word of digits, at most 32 bits; 0 if it is not one. */
static int given(const char *digits, uint32_t *steps)
{
    uint64_t read = 0;
    if (!*digits)
        return 0;
    for (; *digits; digits++) {
        if (*digits < '0' || *digits > '9')
            return 0;
        read = 10 * read + (uint64_t)(*digits - '0');
        if (read > UINT32_MAX)
            return 0;
    }
    *steps = (uint32_t)read;
    return 1;
}

int main(int count, char **words)
{
    uint32_t steps = 0;
    int told = count == 3 && given(words[2], &steps);
    FILE *file = count == 2 || told ? fopen(words[1], "rb") : NULL;
    if (!file) {
        fprintf(stderr, "boat FILE [STEPS]: a script to run, and the steps allowed, 0 to 4294967295\n");
        return 2;
    }
    size_t len = fread(text, 1, sizeof text, file);
    fclose(file);

    if (!told) {
        uint32_t bounded = station_bound(text, len, work, sizeof work, bounds, sizeof bounds);
        if (STATION_NUMBER(bounded) == STATION_UNBOUNDED || STATION_NUMBER(bounded) == STATION_BOUND_PASSED) {
            fprintf(stderr, "the script has no bound (number %u at line %u): give the steps allowed\n",
                    STATION_NUMBER(bounded), STATION_LINE(bounded));
            return 2;
        }
        steps = word(bounds, 0);
    }
    uint32_t ran = station_lean(text, len, work, sizeof work, steps, results, sizeof results);
    if (STATION_NUMBER(ran) != STATION_DONE && STATION_NUMBER(ran) < STATION_OUT_OF_STEPS) {
        printf("refused: number %u at line %u\n", STATION_NUMBER(ran), STATION_LINE(ran));
        return 1;
    }
    printf("number %u at line %u after %u steps:", STATION_NUMBER(ran), STATION_LINE(ran), word(results, 0));
    for (int at = 1; at <= STATION_VALUES; at++)
        printf(" %d", (int32_t)word(results, at));
    printf("\n");
    return STATION_NUMBER(ran) != STATION_DONE;
}
