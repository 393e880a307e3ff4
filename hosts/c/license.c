/* Checks a script; if it is accepted, runs it for at most 1,000 steps and prints
 * the values of main's variables.
 *
 *   cc -o license license.c $(pkg-config --cflags --libs nuyardi-static)
 *   ./license FILE
 *
 * With `nuyardi` in place of `nuyardi-static` it uses the shared library.
 */
#include <station.h>

#include <stdio.h>

/* One byte more than the longest text, so that a longer one is detected and refused. */
static uint8_t text[STATION_TEXT_BYTES + 1];
static uint8_t work[STATION_WORK_BYTES];
static uint8_t results[STATION_RESULTS_BYTES];

static uint32_t word(int at)
{
    const uint8_t *b = results + 4 * at;
    return b[0] | (uint32_t)b[1] << 8 | (uint32_t)b[2] << 16 | (uint32_t)b[3] << 24;
}

int main(int count, char **words)
{
    FILE *file = count == 2 ? fopen(words[1], "rb") : NULL;
    if (!file) {
        fprintf(stderr, "license FILE: a script to check and run\n");
        return 2;
    }
    size_t len = fread(text, 1, sizeof text, file);
    fclose(file);

    uint32_t ran = station_run(text, len, work, sizeof work, 1000, results, sizeof results);
    if (STATION_NUMBER(ran) != STATION_DONE && STATION_NUMBER(ran) < STATION_OUT_OF_STEPS) {
        printf("refused: number %u at line %u\n", STATION_NUMBER(ran), STATION_LINE(ran));
        return 1;
    }
    printf("number %u at line %u after %u steps:", STATION_NUMBER(ran), STATION_LINE(ran), word(0));
    for (int at = 1; at <= STATION_VALUES; at++)
        printf(" %d", (int32_t)word(at));
    printf("\n");
    return STATION_NUMBER(ran) != STATION_DONE;
}
