/* The calls of station.h over raw vectors. The areas are allocated here, each for one call: none is null, and none overlaps another or
 * the text. Values are returned as doubles, since R's integers have no -2147483648 and nothing above 2147483647. */
#include "nuyardi.h"

#include <math.h>
#include <station.h>

typedef uint32_t runs(const uint8_t *, size_t, uint8_t *, size_t, uint32_t, uint8_t *, size_t);

static uint32_t word(const uint8_t *area, int at)
{
    const uint8_t *b = area + 4 * at;
    return b[0] | (uint32_t)b[1] << 8 | (uint32_t)b[2] << 16 | (uint32_t)b[3] << 24;
}

static uint8_t *area(size_t bytes)
{
    return (uint8_t *)R_alloc(bytes, 1);
}

void nuyardi_is_text(SEXP text)
{
    if (TYPEOF(text) != RAWSXP)
        Rf_error("text is not a raw vector");
}

uint32_t nuyardi_steps(SEXP steps)
{
    if (TYPEOF(steps) != REALSXP || XLENGTH(steps) != 1)
        Rf_error("steps is not a number");
    double count = REAL(steps)[0];
    if (!(count >= 0 && count <= UINT32_MAX && floor(count) == count))
        Rf_error("steps must be a whole number from 0 to 4294967295");
    return (uint32_t)count;
}

/* What was returned, as number and line, with room for further values. */
static SEXP answer(uint32_t returned, int further)
{
    SEXP found = PROTECT(Rf_allocVector(REALSXP, 2 + further));
    REAL(found)[0] = STATION_NUMBER(returned);
    REAL(found)[1] = STATION_LINE(returned);
    UNPROTECT(1);
    return found;
}

SEXP nuyardi_check(SEXP text)
{
    nuyardi_is_text(text);
    uint8_t *work = area(STATION_WORK_BYTES);
    return answer(station_check(RAW(text), XLENGTH(text), work, STATION_WORK_BYTES), 0);
}

/* Number, line, steps, values. */
static SEXP ran(runs *call, SEXP text, SEXP steps)
{
    nuyardi_is_text(text);
    uint32_t allowed = nuyardi_steps(steps);
    uint8_t *work = area(STATION_WORK_BYTES), *results = area(STATION_RESULTS_BYTES);
    uint32_t returned =
        call(RAW(text), XLENGTH(text), work, STATION_WORK_BYTES, allowed, results, STATION_RESULTS_BYTES);
    SEXP found = PROTECT(answer(returned, 1 + STATION_VALUES));
    REAL(found)[2] = word(results, 0);
    for (int at = 1; at <= STATION_VALUES; at++)
        REAL(found)[2 + at] = (int32_t)word(results, at);
    UNPROTECT(1);
    return found;
}

SEXP nuyardi_run(SEXP text, SEXP steps)
{
    return ran(station_run, text, steps);
}

SEXP nuyardi_trial(SEXP text, SEXP steps)
{
    return ran(station_trial, text, steps);
}

SEXP nuyardi_lean(SEXP text, SEXP steps)
{
    return ran(station_lean, text, steps);
}

/* Number, line, steps, frames. */
SEXP nuyardi_bound(SEXP text)
{
    nuyardi_is_text(text);
    uint8_t *work = area(STATION_WORK_BYTES), *bounds = area(STATION_BOUNDS_BYTES);
    uint32_t returned = station_bound(RAW(text), XLENGTH(text), work, STATION_WORK_BYTES, bounds, STATION_BOUNDS_BYTES);
    SEXP found = PROTECT(answer(returned, 2));
    REAL(found)[2] = word(bounds, 0);
    REAL(found)[3] = word(bounds, 1);
    UNPROTECT(1);
    return found;
}

/* Number, line, places. */
SEXP nuyardi_fill(SEXP text)
{
    nuyardi_is_text(text);
    uint8_t *work = area(STATION_WORK_BYTES), *places = area(STATION_PLACES_BYTES);
    uint32_t returned = station_fill(RAW(text), XLENGTH(text), work, STATION_WORK_BYTES, places, STATION_PLACES_BYTES);
    SEXP found = PROTECT(answer(returned, STATION_PLACES_BYTES));
    for (int at = 0; at < STATION_PLACES_BYTES; at++)
        REAL(found)[2 + at] = places[at];
    UNPROTECT(1);
    return found;
}

/* How a script of a count ended: number, line, steps, values. */
static void ended(double *found, const uint8_t *part)
{
    uint32_t returned = word(part, 0);
    found[0] = STATION_NUMBER(returned);
    found[1] = STATION_LINE(returned);
    found[2] = word(part, 1);
    for (int at = 0; at < STATION_VALUES; at++)
        found[3 + at] = (int32_t)word(part, 2 + at);
}

/* Number, line, and for each text what `ended` has. Texts past the fourth are counted but not used. */
SEXP nuyardi_count(SEXP texts, SEXP rounds, SEXP shares)
{
    if (TYPEOF(texts) != VECSXP)
        Rf_error("texts is not a list");
    if (TYPEOF(shares) != REALSXP || XLENGTH(shares) != XLENGTH(texts))
        Rf_error("shares must be numbers, one for each text");
    uint32_t scripts = XLENGTH(texts) > STATION_SCRIPTS ? STATION_SCRIPTS + 1 : (uint32_t)XLENGTH(texts);
    uint32_t looked_at = scripts > STATION_SCRIPTS ? STATION_SCRIPTS : scripts;
    const uint8_t *text[STATION_SCRIPTS] = {NULL};
    size_t len[STATION_SCRIPTS] = {0};
    uint32_t share[STATION_SCRIPTS] = {0};
    for (uint32_t at = 0; at < looked_at; at++) {
        SEXP one = VECTOR_ELT(texts, at);
        nuyardi_is_text(one);
        text[at] = RAW(one);
        len[at] = XLENGTH(one);
        share[at] = nuyardi_steps(Rf_ScalarReal(REAL(shares)[at]));
    }
    uint8_t *work = area(STATION_WORK_BYTES), *results = area(STATION_COUNT_BYTES);
    uint32_t returned = station_count(scripts, nuyardi_steps(rounds), text[0], len[0], text[1], len[1], text[2], len[2], text[3], len[3], work,
                                      STATION_WORK_BYTES, share[0], share[1], share[2], share[3], results, STATION_COUNT_BYTES);
    const int each = 3 + STATION_VALUES;
    SEXP found = PROTECT(answer(returned, each * (int)looked_at));
    for (uint32_t at = 0; at < looked_at; at++)
        ended(REAL(found) + 2 + each * at, results + STATION_SCRIPT_BYTES * at);
    UNPROTECT(1);
    return found;
}
