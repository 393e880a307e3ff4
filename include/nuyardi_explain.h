/* Catalogue scripts explained: the functions of libnuyardi_explain, in a static and
 * in a shared library. They say in words what the functions of station.h answer in
 * numbers: the same words as the command `station`.
 *
 * Numbers, lines, steps and values are those of station.h's functions, which are
 * linked in. Causes, notes, fixes, steps and pictures come from a plain model of the
 * language, and are left out if its answer differs; no theorem is about them.
 *
 * Each function returns the length of its answer in bytes. If it is at most
 * `capacity`, the answer is written to `out`; if it is more, nothing is written.
 * The answer has no terminating zero byte. Call it with capacity 0 first, then with
 * the number of bytes that it returned:
 *
 *     size_t needed = nuyardi_explain(text, length, NULL, 0);
 *     char *out = malloc(needed);
 *     nuyardi_explain(text, length, out, needed);
 *
 * A function returns 0 and writes nothing for a null pointer with a length or a
 * capacity above 0, and if it catches an internal fault.
 *
 * The caller must ensure what C cannot:
 *  - each pointer points to as many bytes as the length or capacity next to it says;
 *    they may be read, and those of `out` may be written;
 *  - `out` does not overlap the text, and nobody else writes to either meanwhile.
 *
 * Threads: nothing is kept between calls, which may run in parallel. Calls allocate
 * memory and free it before they return; if there is none, the process is aborted.
 * No file is opened.
 */
#ifndef NUYARDI_EXPLAIN_H
#define NUYARDI_EXPLAIN_H

#include <stddef.h>
#include <stdint.h>

#ifdef __cplusplus
extern "C" {
#endif

/* Check's answer, with cause, notes and fix if it refuses the text: the JSON
 * object that `station check --warn --json -` prints, with the warnings of the text.
 * docs/LANGUAGE.md lists its fields. */
size_t nuyardi_explain(const uint8_t *text, size_t length,
                       char *out, size_t capacity);

/* How a run of at most `steps` steps ends, with cause, notes and fix if it stops:
 * the JSON object that `station run --json --steps N -` prints. A text that check
 * refuses is not run. */
size_t nuyardi_explain_run(const uint8_t *text, size_t length, uint32_t steps,
                           char *out, size_t capacity);

/* The same with the cards that the run made, their fields and who holds them: the
 * JSON object that `station run --json --cards --steps N -` prints. It has no
 * `cards` for a text that is not run, nor after more than 20,000,000 steps. */
size_t nuyardi_cards(const uint8_t *text, size_t length, uint32_t steps,
                     char *out, size_t capacity);

/* Each step of such a run, at most 100,000, as a JSON object on a line of its own:
 * those that `station trace --json` lists. The last line is the object of
 * nuyardi_explain_run. Each line ends with LF. */
size_t nuyardi_trace(const uint8_t *text, size_t length, uint32_t steps,
                     char *out, size_t capacity);

/* The cards after such a run and their links, as an SVG picture: what `station
 * draw` prints. There is none, and 0 is returned, for a text that is not run, and
 * after more than 20,000,000 steps. */
size_t nuyardi_draw(const uint8_t *text, size_t length, uint32_t steps,
                    char *out, size_t capacity);

#ifdef __cplusplus
}
#endif

#endif
