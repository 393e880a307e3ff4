/* Catalogue scripts: check, run, trial, lean, bound, fill and count, the functions
 * of libnuyardi.a and libnuyardi.so.
 *
 * Each returns number * 65536 + line (STATION_NUMBER, STATION_LINE). For every
 * content of the text and of the areas, number, line and every byte of the areas
 * afterwards are those of the specification: this is proved about the code that is
 * compiled. The text is only read. After a call the work area is all zero, except
 * for number 1, which changes neither area.
 *
 * The caller must ensure what C cannot:
 *  - each pointer points to as many bytes as the length next to it says; they may be
 *    read, and those of an area may be written; with length 0 it may be null;
 *  - an area overlaps neither the other one nor the text;
 *  - nobody else writes to the text or to an area during the call.
 * The bytes may hold anything, and need no alignment.
 *
 * Threads: nothing is kept between calls and there is no global state. Calls may
 * run in parallel on separate areas; they may share a text. No call waits,
 * allocates, opens a file or calls back.
 * Stack: below STATION_STACK_BYTES (measured and tested, not proved). Signals are
 * left alone.
 * Platform: x86-64, System V calling convention; memset and the like come from the
 * C library.
 */
#ifndef STATION_H
#define STATION_H

#include <stddef.h>
#include <stdint.h>

#ifdef __cplusplus
extern "C" {
#endif

#define STATION_VERSION "0.13.0"

/* Lengths of the areas, in bytes: each call takes these and no other. */
#define STATION_WORK_BYTES 65536
#define STATION_RESULTS_BYTES 52
#define STATION_BOUNDS_BYTES 8
#define STATION_PLACES_BYTES 4
#define STATION_COUNT_BYTES 224
/* The longest text, in bytes. */
#define STATION_TEXT_BYTES 32768
/* Values in the results area: main's variables in the order of their lines. */
#define STATION_VALUES 12
/* What a run has room for: objects, the fields of all of them, and frames, including
 * main's. */
#define STATION_OBJECTS 256
#define STATION_FIELDS 1024
#define STATION_FRAMES 64
/* The highest bound that is given. */
#define STATION_BOUND 1000000
/* The most permissions that a `requires *` is filled in with. */
#define STATION_FILLED 4
/* The most scripts of a count, the length of each script's answer, in bytes, and the
 * fields that a script has for each object of its share. */
#define STATION_SCRIPTS 4
#define STATION_SCRIPT_BYTES 56
#define STATION_FIELDS_EACH 4
/* More stack than any call takes, in bytes. */
#define STATION_STACK_BYTES 65536

/* What a call returned. */
#define STATION_NUMBER(returned) ((uint32_t)(returned) >> 16)
#define STATION_LINE(returned) ((uint32_t)(returned) & 0xffff)

enum station_number {
    STATION_DONE = 0,               /* accepted; main's `end` done */
    STATION_AREA_LENGTH = 1,        /* a lent area of wrong length */
    STATION_TEXT_TOO_LONG = 2,      /* text too long */
    STATION_BYTE = 3,               /* byte other than tab, LF, 33 to 126; last line without LF */
    STATION_FORM = 4,               /* unknown word, count or form of fields, line out of place */
    STATION_LIMIT = 5,              /* a limit of the text passed */
    STATION_NAME = 6,               /* name undeclared, not allowed, reserved, declared twice */
    STATION_TYPE = 7,               /* wrong type */
    STATION_UNFINISHED = 8,         /* text ends before main's `end` */
    STATION_ASSIGNED = 9,           /* variable that may not be assigned; `call x` with x as y or z; `open x x` */
    STATION_UNFRAMED = 10,          /* path read before its `acc` or `read` */
    STATION_UNRESOLVED = 11,        /* path that does not resolve */
    STATION_NO_PERMISSION = 12,     /* permission not shown */
    STATION_NOT_SHOWN = 13,         /* `eq` or `ne` not shown */
    STATION_STATE_FULL = 14,        /* checker's state full */
    STATION_UNBOUNDED = 15,         /* `loop`, or `call` that can lead back to its own method */
    STATION_BOUND_PASSED = 16,      /* bound above STATION_BOUND steps */
    STATION_UNFILLED = 17,          /* no set of at most STATION_FILLED permissions for `requires *` */
    STATION_STARS = 18,             /* no `requires *`, or a second one */
    STATION_SHARES = 19,            /* no scripts or more than STATION_SCRIPTS; a share of 0, or shares above STATION_OBJECTS */
    STATION_OUT_OF_STEPS = 21,      /* allowed steps taken */
    STATION_HEAP_FULL = 22,         /* more than STATION_OBJECTS objects or STATION_FIELDS fields */
    STATION_FRAMES_FULL = 23,       /* more than STATION_FRAMES frames */
    STATION_PERMISSION_MISSING = 24, /* permission missing */
    STATION_NULL_FOLLOWED = 25,     /* null followed */
    STATION_FORMULA_FALSE = 26,     /* formula false */
    STATION_OVERFLOW = 27           /* sum or difference beyond 32 bits signed */
};

/* Is the text a script that keeps to its permissions? Returns number 0, or 1 to
 * 14 with the line. */
uint32_t station_check(const uint8_t *text, size_t text_len,
                       uint8_t *work, size_t work_len);

/* Checks the text, and if it is accepted runs main for at most `steps` steps.
 * Returns number 1 if the work area or the results area has the wrong length; 2 to
 * 14 with the line, as station_check does; or 0, 21, 22, 23 or 27 with the line:
 * never 24, 25 or 26, whatever the text. The results area then holds the steps
 * taken (unsigned) and the values (signed; an object is its number from 1, null is
 * 0), 4 bytes each, low byte first; all zero for the numbers 2 to 14. */
uint32_t station_run(const uint8_t *text, size_t text_len,
                     uint8_t *work, size_t work_len,
                     uint32_t steps,
                     uint8_t *results, size_t results_len);

/* Runs main as station_run does, without checking the text first: for trying out
 * a text that station_check may refuse. Returns 0, 1 to 9 or 21 to 27 with the
 * line; the results area as after station_run, all zero for the numbers 2 to 9. A
 * text that station_check accepts gets the same answer from both. */
uint32_t station_trial(const uint8_t *text, size_t text_len,
                       uint8_t *work, size_t work_len,
                       uint32_t steps,
                       uint8_t *results, size_t results_len);

/* What station_run returns, and both areas as station_run leaves them, for every
 * text, number of steps and area. It checks first, as station_run does; then it
 * keeps no permissions and evaluates no assert, requires, ensures, join or
 * invariant, since a text that station_check accepts never fails one (proved). So
 * a step costs less: use it for long runs over many objects. station_run tests every
 * permission all the same, so it may stop at a fault that no proof covers, such as
 * another thread that writes to an area during the call. */
uint32_t station_lean(const uint8_t *text, size_t text_len,
                      uint8_t *work, size_t work_len,
                      uint32_t steps,
                      uint8_t *results, size_t results_len);

/* The most that a run of main can take, known before the run. The bounds area then
 * holds the steps and the frames (both unsigned), 4 bytes each, low byte first.
 *
 *   returned          when                                   bounds area
 *   0                 there is a bound                       steps, frames
 *   1                 an area of wrong length                unchanged
 *   2 to 14, line     station_check refuses with these       all zero
 *   15, line          the first line that is a `loop`, or    all zero
 *                     a `call` whose method is the one that
 *                     the line is in, or can reach it
 *   16                the steps are above STATION_BOUND      all zero
 *
 * No run takes more steps, or has more frames at a time; station_run with that many
 * steps allowed never returns 21. Frames are counted from the lines of the text and
 * can be STATION_FRAMES + 1: a run that would open that many stops with 23. A text
 * with 15 or 16 is accepted all the same. */
uint32_t station_bound(const uint8_t *text, size_t text_len,
                       uint8_t *work, size_t work_len,
                       uint8_t *bounds, size_t bounds_len);

/* The permissions that a `requires` line lacks. One method of the text has
 * `requires *`, and everything else is complete. The places area then holds the first
 * set of at most STATION_FILLED permissions `acc x f` with which station_check accepts
 * the text, apart from its length: places from 1, rising, a byte each, then zeros. The
 * places are the fields of the method's class in the order of their lines, with `this`
 * for x, then those of the parameter's class, if it has one, with the parameter for x.
 * Of two sets the one with fewer permissions comes first, then the one with the
 * earlier place where they first differ; a set may be empty.
 *
 *   returned          when                                   places area
 *   0                 there is such a set                    its places
 *   1                 an area of wrong length                unchanged
 *   2 to 9, line      the text with a bare `requires` in     all zero
 *                     place of the star is refused
 *   18, line          the second line `requires *`; 0 if     all zero
 *                     there is none
 *   17, line          no such set makes the text accepted;   all zero
 *                     the line of the star
 *
 * For every other function `requires *` is number 4. */
uint32_t station_fill(const uint8_t *text, size_t text_len,
                      uint8_t *work, size_t work_len,
                      uint8_t *places, size_t places_len);

/* Runs up to four scripts over one heap of STATION_OBJECTS objects, one step of each
 * per round, in order, for at most `rounds` rounds. Each has a share of some number
 * of objects and STATION_FIELDS_EACH times as many fields, and numbers its own
 * objects. A script that is refused, finished or stopped is skipped; no step changes
 * a field in another's share.
 *
 *   returned   when                                           results area
 *   0          otherwise                                      each script's answer
 *   1          an area of wrong length                        unchanged
 *   19         there are no scripts, or more than             all zero
 *              STATION_SCRIPTS; a share is 0; or the shares
 *              together are above STATION_OBJECTS
 *
 * Each script's answer is STATION_SCRIPT_BYTES bytes: what station_run returns for
 * it alone, with its share as the heap and the rounds as steps (4 bytes, low byte
 * first), then what station_run leaves in its results area. It is the same whatever
 * the other scripts do. Texts and shares past the count of scripts are not looked
 * at, and their bytes are zero. */
uint32_t station_count(uint32_t scripts, uint32_t rounds,
                       const uint8_t *text1, size_t text1_len,
                       const uint8_t *text2, size_t text2_len,
                       const uint8_t *text3, size_t text3_len,
                       const uint8_t *text4, size_t text4_len,
                       uint8_t *work, size_t work_len,
                       uint32_t share1, uint32_t share2,
                       uint32_t share3, uint32_t share4,
                       uint8_t *results, size_t results_len);

#ifdef __cplusplus
}
#endif

#endif
