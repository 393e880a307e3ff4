/* What tools/interpreted/program writes, by the functions of libstation.a. */
#include <stddef.h>
#include <stdint.h>
#include <stdio.h>
#include <string.h>

enum { INPUT_BYTES = 32769, STEPS = 1000, OLD = 165, STRIDE = 61, WORK_BYTES = 65536, RESULTS_BYTES = 52, BOUNDS_BYTES = 8, PLACES_BYTES = 4 };

uint32_t check(const uint8_t *, size_t, uint8_t *, size_t);
uint32_t run(const uint8_t *, size_t, uint8_t *, size_t, uint32_t, uint8_t *, size_t);
uint32_t trial(const uint8_t *, size_t, uint8_t *, size_t, uint32_t, uint8_t *, size_t);
uint32_t lean(const uint8_t *, size_t, uint8_t *, size_t, uint32_t, uint8_t *, size_t);
uint32_t bound(const uint8_t *, size_t, uint8_t *, size_t, uint8_t *, size_t);
uint32_t fill(const uint8_t *, size_t, uint8_t *, size_t, uint8_t *, size_t);

static uint8_t input[INPUT_BYTES], work[WORK_BYTES], other[RESULTS_BYTES];

static void lend(void) {
    memset(work, OLD, sizeof work);
    memset(other, OLD, sizeof other);
}

static void put(uint32_t r, size_t bytes) {
    int zero = 1;
    for (int i = 0; i < 4; i++) putchar((int)(r >> 8 * i & 255));
    for (size_t i = 0; i < sizeof work; i += STRIDE) zero &= work[i] == 0;
    putchar(zero ? 'z' : 'n');
    fwrite(other, 1, bytes, stdout);
}

static void put_text(const uint8_t *t, size_t n) {
    lend(); put(check(t, n, work, WORK_BYTES), 0);
    lend(); put(run(t, n, work, WORK_BYTES, STEPS, other, RESULTS_BYTES), RESULTS_BYTES);
    lend(); put(trial(t, n, work, WORK_BYTES, STEPS, other, RESULTS_BYTES), RESULTS_BYTES);
    lend(); put(lean(t, n, work, WORK_BYTES, STEPS, other, RESULTS_BYTES), RESULTS_BYTES);
    lend(); put(bound(t, n, work, WORK_BYTES, other, BOUNDS_BYTES), BOUNDS_BYTES);
    lend(); put(fill(t, n, work, WORK_BYTES, other, PLACES_BYTES), PLACES_BYTES);
}

int main(void) {
    size_t n = fread(input, 1, sizeof input, stdin);
    put_text(input, n);
    return ferror(stdout) || fflush(stdout);
}
