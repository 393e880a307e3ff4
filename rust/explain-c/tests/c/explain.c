/* Calls each function of nuyardi_explain.h on the files that are named, after a
 * number of steps, and prints what it says; stops at a promise that is not kept. */
#include <nuyardi_explain.h>
#include <stdio.h>
#include <stdlib.h>
#include <string.h>

/* No function writes beyond its capacity: bytes around it stay what they are. */
enum { AROUND = 64, FILLED = 0x5a };

static uint32_t steps;

/* All functions with the parameters of nuyardi_explain. */
static size_t run(const uint8_t *text, size_t length, char *out, size_t capacity) {
    return nuyardi_explain_run(text, length, steps, out, capacity);
}

static size_t cards(const uint8_t *text, size_t length, char *out, size_t capacity) {
    return nuyardi_cards(text, length, steps, out, capacity);
}

static size_t trace(const uint8_t *text, size_t length, char *out, size_t capacity) {
    return nuyardi_trace(text, length, steps, out, capacity);
}

static size_t draw(const uint8_t *text, size_t length, char *out, size_t capacity) {
    return nuyardi_draw(text, length, steps, out, capacity);
}

typedef size_t call(const uint8_t *, size_t, char *, size_t);

static call *const calls[] = {nuyardi_explain, run, cards, trace, draw};
enum { CALLS = sizeof calls / sizeof *calls };

static void expect(int held, const char *promise) {
    if (!held) {
        fprintf(stderr, "not kept: %s\n", promise);
        exit(1);
    }
}

static int is_filled(const char *bytes, size_t count) {
    for (size_t at = 0; at < count; at++)
        if (bytes[at] != FILLED)
            return 0;
    return 1;
}

/* Prints the answer, after all ways of asking for it. */
static void say(call *ask, const uint8_t *text, size_t length) {
    size_t needed = ask(text, length, NULL, 0);
    char *room = malloc(AROUND + needed + AROUND);
    expect(room != NULL, "memory");
    char *out = room + AROUND;
    memset(room, FILLED, AROUND + needed + AROUND);
    if (needed > 0) {
        expect(ask(text, length, out, needed - 1) == needed, "the length needed, with too little room");
        expect(ask(text, length, out, 0) == needed, "the length needed, with no room");
        expect(is_filled(room, AROUND + needed + AROUND), "nothing written that does not fit");
    }
    expect(ask(text, length, out, needed) == needed, "the length needed, with room");
    expect(is_filled(room, AROUND), "nothing written before the room");
    expect(is_filled(out + needed, AROUND), "nothing written after the room");
    expect(memchr(out, 0, needed) == NULL, "no zero byte");
    char *more = malloc(needed + 1);
    expect(more != NULL, "memory");
    expect(ask(text, length, more, needed + 1) == needed, "the length needed, with more room");
    expect(memcmp(out, more, needed) == 0, "the same answer again");
    expect(fwrite(out, 1, needed, stdout) == needed, "standard output");
    expect(putchar('\n') != EOF, "standard output");
    free(more);
    free(room);
}

static void refuse(call *ask) {
    char out[AROUND];
    memset(out, FILLED, AROUND);
    expect(ask(NULL, 1, out, AROUND) == 0, "a null text with a length is refused");
    expect(is_filled(out, AROUND), "nothing written for a null text");
    expect(ask((const uint8_t *)"main\nend\n", 9, NULL, 1) == 0, "null with a capacity is refused");
    expect(ask(NULL, 0, NULL, 0) == ask((const uint8_t *)"", 0, out, 0), "null with length 0 is no text");
}

static uint8_t *file(const char *name, size_t *length) {
    FILE *input = fopen(name, "rb");
    expect(input != NULL, name);
    uint8_t *text = malloc(1 << 20);
    expect(text != NULL, "memory");
    *length = fread(text, 1, 1 << 20, input);
    fclose(input);
    return text;
}

int main(int count, char **words) {
    steps = count > 1 ? (uint32_t)strtoul(words[1], NULL, 10) : 0;
    for (int at = 0; at < CALLS; at++)
        refuse(calls[at]);
    for (int word = 2; word < count; word++) {
        size_t length;
        uint8_t *text = file(words[word], &length);
        for (int at = 0; at < CALLS; at++)
            say(calls[at], text, length);
        free(text);
    }
    return 0;
}
