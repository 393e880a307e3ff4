/* Prints what there is to say about a script, as JSON: accepted, or refused with cause,
 * notes and fix. It needs the library of explanations.
 *
 *   cc -o explain explain.c $(pkg-config --cflags --libs nuyardi-explain)
 *   ./explain FILE
 */
#include <nuyardi_explain.h>

#include <stdio.h>
#include <stdlib.h>

/* More than the longest text, so that a longer one is detected and refused. */
static uint8_t text[65536];

int main(int count, char **words)
{
    FILE *file = count == 2 ? fopen(words[1], "rb") : NULL;
    if (!file) {
        fprintf(stderr, "explain FILE: a script to explain\n");
        return 2;
    }
    size_t len = fread(text, 1, sizeof text, file);
    fclose(file);

    size_t needed = nuyardi_explain(text, len, NULL, 0);
    char *said = malloc(needed);
    if (!needed || !said || nuyardi_explain(text, len, said, needed) != needed) {
        fprintf(stderr, "there is no answer\n");
        return 1;
    }
    fwrite(said, 1, needed, stdout);
    printf("\n");
    free(said);
    return 0;
}
