/* The functions of libnuyardi_explain.so, which is loaded when one of them is first called. Each writes into the given room, if it is
 * large enough, and returns the length that it needs. */
#include "nuyardi.h"

#include <dlfcn.h>
#include <stddef.h>

typedef size_t of_text(const uint8_t *, size_t, char *, size_t);
typedef size_t of_run(const uint8_t *, size_t, uint32_t, char *, size_t);

/* A function of a library by its name; an error if either is missing. */
static void *found(SEXP library, SEXP function)
{
    const char *place = CHAR(STRING_ELT(library, 0)), *name = CHAR(STRING_ELT(function, 0));
    void *loaded = dlopen(place, RTLD_NOW | RTLD_LOCAL);
    if (!loaded)
        Rf_error("libnuyardi_explain.so cannot be loaded (%s); NUYARDI_EXPLAIN_LIBRARY can name another", dlerror());
    void *address = dlsym(loaded, name);
    if (!address)
        Rf_error("%s has no function %s", place, name);
    return address;
}

/* One call, with room of a size; steps are NULL for a function of a text alone. */
static size_t called(void *address, SEXP text, SEXP steps, char *out, size_t size)
{
    const uint8_t *bytes = RAW(text);
    size_t length = XLENGTH(text);
    if (steps == R_NilValue)
        return ((of_text *)address)(bytes, length, out, size);
    return ((of_run *)address)(bytes, length, nuyardi_steps(steps), out, size);
}

SEXP nuyardi_written(SEXP library, SEXP function, SEXP text, SEXP steps)
{
    nuyardi_is_text(text);
    void *address = found(library, function);
    size_t size = 65536;
    for (;;) {
        char *out = R_alloc(size, 1);
        size_t needed = called(address, text, steps, out, size);
        if (needed <= size) {
            SEXP said = PROTECT(Rf_allocVector(STRSXP, 1));
            SET_STRING_ELT(said, 0, Rf_mkCharLenCE(out, (int)needed, CE_UTF8));
            UNPROTECT(1);
            return said;
        }
        size = needed;
    }
}
