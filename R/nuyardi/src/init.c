/* The functions that R calls. */
#include "nuyardi.h"

#include <R_ext/Rdynload.h>

static const R_CallMethodDef calls[] = {
    {"nuyardi_check", (DL_FUNC)&nuyardi_check, 1},
    {"nuyardi_run", (DL_FUNC)&nuyardi_run, 2},
    {"nuyardi_trial", (DL_FUNC)&nuyardi_trial, 2},
    {"nuyardi_lean", (DL_FUNC)&nuyardi_lean, 2},
    {"nuyardi_bound", (DL_FUNC)&nuyardi_bound, 1},
    {"nuyardi_fill", (DL_FUNC)&nuyardi_fill, 1},
    {"nuyardi_count", (DL_FUNC)&nuyardi_count, 3},
    {"nuyardi_written", (DL_FUNC)&nuyardi_written, 4},
    {NULL, NULL, 0},
};

void R_init_nuyardi(DllInfo *dll)
{
    R_registerRoutines(dll, NULL, calls, NULL, NULL);
    R_useDynamicSymbols(dll, FALSE);
    R_forceSymbols(dll, TRUE);
}
