/* What the C files of the package share. */
#ifndef NUYARDI_R_H
#define NUYARDI_R_H

#define R_NO_REMAP
#include <R.h>
#include <Rinternals.h>

#include <stdint.h>

/* The steps, which R has as a double; an error if they are not a whole number of 32 bits. */
uint32_t nuyardi_steps(SEXP steps);

/* An error unless the text is a raw vector. */
void nuyardi_is_text(SEXP text);

SEXP nuyardi_check(SEXP text);
SEXP nuyardi_run(SEXP text, SEXP steps);
SEXP nuyardi_trial(SEXP text, SEXP steps);
SEXP nuyardi_lean(SEXP text, SEXP steps);
SEXP nuyardi_bound(SEXP text);
SEXP nuyardi_fill(SEXP text);
SEXP nuyardi_count(SEXP texts, SEXP rounds, SEXP shares);
SEXP nuyardi_written(SEXP library, SEXP function, SEXP text, SEXP steps);

#endif
