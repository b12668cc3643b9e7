/* The float program: a trial with doubles, without checks. */
#ifndef FLOAT_H
#define FLOAT_H

#include <stdint.h>

enum { ROWS = 81 };

/* A light prepared: a weight for each row and column, and the white. */
struct float_conditions {
    double x[ROWS], y[ROWS], z[ROWS];
    double xn, yn, zn, un, vn;
};

struct float_colour {
    double X, Y, Z, x, y, L, a, b, u, v, chroma_ab, chroma_uv;
};

void float_prepare(struct float_conditions *to, const double illuminant[ROWS],
                   const double columns[3][ROWS]);

/* The colour of 81 readings in 1/10,000. */
void float_colour(struct float_colour *to, const struct float_conditions *by,
                  const uint16_t readings[ROWS]);

/* The colour of a trial, and its CIELAB difference to a standard. */
double float_trial(struct float_colour *to, const struct float_conditions *by,
                   const struct float_colour *standard, const uint16_t readings[ROWS]);

#endif
