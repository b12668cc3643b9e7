/* The float program: a trial with doubles, by the formulas of 000 and 002
 * with the constants of CIE 15:2004. */

#include <math.h>

#include "float.h"

/* The weights of a row are scaled so that the white's Y is 100. */
void float_prepare(struct float_conditions *to, const double illuminant[ROWS],
                   const double columns[3][ROWS])
{
    double whole = 0;
    to->xn = to->yn = to->zn = 0;
    for (int row = 0; row < ROWS; row++)
        whole += illuminant[row] * columns[1][row];
    for (int row = 0; row < ROWS; row++) {
        double scale = 100 * illuminant[row] / whole;
        to->x[row] = scale * columns[0][row] / 10000;
        to->y[row] = scale * columns[1][row] / 10000;
        to->z[row] = scale * columns[2][row] / 10000;
        to->xn += 10000 * to->x[row];
        to->yn += 10000 * to->y[row];
        to->zn += 10000 * to->z[row];
    }
    double below = to->xn + 15 * to->yn + 3 * to->zn;
    to->un = 4 * to->xn / below;
    to->vn = 9 * to->yn / below;
}

static double step(double ratio)
{
    return ratio > 216.0 / 24389 ? cbrt(ratio) : 841.0 / 108 * ratio + 16.0 / 116;
}

void float_colour(struct float_colour *to, const struct float_conditions *by,
                  const uint16_t readings[ROWS])
{
    double X = 0, Y = 0, Z = 0;
    for (int row = 0; row < ROWS; row++) {
        double reading = readings[row];
        X += reading * by->x[row];
        Y += reading * by->y[row];
        Z += reading * by->z[row];
    }
    double sum = X + Y + Z, below = X + 15 * Y + 3 * Z;
    double fx = step(X / by->xn), fy = step(Y / by->yn), fz = step(Z / by->zn);
    to->X = X;
    to->Y = Y;
    to->Z = Z;
    to->x = sum > 0 ? X / sum : 0;
    to->y = sum > 0 ? Y / sum : 0;
    to->L = 116 * fy - 16;
    to->a = 500 * (fx - fy);
    to->b = 200 * (fy - fz);
    to->u = below > 0 ? 13 * to->L * (4 * X / below - by->un) : 0;
    to->v = below > 0 ? 13 * to->L * (9 * Y / below - by->vn) : 0;
    to->chroma_ab = sqrt(to->a * to->a + to->b * to->b);
    to->chroma_uv = sqrt(to->u * to->u + to->v * to->v);
}

double float_trial(struct float_colour *to, const struct float_conditions *by,
                   const struct float_colour *standard, const uint16_t readings[ROWS])
{
    float_colour(to, by, readings);
    double l = to->L - standard->L, a = to->a - standard->a, b = to->b - standard->b;
    return sqrt(l * l + a * a + b * b);
}
