/* A matrix's inverse, for as many right sides as come before the matrix changes. In a header, so that it is inlined as the textbook's elimination is. */
#ifndef INVERSE_H
#define INVERSE_H

#include "circuit.h"

/* A row of the system: its matrix, then the textbook's right side, padded to whole vectors of LANES. */
enum { LANES = 4, ROW = MOST_NODES + 1 };

/* Inverts n rows in place. A circuit's matrix is symmetric and its diagonal outweighs each row, so that no pivot has to be looked for. */
static inline void invert(int n, int width, double a[][ROW])
{
    for (int k = 0; k < n; k++) {
        double inverse = 1 / a[k][k];
        a[k][k] = 1;
        for (int j = 0; j < width; j += LANES)
            for (int lane = 0; lane < LANES; lane++)
                a[k][j + lane] *= inverse;
        for (int i = 0; i < n; i++) {
            double factor = a[i][k];
            if (i == k || factor == 0)
                continue;
            a[i][k] = 0;
            for (int j = 0; j < width; j += LANES)
                for (int lane = 0; lane < LANES; lane++)
                    a[i][j + lane] -= factor * a[k][j + lane];
        }
    }
}

/* The inverse times the right side, row by row of what is symmetric, so that no sum waits for itself. */
static inline void times(int n, int width, const double a[][ROW], const double *right, double *solution)
{
    for (int i = 0; i < width; i++)
        solution[i] = 0;
    for (int k = 0; k < n; k++) {
        double fed = right[k];
        for (int i = 0; i < width; i += LANES)
            for (int lane = 0; lane < LANES; lane++)
                solution[i + lane] += a[k][i + lane] * fed;
    }
}

#endif
