/* A circuit as the f64 simulator holds it, in microvolts, nanosiemens and femtoamperes. */
#ifndef CIRCUIT_H
#define CIRCUIT_H

#include <stddef.h>
#include <stdint.h>

enum { MOST_NODES = 15, MOST_ELEMENTS = 32, MOST_CURVES = 8, MOST_BREAKPOINTS = 16 };
enum kind { RESISTOR = 1, CAPACITOR, INDUCTOR, DIODE };

/* Straight stretches: on stretch j the current is slope[j] * v + at_zero[j]. */
struct curve {
    int breakpoints;
    double breakpoint[MOST_BREAKPOINTS];
    double slope[MOST_BREAKPOINTS + 1];
    double at_zero[MOST_BREAKPOINTS + 1];
};

struct element {
    enum kind kind;
    int p, q;
    double conductance;
    const struct curve *curve;
};

struct circuit {
    double leak; /* of every free node */
    int nodes, driven, output, elements;
    struct element element[MOST_ELEMENTS];
    struct curve curve[MOST_CURVES];
};

/* Reads an image that is known to be good: whether it is, is not this program's question. */
void circuit_read(struct circuit *circuit, const uint8_t *image, size_t length);

#endif
