/* Companion models and Newton in f64: the simulator that a user would write, and the one that a user would write next. */
#ifndef SIMULATE_H
#define SIMULATE_H

#include "circuit.h"
#include "inverse.h"

enum { NO_ROW = -1 };

/* Textbook: each round of Newton eliminates. Kept: the matrix's inverse stays while the matrix does. */
enum way { TEXTBOOK, KEPT };

/* An element that stores: its current is conductance * v - stored. */
struct store {
    int p, q;
    int row_p, row_q;
    double conductance, sign;
    double stored;
};

struct diode {
    int p, q;
    int row_p, row_q;
    const struct curve *curve;
    int stretch;
};

/* What stays from sample to sample. The circuit must outlive it. */
struct simulation {
    int driven, output, free;
    int width; /* of a row, in whole vectors */
    int stores, diodes;
    struct store store[MOST_ELEMENTS];
    struct diode diode[MOST_ELEMENTS];
    double node[MOST_NODES + 1];
    double matrix[MOST_NODES][ROW];
    double from_driven[MOST_NODES][MOST_NODES];
    enum way way;
    /* With KEPT: of the matrix with each diode on the stretch that it is on, once there is one. */
    int inverted;
    double inverse[MOST_NODES][ROW];
};

void simulation_start(struct simulation *simulation, const struct circuit *circuit, enum way way);

/* Plays drives, sample by sample nodes 1 to d in turn, to outputs. Gives the number of samples where Newton did not come to rest. */
long simulate(struct simulation *simulation, const double *drives, size_t samples, double *outputs);

#endif
