#include "simulate.h"

#include <math.h>
#include <string.h>

static const double REST = 1e-3; /* a nanovolt */
enum { MOST_ROUNDS = 100 };

static int row_of(const struct simulation *simulation, int node)
{
    return node > simulation->driven ? node - simulation->driven - 1 : NO_ROW;
}

static void stamp(double matrix[][ROW], int p, int q, double conductance)
{
    if (p != NO_ROW)
        matrix[p][p] += conductance;
    if (q != NO_ROW)
        matrix[q][q] += conductance;
    if (p != NO_ROW && q != NO_ROW) {
        matrix[p][q] -= conductance;
        matrix[q][p] -= conductance;
    }
}

/* All that no sample changes: the matrix of resistors and companions, and what one microvolt at a driven node feeds to each row. */
void simulation_start(struct simulation *simulation, const struct circuit *circuit, enum way way)
{
    memset(simulation, 0, sizeof *simulation);
    simulation->way = way;
    simulation->driven = circuit->driven;
    simulation->output = circuit->output;
    simulation->free = circuit->nodes - circuit->driven;
    simulation->width = (simulation->free + LANES) / LANES * LANES;
    for (int i = 0; i < simulation->free; i++)
        simulation->matrix[i][i] = circuit->leak;
    for (int i = 0; i < circuit->elements; i++) {
        const struct element *element = &circuit->element[i];
        int p = element->p, q = element->q, row_p = row_of(simulation, p), row_q = row_of(simulation, q);
        double g = element->conductance;
        if (element->kind == DIODE) {
            simulation->diode[simulation->diodes++] = (struct diode){p, q, row_p, row_q, element->curve, 0};
            continue;
        }
        if (element->kind != RESISTOR)
            simulation->store[simulation->stores++] =
                (struct store){p, q, row_p, row_q, g, element->kind == CAPACITOR ? 1 : -1, 0};
        stamp(simulation->matrix, row_p, row_q, g);
        if (0 < p && p <= circuit->driven && row_q != NO_ROW)
            simulation->from_driven[p - 1][row_q] += g;
        if (0 < q && q <= circuit->driven && row_p != NO_ROW)
            simulation->from_driven[q - 1][row_p] += g;
    }
}

/* Solves n rows in place by elimination with partial pivoting; the right side is column n. Whole vectors are worked on from the one
   that holds the pivot's right neighbour: what that spoils lies left of it and is never read again. */
static void solve(int n, int width, double a[][ROW], double *solution)
{
    double inverse[MOST_NODES];
    for (int k = 0; k < n; k++) {
        int pivot = k;
        double most = fabs(a[k][k]);
        for (int i = k + 1; i < n; i++)
            if (fabs(a[i][k]) > most) {
                most = fabs(a[i][k]);
                pivot = i;
            }
        if (pivot != k) {
            double kept[ROW];
            memcpy(kept, a[k], sizeof kept);
            memcpy(a[k], a[pivot], sizeof kept);
            memcpy(a[pivot], kept, sizeof kept);
        }
        inverse[k] = 1 / a[k][k];
        for (int i = k + 1; i < n; i++) {
            if (a[i][k] == 0)
                continue;
            double factor = a[i][k] * inverse[k];
            for (int j = (k + 1) / LANES * LANES; j < width; j += LANES)
                for (int lane = 0; lane < LANES; lane++)
                    a[i][j + lane] -= factor * a[k][j + lane];
        }
    }
    for (int i = 0; i < n; i++)
        solution[i] = a[i][n];
    for (int k = n - 1; k >= 0; k--) {
        solution[k] *= inverse[k];
        for (int i = 0; i < k; i++)
            solution[i] -= a[i][k] * solution[k];
    }
}

/* The stretch on which v lies, looked for from the last one on: it is mostly the same. */
static int stretch(const struct diode *diode, double v)
{
    const struct curve *curve = diode->curve;
    int j = diode->stretch;
    while (j < curve->breakpoints && v >= curve->breakpoint[j])
        j++;
    while (j > 0 && v < curve->breakpoint[j - 1])
        j--;
    return j;
}

/* Replaces each diode by its tangent at the present voltages. A fixed end's voltage is known, a free end's goes by the matrix. */
static void stamp_diodes(struct simulation *simulation, const double *known, double matrix[][ROW])
{
    int right = simulation->free;
    for (int i = 0; i < simulation->diodes; i++) {
        struct diode *diode = &simulation->diode[i];
        int j = diode->stretch = stretch(diode, simulation->node[diode->p] - simulation->node[diode->q]);
        double slope = diode->curve->slope[j], at_zero = diode->curve->at_zero[j];
        stamp(matrix, diode->row_p, diode->row_q, slope);
        if (diode->row_p != NO_ROW)
            matrix[diode->row_p][right] += slope * known[diode->q] - at_zero;
        if (diode->row_q != NO_ROW)
            matrix[diode->row_q][right] += slope * known[diode->p] + at_zero;
    }
}

/* Copies the matrix of resistors and companions. */
static void copied(const struct simulation *simulation, double matrix[][ROW])
{
    for (int i = 0; i < simulation->free; i++)
        for (int j = 0; j < simulation->width; j += LANES)
            for (int lane = 0; lane < LANES; lane++)
                matrix[i][j + lane] = simulation->matrix[i][j + lane];
}

/* The free nodes take their next voltages: how far the one goes that goes farthest. */
static double moved(struct simulation *simulation, const double *next)
{
    double *node = simulation->node + simulation->driven + 1, most = 0;
    for (int i = 0; i < simulation->free; i++) {
        double by = fabs(next[i] - node[i]);
        most = by > most ? by : most;
        node[i] = next[i];
    }
    return most;
}

/* Newton from the last sample's voltages until no node moves by a nanovolt. Without diodes the first round is exact. `known` has the
   drives and zero for free nodes; `right` is the right side without the diodes. */
static int newton(struct simulation *simulation, const double *known, const double *right)
{
    int n = simulation->free;
    for (int round = 0; round < MOST_ROUNDS; round++) {
        double matrix[MOST_NODES][ROW], next[MOST_NODES];
        copied(simulation, matrix);
        for (int i = 0; i < n; i++)
            matrix[i][n] = right[i];
        stamp_diodes(simulation, known, matrix);
        solve(n, simulation->width, matrix, next);
        if (moved(simulation, next) < REST || simulation->diodes == 0)
            return 1;
    }
    return 0;
}

/* Finds each diode's stretch at the present voltages: whether any is another than before. */
static int other_stretches(struct simulation *simulation)
{
    int other = 0;
    for (int i = 0; i < simulation->diodes; i++) {
        struct diode *diode = &simulation->diode[i];
        int j = stretch(diode, simulation->node[diode->p] - simulation->node[diode->q]);
        other |= j != diode->stretch;
        diode->stretch = j;
    }
    return other;
}

/* Inverts the matrix with each diode on its stretch. */
static void invert_anew(struct simulation *simulation)
{
    copied(simulation, simulation->inverse);
    for (int i = 0; i < simulation->diodes; i++) {
        const struct diode *diode = &simulation->diode[i];
        stamp(simulation->inverse, diode->row_p, diode->row_q, diode->curve->slope[diode->stretch]);
    }
    invert(simulation->free, simulation->width, simulation->inverse);
    simulation->inverted = 1;
}

/* Adds to the right side what the diodes' tangents feed in, as stamp_diodes does. */
static void feed_diodes(const struct simulation *simulation, const double *known, double *right)
{
    for (int i = 0; i < simulation->diodes; i++) {
        const struct diode *diode = &simulation->diode[i];
        double slope = diode->curve->slope[diode->stretch], at_zero = diode->curve->at_zero[diode->stretch];
        if (diode->row_p != NO_ROW)
            right[diode->row_p] += slope * known[diode->q] - at_zero;
        if (diode->row_q != NO_ROW)
            right[diode->row_q] += slope * known[diode->p] + at_zero;
    }
}

/* The same search with the last round's inverse, while no diode has left its stretch. A round on the stretches of the one before would only come to
   the same voltages again, so it is left out. */
static int newton_kept(struct simulation *simulation, const double *known, const double *right)
{
    for (int round = 0; round < MOST_ROUNDS; round++) {
        double all[MOST_NODES], next[ROW];
        if (other_stretches(simulation) || !simulation->inverted)
            invert_anew(simulation);
        else if (round > 0)
            return 1;
        memcpy(all, right, sizeof all);
        feed_diodes(simulation, known, all);
        times(simulation->free, simulation->width, simulation->inverse, all, next);
        if (moved(simulation, next) < REST || simulation->diodes == 0)
            return 1;
    }
    return 0;
}

/* The right side without the diodes: what the drives feed in and what is stored. */
static void right_side(const struct simulation *simulation, const double *known, double *right)
{
    for (int i = 0; i < simulation->free; i++) {
        right[i] = 0;
        for (int d = 0; d < simulation->driven; d++)
            right[i] += simulation->from_driven[d][i] * known[d + 1];
    }
    for (int i = 0; i < simulation->stores; i++) {
        const struct store *store = &simulation->store[i];
        if (store->row_p != NO_ROW)
            right[store->row_p] += store->stored;
        if (store->row_q != NO_ROW)
            right[store->row_q] -= store->stored;
    }
}

long simulate(struct simulation *simulation, const double *drives, size_t samples, double *outputs)
{
    int driven = simulation->driven;
    double known[MOST_NODES + 1] = {0}, right[MOST_NODES], *node = simulation->node;
    long restless = 0;
    for (size_t sample = 0; sample < samples; sample++) {
        for (int d = 1; d <= driven; d++)
            known[d] = node[d] = *drives++;
        right_side(simulation, known, right);
        restless += !(simulation->way == KEPT ? newton_kept : newton)(simulation, known, right);
        for (int i = 0; i < simulation->stores; i++) {
            struct store *store = &simulation->store[i];
            store->stored = store->sign * (2 * store->conductance * (node[store->p] - node[store->q]) - store->stored);
        }
        outputs[sample] = node[simulation->output];
    }
    return restless;
}
