/* Image bytes to a circuit. Conductances are whole nanosiemens, the nearest, halves upward, so that both simulators play the same circuit. */
#include "circuit.h"

#include <math.h>

static uint32_t whole(const uint8_t *bytes, int count)
{
    uint32_t value = 0;
    while (count-- > 0)
        value = value << 8 | bytes[count];
    return value;
}

/* The current of a curve is zero at zero volts and continuous; that fixes each stretch's line. */
static size_t curve_read(struct curve *curve, const uint8_t *bytes)
{
    int count = curve->breakpoints = bytes[0];
    const uint8_t *slopes = bytes + 4, *breakpoints = slopes + 4 * (count + 1);
    for (int j = 0; j <= count; j++)
        curve->slope[j] = whole(slopes + 4 * j, 4);
    for (int j = 0; j < count; j++)
        curve->breakpoint[j] = (int32_t)whole(breakpoints + 4 * j, 4);

    int middle = 0;
    while (middle < count && curve->breakpoint[middle] <= 0)
        middle++;
    curve->at_zero[middle] = 0;
    for (int j = middle; j < count; j++)
        curve->at_zero[j + 1] = curve->at_zero[j] + (curve->slope[j] - curve->slope[j + 1]) * curve->breakpoint[j];
    for (int j = middle; j > 0; j--)
        curve->at_zero[j - 1] = curve->at_zero[j] + (curve->slope[j] - curve->slope[j - 1]) * curve->breakpoint[j - 1];
    return 8 + 8 * (size_t)count;
}

static double conductance(enum kind kind, double value, double rate)
{
    switch (kind) {
    case RESISTOR: return round(1e9 / value);
    case CAPACITOR: return round(2 * value * rate / 1000);
    case INDUCTOR: return round(1e15 / (2 * value * rate));
    default: return 0;
    }
}

void circuit_read(struct circuit *circuit, const uint8_t *image, size_t length)
{
    const uint8_t *trailer = image + length - 16;
    const uint8_t *records = trailer - whole(trailer, 2), *curves = trailer - whole(trailer + 2, 2);
    circuit->leak = trailer[13] == 1 ? 1 : 10;
    circuit->elements = trailer[4];
    circuit->nodes = trailer[6];
    circuit->driven = trailer[7];
    circuit->output = trailer[12];
    for (int i = 0; i < trailer[5]; i++)
        curves += curve_read(&circuit->curve[i], curves);
    for (int i = 0; i < circuit->elements; i++) {
        const uint8_t *record = records + 8 * i;
        enum kind kind = record[0];
        circuit->element[i] = (struct element){
            .kind = kind,
            .p = record[1],
            .q = record[2],
            .conductance = conductance(kind, whole(record + 4, 4), whole(trailer + 8, 4)),
            .curve = kind == DIODE ? &circuit->curve[record[3]] : NULL,
        };
    }
}
