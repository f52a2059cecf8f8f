/* Holds the proved block against the second program's: random calls on the cases' images, whole, damaged, with conductances at their
 * halves and in another version, with states, lengths and drives of all kinds; the answer and every byte of state and outputs must agree.
 * Each buffer is as long as it says and no longer, so that a sanitizer sees any access past it.
 *
 *     compare CALLS IMAGE .. */
#include "krtovalin.h"
#include "../random.h"
#include "../second/second.h"

#define NUMBERS (KRTOVALIN_REFUSED_STORED + 1)

/* now and then bytes changed, or the end cut off */
static struct bytes damaged(struct bytes from)
{
    struct bytes b = copy(from);
    if (below(4) == 0)
        for (uint64_t i = 0, n = 1 + below(3); i < n && b.length; i++)
            b.at[below(b.length)] = (uint8_t)draw();
    if (below(50) == 0 && b.length) {
        struct bytes cut = start(b, some_length(b.length));
        free(b.at);
        return cut;
    }
    return b;
}

static void put(uint8_t *at, uint64_t v, int n)
{
    for (int i = 0; i < n; i++)
        at[i] = (uint8_t)(v >> (8 * i));
}

/* for a resistor, a capacitor and an inductor: a value, and a rate where one is needed, at which its conductance is an odd number of half
 * nanosiemens, and stays one each time that the value is multiplied by five */
static const struct {
    uint64_t value, rate;
} half[] = {{1024, 0}, {1, 47250}, {1, 32768}};

/* now and then an element at such a half, or one step beside it */
static void put_half(struct bytes image)
{
    if (below(4) || image.length < 24)
        return;
    uint8_t *trailer = image.at + image.length - 16;
    size_t elements = trailer[4];
    if (elements == 0 || 8 * elements > image.length - 16)
        return;
    uint8_t *record = image.at + 8 * below(elements);
    if (record[0] < 1 || record[0] > 3)
        return;
    uint64_t value = half[record[0] - 1].value, rate = half[record[0] - 1].rate;
    for (uint64_t i = below(10); i; i--)
        value *= 5;
    put(record + 4, value + below(3) - 1, 4);
    if (rate)
        put(trailer + 8, rate, 4);
}

/* where an image has its version, before its last u16 */
static uint8_t *version(struct bytes image)
{
    return image.length < 3 ? NULL : image.at + image.length - 3;
}

/* in half of the calls one of the two versions, whatever the case's is; now and then neither of them */
static void put_version(struct bytes image)
{
    static const uint8_t neither[] = {0, 3, 255};
    uint8_t *at = version(image);
    if (!at)
        return;
    if (below(2))
        *at = (uint8_t)(1 + below(2));
    else if (below(20) == 0)
        *at = neither[below(sizeof neither)];
}

/* mostly zero; else small numbers, the limit and numbers past it, or noise */
static struct bytes some_state(void)
{
    static const int64_t marks[] = {1, -1, 144115188075855872, -144115188075855872, 144115188075855873, -144115188075855873, INT64_MIN};
    struct bytes b = make(below(40) ? KRTOVALIN_STATE : some_length(520));
    uint64_t kind = below(8);
    for (size_t j = 0; j < b.length; j++)
        b.at[j] = 0;
    for (size_t j = 0; 8 * j + 8 <= b.length; j++)
        if (kind == 6 && below(6) == 0)
            put(b.at + 8 * j, (uint64_t)marks[below(7)], 8);
        else if (kind == 7 && j < 4)
            put(b.at + 8 * j, (draw() >> 40) - (1u << 23), 8);
    return b;
}

static struct bytes some_drives(void)
{
    struct bytes b = make(some_length(140));
    uint64_t kind = below(6);
    for (size_t j = 0; 4 * j + 4 <= b.length; j++) {
        int64_t v = (int64_t)below(4000001) - 2000000;
        if (kind == 0)
            v = (int64_t)below(33554433) - 16777216;
        if (kind == 1 && below(12) == 0)
            v = below(2) ? 16777217 : -16777217;
        put(b.at + 4 * j, (uint64_t)v, 4);
    }
    return b;
}

int main(int argc, char **argv)
{
    unsigned long calls = argc > 2 ? strtoul(argv[1], NULL, 10) : 0;
    int images = argc - 2;
    unsigned long numbers[NUMBERS] = {0}, in_version_2 = 0;
    for (unsigned long call = 0; call < calls; call++) {
        struct bytes whole = load(argv[2 + below((uint64_t)images)], 1400);
        struct bytes image = damaged(whole), state = some_state(), drives = some_drives(), outputs = make(some_length(80));
        put_half(image);
        put_version(image);
        uint64_t n = below(20) ? below(12) : draw() >> below(64);
        for (size_t i = 0; i < outputs.length; i++)
            outputs.at[i] = (uint8_t)draw();
        struct bytes state2 = copy(state), outputs2 = copy(outputs);
        uint64_t a = krtovalin_block(image.at, image.length, state.at, state.length, n, drives.at, drives.length, outputs.at, outputs.length);
        uint64_t b = second_block(image.at, image.length, state2.at, state2.length, n, drives.at, drives.length, outputs2.at, outputs2.length);
        int states = alike(state, state2), places = alike(outputs, outputs2);
        if (a != b || !states || !places) {
            printf("call %lu: %llu and %llu, state %s, outputs %s\n", call, (unsigned long long)a, (unsigned long long)b,
                   states ? "same" : "differs", places ? "same" : "differ");
            return 1;
        }
        numbers[KRTOVALIN_NUMBER(a) < NUMBERS ? KRTOVALIN_NUMBER(a) : 0]++;
        in_version_2 += KRTOVALIN_NUMBER(a) == KRTOVALIN_DONE && *version(image) == 2;
        free(whole.at), free(image.at), free(state.at), free(drives.at), free(outputs.at), free(state2.at), free(outputs2.at);
    }
    if (calls >= 1000 && !in_version_2) {
        printf("none of %lu calls was done in version 2\n", calls);
        return 1;
    }
    printf("%lu calls agree, %lu of them done in version 2; by number:", calls, in_version_2);
    for (int i = 0; i < NUMBERS; i++)
        printf(" %lu", numbers[i]);
    printf("\n");
    return 0;
}
