/* Proposals that no guess would make: the ends of the range and far beyond, zero, and anything between. */
#include <stdint.h>

#define NODES 1
#define DRIVEN 2

void bench_wild(const uint64_t *board, int64_t *volts);

static uint64_t seed = 1;

static uint64_t drawn(void)
{
    seed = seed * 6364136223846793005u + 1442695040888963407u;
    return seed >> 33;
}

static int64_t proposal(void)
{
    switch (drawn() % 8) {
    case 0:
        return INT64_MIN;
    case 1:
        return INT64_MAX;
    case 2:
        return 33554432;
    case 3:
        return -33554432;
    case 4:
        return 0;
    default:
        return (int64_t)(drawn() % 20000001) - 10000000;
    }
}

void bench_wild(const uint64_t *board, int64_t *volts)
{
    for (uint64_t node = board[DRIVEN] + 1; node <= board[NODES]; node++)
        volts[node] = proposal();
}
