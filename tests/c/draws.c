/* The archive's draws against the next() of splitmix64.c: 1,000 draws of 10 seeds, and the numbers that document 01's
 * issue names for the seeds 0 and 1234567. */
#include <inttypes.h>
#include <stdio.h>
#include "bodkinbloom.h"

/* splitmix64.c, by Sebastiano Vigna, in the public domain: the state is x. */
static uint64_t x;

static uint64_t next(void) {
    uint64_t z = (x += UINT64_C(0x9e3779b97f4a7c15));
    z = (z ^ (z >> 30)) * UINT64_C(0xbf58476d1ce4e5b9);
    z = (z ^ (z >> 27)) * UINT64_C(0x94d049bb133111eb);
    return z ^ (z >> 31);
}

static const uint64_t seeds[10] = {
    0, 1, 1234567, UINT64_MAX, UINT64_C(0x8000000000000000), UINT64_C(0x7fffffffffffffff),
    UINT64_C(0x61c8864680b583eb), /* the first step wraps to 0 */
    UINT64_C(0x9e3779b97f4a7c15), UINT64_C(0x0123456789abcdef), UINT64_C(42),
};

static const uint64_t from_0[5] = {
    UINT64_C(0xE220A8397B1DCDAF), UINT64_C(0x6E789E6AA1B965F4), UINT64_C(0x06C45D188009454F),
    UINT64_C(0xF88BB8A8724C81EC), UINT64_C(0x1B39896A51A8749B),
};

static const uint64_t from_1234567[5] = {
    UINT64_C(6457827717110365317), UINT64_C(3203168211198807973), UINT64_C(9817491932198370423),
    UINT64_C(4593380528125082431), UINT64_C(16408922859458223821),
};

static int failures;

static void same(const char *what, uint64_t seed, int draw, uint64_t got, uint64_t want) {
    if (got != want) {
        printf("%s: seed %" PRIu64 ", draw %d: %016" PRIX64 ", not %016" PRIX64 "\n", what, seed, draw, got, want);
        failures++;
    }
}

static void known(uint64_t seed, const uint64_t *numbers) {
    uint64_t state = seed;
    for (int i = 0; i < 5; i++)
        same("a number of splitmix64.c", seed, i, bodkinbloom_draw(&state), numbers[i]);
}

int main(void) {
    int draws = 0;
    for (int s = 0; s < 10; s++) {
        uint64_t state = x = seeds[s];
        for (int i = 0; i < 1000; i++, draws++) {
            same("next()", seeds[s], i, bodkinbloom_draw(&state), next());
            same("its state", seeds[s], i, state, x);
        }
    }
    known(0, from_0);
    known(1234567, from_1234567);
    printf("%d draws of 10 seeds, and the 10 numbers of the seeds 0 and 1234567: %d differences\n", draws, failures);
    return failures != 0 || draws != 10000;
}
