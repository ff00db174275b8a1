/* How long a load takes whose address is what the load before it gave, through areas of several sizes. What other machines on
   the same hardware do to the caches and the memory can show here.
   Build: gcc -O2 loads.c. Run: loads. */
#include <stdint.h>
#include <stdio.h>
#include <stdlib.h>
#include <time.h>

enum { LINE = 64, STEPS = 3000000 };

/* A number below n, of a generator that is good enough to leave no pattern. */
static size_t below(uint64_t *state, size_t n) {
    *state = *state * 6364136223846793005u + 1442695040888963407u;
    return (size_t)(*state >> 33) % n;
}

/* One cycle through the first word of each line, in an order without pattern (Sattolo). */
static size_t *cycle_of(size_t lines) {
    size_t *area = malloc(lines * LINE);
    size_t *order = malloc(lines * sizeof *order);
    if (!area || !order) exit(1);
    uint64_t state = 1;
    for (size_t i = 0; i < lines; i++) order[i] = i;
    for (size_t i = lines - 1; i > 0; i--) {
        size_t j = below(&state, i), at = order[i];
        order[i] = order[j];
        order[j] = at;
    }
    size_t words = LINE / sizeof *area;
    for (size_t i = 0; i < lines; i++) area[order[i] * words] = order[(i + 1) % lines] * words;
    free(order);
    return area;
}

static double seconds(void) {
    struct timespec now;
    clock_gettime(CLOCK_MONOTONIC, &now);
    return now.tv_sec + now.tv_nsec / 1e9;
}

int main(void) {
    const size_t sizes[] = {256 << 10, 4 << 20, 16 << 20, 256 << 20};
    for (size_t i = 0; i < sizeof sizes / sizeof *sizes; i++) {
        size_t *area = cycle_of(sizes[i] / LINE), at = 0;
        for (int step = 0; step < STEPS / 3; step++) at = area[at];
        double start = seconds();
        for (int step = 0; step < STEPS; step++) at = area[at];
        double taken = seconds() - start;
        printf("%7zu KiB: %5.1f ns a load (%zu)\n", sizes[i] >> 10, taken / STEPS * 1e9, at);
        free(area);
    }
}
