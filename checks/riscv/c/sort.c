/* Sorts of signed, unsigned and 64-bit numbers and of bytes: quicksort, heapsort and insertion. */
#include "begin.h"
#define COUNT 1000
static uint32_t state = 12345;
static uint32_t drawn(void) { state ^= state << 13; state ^= state >> 17; return state ^= state << 5; }
static int32_t a[COUNT];
static uint64_t b[COUNT];
static int8_t c[COUNT];
static void quick(int32_t *from, int32_t *to) {
    if (to - from < 2) return;
    int32_t middle = from[(to - from) / 2], *i = from, *j = to - 1;
    while (i <= j) {
        while (*i < middle) i++;
        while (*j > middle) j--;
        if (i <= j) { int32_t t = *i; *i++ = *j; *j-- = t; }
    }
    quick(from, j + 1);
    quick(i, to);
}
static void sink(uint32_t at, uint32_t count) {
    for (uint32_t child; (child = 2 * at + 1) < count; at = child) {
        if (child + 1 < count && b[child] < b[child + 1]) child++;
        if (b[at] >= b[child]) return;
        uint64_t t = b[at]; b[at] = b[child]; b[child] = t;
    }
}
static size_t work(void) {
    size_t at = 0;
    for (int i = 0; i < COUNT; i++) { a[i] = (int32_t)drawn(); b[i] = (uint64_t)drawn() << 32 | drawn(); c[i] = (int8_t)drawn(); }
    quick(a, a + COUNT);
    for (uint32_t i = COUNT / 2; i-- > 0;) sink(i, COUNT);
    for (uint32_t n = COUNT; n-- > 1;) { uint64_t t = b[0]; b[0] = b[n]; b[n] = t; sink(0, n); }
    for (int i = 1; i < COUNT; i++) for (int j = i; j > 0 && c[j] < c[j - 1]; j--) { int8_t t = c[j]; c[j] = c[j - 1]; c[j - 1] = t; }
    uint32_t sum = 0, wrong = 0;
    for (int i = 0; i < COUNT; i++) {
        if (i > 0) wrong += (a[i] < a[i - 1]) + (b[i] < b[i - 1]) + (c[i] < c[i - 1]);
        sum = sum * 31 + (uint32_t)a[i]; sum = sum * 31 + (uint32_t)(b[i] >> 32) + (uint32_t)b[i]; sum = sum * 31 + (uint8_t)c[i];
    }
    tell32(&at, wrong);
    tell32(&at, sum);
    for (int i = 0; i < 100; i++) { tell32(&at, (uint32_t)a[i * 10]); tell32(&at, (uint32_t)(b[i * 10] >> 32)); result[at++] = (uint8_t)c[i * 10]; }
    return at;
}
