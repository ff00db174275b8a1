/* A map from 64-bit keys to counts, by hashing with quotients and remainders; puts, takes and reads, and divisions of both signs. */
#include "begin.h"
#define ROOM 4099
struct slot { uint64_t key; int32_t count; uint8_t used; };
static struct slot slots[ROOM];
static uint64_t state = 88172645463325252u;
static uint64_t drawn(void) { state ^= state << 13; state ^= state >> 7; return state ^= state << 17; }
static struct slot *slot_of(uint64_t key) {
    uint32_t at = (uint32_t)((key ^ key >> 31) * 0x9e3779b97f4a7c15u >> 33) % ROOM;
    while (slots[at].used && slots[at].key != key) at = (at + 1) % ROOM;
    return &slots[at];
}
__attribute__((noinline)) static int64_t over(int64_t a, int64_t b) {
    uint64_t p = a < 0 ? -(uint64_t)a : (uint64_t)a, q = b < 0 ? -(uint64_t)b : (uint64_t)b, quotient = 0, rest = 0;
    for (int i = 63; i >= 0; i--) { rest = rest << 1 | (p >> i & 1); if (rest >= q) { rest -= q; quotient |= (uint64_t)1 << i; } }
    return (int64_t)((a < 0) != (b < 0) ? -quotient : quotient);
}
static size_t work(void) {
    size_t at = 0;
    uint32_t count = 0;
    for (int n = 0; n < 20000; n++) {
        uint64_t key = (uint32_t)(drawn() >> 20) % 3000 * (uint64_t)0x100000001u;
        struct slot *s = slot_of(key);
        if (!s->used) { s->used = 1; s->key = key; count++; }
        s->count += (int32_t)((uint32_t)(drawn() >> 30) % 7) - 3;
    }
    tell32(&at, count);
    uint32_t sum = 0;
    int32_t least = 0, most = 0;
    for (int n = 0; n < ROOM; n++) {
        if (!slots[n].used) continue;
        int32_t c = slots[n].count;
        if (c < least) least = c;
        if (c > most) most = c;
        int32_t d = (int32_t)(uint32_t)(slots[n].key >> 3) | 1;
        sum = sum * 31 + (uint32_t)(c * 1000 / d) + (uint32_t)(c * 1000 % d) + (uint32_t)((int64_t)c * d >> 32);
    }
    tell32(&at, sum); tell32(&at, (uint32_t)least); tell32(&at, (uint32_t)most);
    for (int n = 0; n < 100; n++) {
        int64_t a = (int64_t)drawn(), b = (int64_t)drawn() >> (n % 60);
        if (b == 0) b = -1;
        uint64_t q = (uint64_t)over(a, b);
        tell32(&at, (uint32_t)q); tell32(&at, (uint32_t)(q >> 32));
    }
    return at;
}
