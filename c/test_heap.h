/* For c/test.c: a heap that refuses what it is told to, bytes, and what a refused call leaves. */
#include "bulwynef.h"
#include <stdio.h>
#include <stdlib.h>
#include <string.h>

/* ---- the heap */
static long left = -1, live, asked;
struct tried { uint64_t ok; void *p; };
static char none;
static int is_refused(void) { asked++; return left < 0 ? 0 : left-- == 0; }
static struct tried answer(void *p) { struct tried t; t.ok = p != NULL; t.p = p ? p : &none; return t; }
#ifdef __cplusplus
extern "C" {
#endif
struct tried rattle_alloc(size_t n, size_t align);
struct tried rattle_realloc(void *p, size_t kept, size_t n, size_t align);
void rattle_dealloc(void *p);
#ifdef __cplusplus
}
#endif
struct tried rattle_alloc(size_t n, size_t align) {
    void *p = is_refused() ? NULL : malloc(n ? n : align);
    live += p != NULL;
    return answer(p);
}
struct tried rattle_realloc(void *p, size_t kept, size_t n, size_t align) {
    (void)kept;
    return answer(is_refused() ? NULL : realloc(p, n ? n : align));
}
void rattle_dealloc(void *p) { live--; free(p); }

/* ---- bytes */
struct bytes { uint8_t *at; size_t len; };
static struct bytes nothing(void) { struct bytes b; b.at = NULL; b.len = 0; return b; }
static void drop(struct bytes *b) { free(b->at); *b = nothing(); }
/* of all that is told, in its order: FNV-1a */
static uint64_t transcript;
static void note(const void *told, size_t len) {
    const uint8_t *at = (const uint8_t *)told;
    size_t i;
    for (i = 0; i < len; i++) transcript = (transcript ^ at[i]) * 1099511628211u;
}
static struct bytes copy_of(struct bulwynef_handle *t) {
    struct bytes b;
    b.len = bulwynef_text_len(t);
    b.at = (uint8_t *)malloc(b.len + 1);
    if (!b.at || bulwynef_text_copy(t, b.at, b.len)) { fprintf(stderr, "a text is not copied\n"); exit(1); }
    bulwynef_close(t);
    return b;
}
static struct bytes text_of(struct bulwynef_handle *t) {
    struct bytes b = copy_of(t);
    note(b.at, b.len);
    return b;
}
/* whether the text has the line, with its line feed */
static int has_line(struct bytes text, const char *line) {
    size_t len = strlen(line), at;
    for (at = 0; at + len < text.len; at++)
        if ((at == 0 || text.at[at - 1] == '\n') && memcmp(text.at + at, line, len) == 0 && text.at[at + len] == '\n') return 1;
    return 0;
}
static int same(struct bytes a, struct bytes b) { return a.len == b.len && (a.len == 0 || memcmp(a.at, b.at, a.len) == 0); }
static void add_bytes(struct bytes *b, const void *more, size_t len) {
    uint8_t *at = (uint8_t *)realloc(b->at, b->len + len + 1);
    if (!at) { fprintf(stderr, "the test has no memory\n"); exit(1); }
    memcpy(at + b->len, more, len);
    b->at = at;
    b->len += len;
}

/* ---- what a scene says: that 99 was told; that a line is not as wanted; that the scene ended at a 99; and how many growths were refused
   that nobody was told of */
static int spent, wrong, is_cut, spared;
static int is(int line, uint8_t got, uint8_t wanted) {
    if (got == 99 && wanted != 99) { spent = is_cut = 1; return 0; }
    if (got != wanted) { fprintf(stderr, "line %d: %u and not %u\n", line, got, wanted); wrong = 1; return 0; }
    return 1;
}
static int holds(int line, int fact) {
    if (!fact) { fprintf(stderr, "line %d does not hold\n", line); wrong = 1; }
    return fact;
}
#define HOLDS(fact) do { if (!holds(__LINE__, fact)) goto end; } while (0)

/* ---- what a refused call leaves */
enum { FILLED = 0x5a, MOST_HELD = 7, MOST_CALLS = 256 };
/* the numbers that calls write to */
static struct { uint64_t seq, added; size_t end; uint32_t node, leaves; uint8_t said, is_new, includes, knows; } out;
/* the handles, and what lay behind them; of each call how often it asks for memory, where nothing is refused */
static struct bulwynef_handle *held[MOST_HELD];
static struct bytes before[MOST_HELD];
static long used[MOST_CALLS], began;
static int handles, calls, is_looking, is_counting, was_armed;
static void hold(struct bulwynef_handle *a, struct bulwynef_handle *b, struct bulwynef_handle *c, struct bulwynef_handle *d,
                 struct bulwynef_handle *e, struct bulwynef_handle *f, struct bulwynef_handle *g) {
    held[0] = a; held[1] = b; held[2] = c; held[3] = d; held[4] = e; held[5] = f; held[6] = g;
    handles = 7;
    calls = 0;
}
static struct bytes state_of(struct bulwynef_handle *h) {
    struct bulwynef_handle t = {0, false};
    struct bytes b = nothing(), text;
    long kept = left, count = asked;
    uint64_t seq = 0;
    uint32_t leaves = 0;
    size_t place;
    left = -1;
    add_bytes(&b, h->is_open ? "open" : "shut", 4);
    if (bulwynef_store_export(h, &t) == 0 || bulwynef_node_history(h, &t) == 0) {
        text = copy_of(&t);
        add_bytes(&b, text.at, text.len);
        drop(&text);
        if (bulwynef_node_remaining(h, &leaves) == 0) add_bytes(&b, &leaves, sizeof leaves);
        for (place = 0; bulwynef_node_waiting(h, place, &seq) == 0; place++) add_bytes(&b, &seq, sizeof seq);
    } else {
        text.len = bulwynef_text_len(h);
        text.at = (uint8_t *)malloc(text.len + 1);
        if (h->is_open && (!text.at || bulwynef_text_copy(h, text.at, text.len))) { fprintf(stderr, "a handle of nothing\n"); exit(1); }
        add_bytes(&b, text.at, text.len);
        drop(&text);
    }
    left = kept;
    asked = count;
    return b;
}
/* Before a call: what has to stay is looked at where the call is to be refused, or an allocation of its is. */
static void look(uint8_t wanted) {
    int i;
    is_looking = wanted != 0 || (left >= 0 && calls < MOST_CALLS && left < used[calls]);
    memset(&out, FILLED, sizeof out);
    for (i = 0; is_looking && i < handles; i++) before[i] = state_of(held[i]);
    began = asked;
    was_armed = left >= 0;
}
static int is_all(const uint8_t *at, size_t len) {
    size_t i;
    for (i = 0; i < len; i++)
        if (at[i] != FILLED) return 0;
    return 1;
}
/* Whether a growth that was refused in the call was told, or is one that may be spared. */
static int is_told(int line, uint8_t got, int may_spare) {
    if (!was_armed || left >= 0 || got == 99 || spent) return 1;
    if (may_spare && got == 0) { spared++; return 1; }
    fprintf(stderr, "line %d: memory was refused, and %u is told\n", line, got);
    wrong = 1;
    return 0;
}
/* Behind it: whether all is as it was, where the call was refused. */
static int is_kept(int line, uint8_t got, int may_spare) {
    struct bytes now;
    int i, are_same = got == 0 || is_all((const uint8_t *)&out, sizeof out);
    note(&got, 1);
    note(&out, sizeof out);
    if (is_counting && calls < MOST_CALLS) used[calls] = asked - began;
    calls++;
    for (i = 0; is_looking && i < handles; i++) {
        now = state_of(held[i]);
        are_same = are_same && (got == 0 || same(now, before[i]));
        drop(&now);
        drop(&before[i]);
    }
    is_looking = 0;
    if (!are_same) { fprintf(stderr, "line %d: refused %u, and something changed\n", line, got); wrong = 1; }
    return are_same && is_told(line, got, may_spare);
}
#define WANT_OF(call, number, may_spare) do { uint8_t got_; look(number); got_ = (call); \
    if (!is_kept(__LINE__, got_, may_spare) || !is(__LINE__, got_, number)) goto end; } while (0)
#define WANT(call, number) WANT_OF(call, number, 0)
/* Once a store was asked for a digest, it keeps those of its items when items are added. Where there is no memory for that it keeps none,
   and makes each when it is asked for: the call is not refused, and nothing else is told otherwise. */
#define WANT_OR_SPARE(call) WANT_OF(call, 0, 1)
