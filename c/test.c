/* Tests of libbulwynef.a, built as C11 and as C++, with a heap of their own that counts its blocks and refuses the one that is told.
 *
 *   test self          the calls in scenes of two nodes and their witnesses, and what each refuses
 *   test fails         three scenes again and again, with each allocation refused in turn: no block is left, and 99 is told, with nothing
 *                      changed; or else all is told as where nothing is refused, which is known of the three stores of the first scene
 *                      that could not keep their digests
 *
 * Before a call that is refused, the numbers that calls write to are filled, and what lies behind each handle is written down: an export, a
 * log with what waits and how many leaves are left, a text. Behind it both are as they were.
 *
 *   test status|prove NODE|check|merge [--relay]   reads lines and writes what the command of node_sim does
 *   test store|proof [--relay]                     reads a directory and a store or a proof, and writes what is explained of it
 */
#include "test_refusals.h"

static void play_anew(void (*play)(void), long at) {
    left = at;
    spent = is_cut = spared = 0;
    transcript = 0;
    play();
}
/* A scene with each allocation refused in turn, of which so many are known to be spared. */
static int fails_in(const char *name, void (*play)(void), long known) {
    long at, refused = 0, unkept = 0;
    uint64_t wanted;
    is_counting = 1;
    play_anew(play, -1);
    is_counting = 0;
    wanted = transcript;
    for (at = 0; !wrong; at++) {
        play_anew(play, at);
        if (!wrong && !is_cut && transcript != wanted) { fprintf(stderr, "%s tells something else\n", name); wrong = 1; }
        if (wrong) { fprintf(stderr, "%s, with allocation %ld refused\n", name, at); return 1; }
        if (left >= 0) break; /* fewer allocations than that */
        refused += spent;
        unkept += spared;
    }
    left = -1;
    printf("%s: %ld allocations; refused with nothing changed %ld, digests not kept %ld of %ld, no block left\n", name, at, refused, unkept, known);
    return wrong || refused + unkept != at || unkept != known;
}
static int fails(void) { return fails_in("scene", scene, 3) || fails_in("forked", forked, 0) || fails_in("restored", restored, 0); }

/* ---- the commands of node_sim, by lines of hexadecimal digits */
static int digit(int c) { return c <= '9' ? c - '0' : (c | 32) - 'a' + 10; }
static int is_digit(int c) { return (c >= '0' && c <= '9') || (c >= 'a' && c <= 'f') || (c >= 'A' && c <= 'F'); }
static int read_line(struct bytes *line) { /* 0 a line, 1 none, 103 no digits */
    size_t room = 1 << 16;
    int c = getchar(), low;
    *line = nothing();
    if (c == EOF) return 1;
    line->at = (uint8_t *)malloc(room);
    for (; c != EOF && c != '\n'; c = getchar()) {
        low = getchar();
        if (!line->at || !is_digit(c) || !is_digit(low)) {
            while (c != '\n' && low != '\n' && low != EOF) low = getchar();
            return 103;
        }
        if (line->len == room) line->at = (uint8_t *)realloc(line->at, room *= 2);
        line->at[line->len++] = (uint8_t)(digit(c) * 16 + digit(low));
    }
    return 0;
}
static uint32_t number_at(const uint8_t *at) { return (uint32_t)at[0] << 24 | (uint32_t)at[1] << 16 | (uint32_t)at[2] << 8 | at[3]; }
static int by_number(const void *a, const void *b) {
    uint32_t x = *(const uint32_t *)a, y = *(const uint32_t *)b;
    return (x > y) - (x < y);
}
static int refused(uint8_t number) { printf("refused %u\n", number); return 1; }
static void write_hex(struct bytes b) {
    size_t i;
    for (i = 0; i < b.len; i++) printf("%02x", b.at[i]);
    printf("\n");
}
static int status(struct bulwynef_handle *store, struct bytes d) {
    static const char *const names[] = {"no indication", "trusted", "suspected", "exposed"};
    uint32_t count = number_at(d.at + 8), i, *nodes = (uint32_t *)malloc(count * sizeof *nodes + 1);
    int is_old = memcmp(d.at, "PRDIRECT", 8) == 0;
    const uint8_t *at = d.at + 12;
    uint8_t said = 0;
    for (i = 0; i < count; i++) { nodes[i] = number_at(at); at += is_old ? 60 : 5 + 56 * (size_t)at[4]; }
    qsort(nodes, count, sizeof *nodes, by_number);
    for (i = 0; i < count; i++) {
        if (bulwynef_store_indication(store, nodes[i], &said)) return 1;
        printf("%u %s\n", nodes[i], names[said]);
    }
    free(nodes);
    return 0;
}
/* The lines of standard input; 0, or the refusal: a third line of another command than merge, a line of other characters, too few. */
enum { MOST_LINES = 64 };
static int read_lines(struct bytes *lines, int *count, int is_merge) {
    struct bytes line;
    int r, is_bad = 0;
    for (*count = 0; (r = read_line(&line)) != 1; lines[(*count)++] = line) {
        is_bad = is_bad || r;
        if (*count == (is_merge ? MOST_LINES : 2)) { drop(&line); return 104; }
    }
    return is_bad ? 103 : *count < (is_merge ? 1 : 2) ? 104 : 0;
}
static int explained(uint8_t r, struct bulwynef_handle *text) {
    struct bytes told;
    if (r) return refused(r);
    told = text_of(text);
    fwrite(told.at, 1, told.len, stdout);
    drop(&told);
    return 0;
}
static int answer_of_proof(const char *what, uint8_t program, struct bytes d, struct bytes proof) {
    struct bulwynef_handle text = {0, false};
    uint32_t found = 0;
    uint8_t r;
    if (strcmp(what, "proof") == 0) return explained(bulwynef_explain_proof(program, d.at, d.len, proof.at, proof.len, &text), &text);
    r = bulwynef_check_proof(program, d.at, d.len, proof.at, proof.len, &found);
    if (r) return refused(r);
    printf("exposes %u\n", found);
    return 0;
}
static int answer_of(const char *what, uint32_t node, uint8_t program, struct bytes *lines, int count) {
    struct bulwynef_handle store = {0, false}, text = {0, false};
    uint64_t added = 0;
    uint8_t r;
    int i, end = 0;
    if (strcmp(what, "check") == 0 || strcmp(what, "proof") == 0) return answer_of_proof(what, program, lines[0], lines[1]);
    r = bulwynef_store_open(program, lines[0].at, lines[0].len, &store);
    for (i = 1; !r && i < count; i++) r = bulwynef_store_import(&store, lines[i].at, lines[i].len, &added);
    if (r) end = refused(r);
    else if (strcmp(what, "status") == 0) end = status(&store, lines[0]);
    else if (strcmp(what, "store") == 0) end = explained(bulwynef_store_explain(&store, &text), &text);
    else {
        r = strcmp(what, "merge") == 0 ? bulwynef_store_export(&store, &text) : bulwynef_store_proof(&store, node, &text);
        if (r == 115) printf("none\n");
        else if (r) end = refused(r);
        else { struct bytes b = text_of(&text); write_hex(b); drop(&b); }
    }
    bulwynef_close(&store); bulwynef_close(&text);
    return end;
}
static int command(const char *what, uint32_t node, uint8_t program) {
    struct bytes lines[MOST_LINES];
    int count = 0, r = read_lines(lines, &count, strcmp(what, "merge") == 0);
    if (r) refused((uint8_t)r);
    else r = answer_of(what, node, program, lines, count);
    while (count > 0) drop(&lines[--count]);
    return r != 0;
}

int main(int argc, char **argv) {
    const char *what = argc > 1 ? argv[1] : "self";
    uint8_t program = BULWYNEF_TALLY;
    uint32_t node = 0;
    int i;
    for (i = 2; i < argc; i++) {
        if (strcmp(argv[i], "--relay") == 0) program = BULWYNEF_RELAY;
        else node = (uint32_t)strtoul(argv[i], NULL, 10);
    }
    if (strcmp(what, "self") == 0) { scene(); forked(); mangled(); survives(); restored(); refusals(); unrestored(); printf(wrong || spent ? "failed\n" : "ok\n"); return wrong || spent; }
    if (strcmp(what, "fails") == 0) return fails();
    return command(what, node, program);
}
