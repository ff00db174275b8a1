/* Baseline: making an LMS key of a seed, and signing (RFC 8554, sections 4.3, 4.5, 5.3, 5.4.1 and appendix A; SHA-256,
   n = m = 32) in plain C, to measure Bulwynef against. The hash is libcrypto's SHA256_Init, Update and Final, as an ordinary C user writes
   it; a step of a chain is one text of 55 bytes, updated in place. Each chain is hashed once, and the tree is kept.
   Makes keys of (H5, W8), of (H10, W4) and of (H10, W8), and prints for each the least and the middle time and the first key's root;
   then signs by 32 leaves of (H5, W8) for each key, and prints the times of a signature. With a second word it writes
   there a line 'key message signature' in hexadecimal for each signature of the first key, for lms_verify.
   Build: gcc -O3 -march=native lms_make.c -lcrypto (Debian libssl-dev). Run: lms_make [KEYS [FILE]], 11 keys a pair by itself. */
#define OPENSSL_SUPPRESS_DEPRECATED
#include <openssl/sha.h>
#include <stdint.h>
#include <stdio.h>
#include <stdlib.h>
#include <string.h>
#include <time.h>

typedef uint8_t u8;
enum { MOST_KEYS = 1001 };

typedef struct {
    u8 id[16], seed[32];
    int h, w, p;
    u8 (*nodes)[32]; /* T[r] at place r */
} Key;

static void put32(u8 *at, uint32_t n) {
    at[0] = n >> 24;
    at[1] = n >> 16;
    at[2] = n >> 8;
    at[3] = n;
}

/* The start of a hashed text: I, the number of a leaf or node, and two bytes that tell what is hashed. */
static void begin(SHA256_CTX *hasher, const u8 *id, uint32_t n, u8 kind) {
    u8 place[22];
    memcpy(place, id, 16);
    put32(place + 16, n);
    place[20] = place[21] = kind;
    SHA256_Init(hasher);
    SHA256_Update(hasher, place, 22);
}

static void hash_step(u8 text[55], u8 step) {
    SHA256_CTX hasher;
    text[22] = step;
    SHA256_Init(&hasher);
    SHA256_Update(&hasher, text, 55);
    SHA256_Final(text + 23, &hasher);
}

/* K of leaf q. */
static void one_time_key(const Key *key, uint32_t q, u8 out[32]) {
    SHA256_CTX hasher;
    u8 text[55];
    begin(&hasher, key->id, q, 0x80);
    memcpy(text, key->id, 16);
    put32(text + 16, q);
    for (int i = 0; i < key->p; i++) {
        text[20] = i >> 8;
        text[21] = i;
        memcpy(text + 23, key->seed, 32);
        hash_step(text, 0xff);
        for (int step = 0; step < (1 << key->w) - 1; step++)
            hash_step(text, step);
        SHA256_Update(&hasher, text + 23, 32);
    }
    SHA256_Final(out, &hasher);
}

static int make(Key *key) {
    uint32_t leaves = 1u << key->h;
    SHA256_CTX hasher;
    u8 ots_key[32];
    key->nodes = calloc(2 * leaves, 32);
    if (!key->nodes)
        return 0;
    for (uint32_t q = 0; q < leaves; q++) {
        one_time_key(key, q, ots_key);
        begin(&hasher, key->id, leaves + q, 0x82);
        SHA256_Update(&hasher, ots_key, 32);
        SHA256_Final(key->nodes[leaves + q], &hasher);
    }
    for (uint32_t r = leaves - 1; r > 0; r--) {
        begin(&hasher, key->id, r, 0x83);
        SHA256_Update(&hasher, key->nodes[2 * r], 32);
        SHA256_Update(&hasher, key->nodes[2 * r + 1], 32);
        SHA256_Final(key->nodes[r], &hasher);
    }
    return 1;
}

static double now(void) {
    struct timespec t;
    clock_gettime(CLOCK_MONOTONIC, &t);
    return t.tv_sec * 1e6 + t.tv_nsec * 1e-3;
}

static int by_value(const void *a, const void *b) {
    double x = *(const double *)a, y = *(const double *)b;
    return (x > y) - (x < y);
}

/* Makes the keys with identifiers and seeds that end in 1, 2, and so on. */
static int measure(const char *name, int h, int w, int p, int keys) {
    static double took[MOST_KEYS];
    u8 root[32] = {0};
    for (int n = 1; n <= keys; n++) {
        Key key = {.h = h, .w = w, .p = p};
        put32(key.id + 12, n);
        put32(key.seed + 28, n);
        double start = now();
        if (!make(&key))
            return 0;
        took[n - 1] = now() - start;
        if (n == 1)
            memcpy(root, key.nodes[1], 32);
        free(key.nodes);
    }
    qsort(took, keys, sizeof took[0], by_value);
    printf("make %s: least %.0f us, middle %.0f us, root ", name, took[0], took[keys / 2]);
    for (int i = 0; i < 32; i++)
        printf("%02x", root[i]);
    printf("\n");
    return 1;
}

/* Coefficient i of w bits of a text. */
static int coefficient(const u8 *text, int i, int w) {
    return ((1 << w) - 1) & (text[i * w / 8] >> (8 - (w * (i % (8 / w)) + w)));
}

/* The digest of a message with C under leaf q, and its checksum; W8 shifts it by 0. */
static void signed_text(const Key *key, uint32_t q, const u8 *c, const u8 *msg, size_t len, u8 text[34]) {
    SHA256_CTX hasher;
    unsigned sum = 0;
    begin(&hasher, key->id, q, 0x81);
    SHA256_Update(&hasher, c, 32);
    SHA256_Update(&hasher, msg, len);
    SHA256_Final(text, &hasher);
    for (int i = 0; i < 256 / key->w; i++)
        sum += ((1 << key->w) - 1) - coefficient(text, i, key->w);
    text[32] = sum >> 8;
    text[33] = sum;
}

/* Signs by leaf q of a key of W8, and gives the signature's length. */
static size_t sign(const Key *key, uint32_t q, const u8 *c, const u8 *msg, size_t len, u8 *out) {
    u8 text[34], step[55], *at = out + 40;
    signed_text(key, q, c, msg, len, text);
    put32(out, q);
    put32(out + 4, 4);
    memcpy(out + 8, c, 32);
    memcpy(step, key->id, 16);
    put32(step + 16, q);
    for (int i = 0; i < key->p; i++, at += 32) {
        step[20] = i >> 8;
        step[21] = i;
        memcpy(step + 23, key->seed, 32);
        hash_step(step, 0xff);
        for (int j = 0; j < coefficient(text, i, key->w); j++)
            hash_step(step, j);
        memcpy(at, step + 23, 32);
    }
    put32(at, key->h / 5 + 4);
    at += 4;
    for (uint32_t r = (1u << key->h) + q; r > 1; r /= 2, at += 32)
        memcpy(at, key->nodes[r ^ 1], 32);
    return at - out;
}

static void write_hex(FILE *file, const u8 *bytes, size_t len, char end) {
    for (size_t i = 0; i < len; i++)
        fprintf(file, "%02x", bytes[i]);
    fputc(end, file);
}

/* A line 'key message signature'. */
static void write_line(FILE *file, const Key *key, const u8 *msg, size_t len, const u8 *sig, size_t sig_len) {
    u8 text[56];
    put32(text, key->h / 5 + 4);
    put32(text + 4, 4);
    memcpy(text + 8, key->id, 16);
    memcpy(text + 24, key->nodes[1], 32);
    write_hex(file, text, 56, ' ');
    write_hex(file, msg, len, ' ');
    write_hex(file, sig, sig_len, '\n');
}

/* Signs 32 messages of 40 bytes by each of five keys of (H5, W8). */
static int measure_signing(FILE *file) {
    static double took[160];
    static u8 sig[9324];
    for (int n = 1; n <= 5; n++) {
        Key key = {.h = 5, .w = 8, .p = 34};
        put32(key.id + 12, n);
        put32(key.seed + 28, n);
        if (!make(&key))
            return 0;
        for (int q = 0; q < 32; q++) {
            u8 msg[40], c[32];
            memset(msg, q, 40);
            memset(c, n, 32);
            double start = now();
            size_t len = sign(&key, q, c, msg, 40, sig);
            took[32 * (n - 1) + q] = now() - start;
            if (file && n == 1)
                write_line(file, &key, msg, 40, sig, len);
        }
        free(key.nodes);
    }
    qsort(took, 160, sizeof took[0], by_value);
    printf("sign H5 W8: least %.0f us, middle %.0f us\n", took[0], took[80]);
    return 1;
}

int main(int argc, char **argv) {
    int keys = argc > 1 ? atoi(argv[1]) : 11;
    FILE *file = argc > 2 ? fopen(argv[2], "w") : NULL;
    if (keys < 1 || keys > MOST_KEYS || (argc > 2 && !file)) {
        fprintf(stderr, "from 1 to %d keys, and a file that can be written\n", MOST_KEYS);
        return 2;
    }
    int done = measure("H5 W8", 5, 8, 34, keys) && measure("H10 W4", 10, 4, 67, keys) &&
               measure("H10 W8", 10, 8, 34, keys) && measure_signing(file);
    if (file)
        fclose(file);
    return !done;
}
