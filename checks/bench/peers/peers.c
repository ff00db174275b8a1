/* Peers of the eight lanes: a step of an LM-OTS chain (RFC 8554, section 4.3), which is SHA-256 of 55 bytes, one block, whose digest goes into
 * the next. By libcrypto as an ordinary caller has it, by its block function, by its assembly for four and for eight texts at once, which its
 * header does not declare, and by the jobs of intel-ipsec-mb. Each is taken in turn, in short runs, and the least is printed.
 *
 *     peers [ROUNDS]          40 by itself
 *
 * Build: gcc -O2 peers.c -l:libcrypto.a -lIPSec_MB -lpthread -ldl (Debian's libssl-dev and libipsec-mb-dev). */
#define OPENSSL_SUPPRESS_DEPRECATED
#include <openssl/sha.h>
/* intel-ipsec-mb has older names as macros, which libcrypto has as functions: so it comes second. */
#include <intel-ipsec-mb.h>
#include <stdint.h>
#include <stdio.h>
#include <stdlib.h>
#include <string.h>
#include <time.h>

enum { LANES = 16, TEXT = 55, VALUE = 23, PLACE = 22, STEPS = 50, RUNS = 10 };

/* The working values of eight texts, and a text of theirs, as libcrypto's assembly has them. */
struct states { uint32_t word[8][8]; };
struct blocks { const void *at; int count; };
void sha256_multi_block(struct states *states, const struct blocks *blocks, int fours);
void sha256_block_data_order(void *state, const void *at, size_t count);

static const uint32_t FIRST[8] = {0x6a09e667, 0xbb67ae85, 0x3c6ef372, 0xa54ff53a, 0x510e527f, 0x9b05688c, 0x1f83d9ab, 0x5be0cd19};
static uint8_t block[LANES][64] __attribute__((aligned(64)));
static uint8_t digest[LANES][32];
static IMB_MGR *manager;

static double now(void) {
    struct timespec at;
    clock_gettime(CLOCK_MONOTONIC, &at);
    return 1e9 * (double)at.tv_sec + (double)at.tv_nsec;
}

static void put_word(uint8_t *at, uint32_t word) {
    for (int i = 0; i < 4; i++) at[i] = (uint8_t)(word >> (24 - 8 * i));
}

static void begin(void) {
    memset(block, 0, sizeof block);
    for (int lane = 0; lane < LANES; lane++) {
        for (int i = 0; i < TEXT; i++) block[lane][i] = (uint8_t)(7 * i + lane);
        block[lane][TEXT] = 0x80;
        block[lane][62] = 8 * TEXT >> 8;
        block[lane][63] = (uint8_t)(8 * TEXT);
    }
}

static void by_calls(int step) {
    for (int lane = 0; lane < 8; lane++) {
        SHA256_CTX hasher;
        block[lane][PLACE] = (uint8_t)step;
        SHA256_Init(&hasher);
        SHA256_Update(&hasher, block[lane], TEXT);
        SHA256_Final(block[lane] + VALUE, &hasher);
    }
}

static void by_blocks(int step) {
    for (int lane = 0; lane < 8; lane++) {
        uint32_t state[8];
        memcpy(state, FIRST, sizeof state);
        block[lane][PLACE] = (uint8_t)step;
        sha256_block_data_order(state, block[lane], 1);
        for (int i = 0; i < 8; i++) put_word(block[lane] + VALUE + 4 * i, state[i]);
    }
}

static void by_fours(int step, int fours) {
    struct states states __attribute__((aligned(32)));
    struct blocks blocks[8];
    for (int i = 0; i < 8; i++)
        for (int lane = 0; lane < 8; lane++) states.word[i][lane] = FIRST[i];
    for (int lane = 0; lane < 4 * fours; lane++) {
        block[lane][PLACE] = (uint8_t)step;
        blocks[lane] = (struct blocks){block[lane], 1};
    }
    sha256_multi_block(&states, blocks, fours);
    for (int lane = 0; lane < 4 * fours; lane++)
        for (int i = 0; i < 8; i++) put_word(block[lane] + VALUE + 4 * i, states.word[i][lane]);
}

static void by_four(int step) { by_fours(step, 1); }
static void by_eight(int step) { by_fours(step, 2); }

static void by_jobs(int step) {
    for (int lane = 0; lane < LANES; lane++) {
        IMB_JOB *job = IMB_GET_NEXT_JOB(manager);
        block[lane][PLACE] = (uint8_t)step;
        job->cipher_mode = IMB_CIPHER_NULL;
        job->cipher_direction = IMB_DIR_ENCRYPT;
        job->chain_order = IMB_ORDER_HASH_CIPHER;
        job->hash_alg = IMB_AUTH_SHA_256;
        job->src = block[lane];
        job->hash_start_src_offset_in_bytes = 0;
        job->msg_len_to_hash_in_bytes = TEXT;
        job->auth_tag_output = digest[lane];
        job->auth_tag_output_len_in_bytes = 32;
        job->key_len_in_bytes = 0;
        IMB_SUBMIT_JOB_NOCHECK(manager);
    }
    while (IMB_FLUSH_JOB(manager) != NULL) {}
    for (int lane = 0; lane < LANES; lane++) memcpy(block[lane] + VALUE, digest[lane], 32);
}

static struct peer { const char *name; void (*step)(int); int lanes; double least; uint8_t last[4]; } peers[] = {
    {"libcrypto, SHA256_Update and Final", by_calls, 8, 1e18, {0}},
    {"libcrypto, the block function alone", by_blocks, 8, 1e18, {0}},
    {"libcrypto, sha256_multi_block, 4 lanes", by_four, 4, 1e18, {0}},
    {"libcrypto, sha256_multi_block, 8 lanes", by_eight, 8, 1e18, {0}},
    {"intel-ipsec-mb, 16 jobs in flight", by_jobs, 16, 1e18, {0}},
};
enum { PEERS = sizeof peers / sizeof *peers };

static void run(struct peer *peer) {
    begin();
    double start = now();
    for (int step = 0; step < STEPS; step++) peer->step(step);
    double each = (now() - start) / (STEPS * peer->lanes);
    if (each < peer->least) peer->least = each;
    memcpy(peer->last, block[3] + VALUE, sizeof peer->last);
}

int main(int count, char **words) {
    int rounds = count > 1 ? atoi(words[1]) : 40, differ = 0;
    SHA256_CTX hasher;
    SHA256_Init(&hasher); /* libcrypto asks the processor what it can do */
    manager = alloc_mb_mgr(0);
    if (manager == NULL) return 1;
    init_mb_mgr_auto(manager, NULL);
    for (int round = 0; round < rounds; round++)
        for (int i = 0; i < PEERS; i++)
            for (int k = 0; k < RUNS; k++) run(&peers[i]);
    for (int i = 0; i < PEERS; i++) {
        printf("%-40s %7.1f ns a step of a chain\n", peers[i].name, peers[i].least);
        differ += memcmp(peers[i].last, peers[0].last, sizeof peers[0].last) != 0;
    }
    free_mb_mgr(manager);
    return differ != 0; /* they hash the same, or one of them does not hash */
}
