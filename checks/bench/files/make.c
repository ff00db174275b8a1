/* make FOLDER NODES STORES: a directory of NODES nodes with a key of (H10, W4) each, and STORES stores that share their statements, 1,024 a
   node, in the order of their texts. Build: gcc -O3 -march=native make.c -lcrypto (Debian libssl-dev). */
#define main lms_make_main
#include "../lms_make.c"
#undef main

enum { STATEMENTS = 1024, MOST_STORES = 64 };

static void put64(u8 *at, uint64_t n) {
    put32(at, n >> 32);
    put32(at + 4, n);
}

/* A signature (RFC 8554, algorithm 3 and section 5.4.1) by leaf q; its length. */
static size_t sign_w4(const Key *key, uint32_t q, const u8 *message, size_t length, u8 *out) {
    u8 text[34], c[32], step[55], *at = out + 40;
    unsigned sum = 0;
    SHA256_CTX hasher;
    memset(c, 7, 32);
    begin(&hasher, key->id, q, 0x81);
    SHA256_Update(&hasher, c, 32);
    SHA256_Update(&hasher, message, length);
    SHA256_Final(text, &hasher);
    for (int i = 0; i < 64; i++)
        sum += 15 - coefficient(text, i, 4);
    sum <<= 4;
    text[32] = sum >> 8;
    text[33] = sum;
    put32(out, q);
    put32(out + 4, 3);
    memcpy(out + 8, c, 32);
    memcpy(step, key->id, 16);
    put32(step + 16, q);
    for (int i = 0; i < 67; i++, at += 32) {
        step[20] = i >> 8;
        step[21] = i;
        memcpy(step + 23, key->seed, 32);
        hash_step(step, 0xff);
        for (int j = 0; j < coefficient(text, i, 4); j++)
            hash_step(step, j);
        memcpy(at, step + 23, 32);
    }
    put32(at, 6);
    at += 4;
    for (uint32_t r = STATEMENTS + q; r > 1; r /= 2, at += 32)
        memcpy(at, key->nodes[r ^ 1], 32);
    return at - out;
}

static FILE *opened(const char *folder, const char *file) {
    char name[500];
    snprintf(name, sizeof name, "%s/%s", folder, file);
    FILE *made = fopen(name, "wb");
    if (!made)
        exit(1);
    return made;
}

/* A statement: its length in four bytes, its tag, node, number and hash, and its signature. */
static void put_statement(FILE *store, const Key *key, uint32_t node, uint32_t q) {
    u8 item[4000], message[40];
    put64(message, q + 1);
    memset(message + 8, node, 32);
    put32(message + 8, q);
    item[4] = 1;
    put32(item + 5, node);
    memcpy(item + 9, message, 40);
    size_t length = sign_w4(key, q, message, 40, item + 53);
    put32(item + 49, length);
    put32(item, 49 + length);
    fwrite(item, 1, 53 + length, store);
}

int main(int argc, char **argv) {
    if (argc != 4)
        return 2;
    int nodes = atoi(argv[2]), stores = atoi(argv[3]);
    if (nodes < 1 || stores < 1 || stores > MOST_STORES)
        return 2;
    FILE *files[MOST_STORES], *directory = opened(argv[1], "nodes");
    uint64_t counts[MOST_STORES] = {0};
    u8 bytes[60];
    for (int m = 0; m < stores; m++) {
        char name[20];
        snprintf(name, sizeof name, "%02d.store", m);
        files[m] = opened(argv[1], name);
        fwrite("PRSTORE2\0\0\0\0\0\0\0\0", 1, 16, files[m]);
    }
    put32(bytes, nodes);
    fwrite("PRDIRECT", 1, 8, directory);
    fwrite(bytes, 1, 4, directory);
    for (int n = 1; n <= nodes; n++) {
        Key key = {.h = 10, .w = 4, .p = 67};
        put32(key.id + 12, n);
        put32(key.seed + 28, n);
        make(&key);
        put32(bytes, n);
        put32(bytes + 4, 6);
        put32(bytes + 8, 3);
        fwrite(bytes, 1, 12, directory);
        fwrite(key.id, 1, 16, directory);
        fwrite(key.nodes[1], 1, 32, directory);
        for (int q = 0; q < STATEMENTS; q++) {
            put_statement(files[q % stores], &key, n, q);
            counts[q % stores]++;
        }
        free(key.nodes);
    }
    fclose(directory);
    for (int m = 0; m < stores; m++) {
        put64(bytes, counts[m]);
        fseek(files[m], 8, SEEK_SET);
        fwrite(bytes, 1, 8, files[m]);
        fclose(files[m]);
    }
    return 0;
}
