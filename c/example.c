/* example: two nodes and a witness over libbulwynef.a. Node 1 sends node 2 a number, and the witness sees that it is acknowledged; then node
 * 2 begins a second log with its key, and is exposed before everybody who has the directory.
 *
 *   c/library.py && c/run.py --archive && cc -std=c11 -o example c/example.c c/out/libbulwynef.a && ./example
 */
#include "bulwynef.h"
#include <stdio.h>
#include <stdlib.h>
#include <string.h>

struct bytes { uint8_t *at; size_t len; };
struct key { uint8_t id[BULWYNEF_KEY_ID_LEN], seed[BULWYNEF_SEED_LEN]; };
/* A directory of two nodes with a key each: its first eight bytes, how many nodes, and of each its number, how many keys, and these. */
enum { HEADER = 12, ROW = 5 + BULWYNEF_PUBLIC_KEY_LEN, DIRECTORY = HEADER + 2 * ROW };

static void stop(const char *why) {
    fprintf(stderr, "%s\n", why);
    exit(1);
}

static void must(uint8_t answer) {
    if (answer == 0) return;
    fprintf(stderr, "refused %u\n", (unsigned)answer);
    exit(1);
}

static void fill(uint8_t *at, size_t len) {
    FILE *file = fopen("/dev/urandom", "rb");
    if (file == NULL || fread(at, 1, len, file) != len) stop("/dev/urandom does not give random bytes");
    fclose(file);
}

/* The bytes of a text that was answered, which the caller frees; its handle is closed. */
static struct bytes text_of(struct bulwynef_handle *text) {
    struct bytes it;
    it.len = bulwynef_text_len(text);
    it.at = (uint8_t *)malloc(it.len);
    if (it.at == NULL) stop("memory ran out");
    must(bulwynef_text_copy(text, it.at, it.len));
    bulwynef_close(text);
    return it;
}

static void list(uint8_t *row, uint8_t node, const struct key *key) {
    memset(row, 0, 3);
    row[3] = node;
    row[4] = 1;
    must(bulwynef_public_key(BULWYNEF_H5, BULWYNEF_W8, key->id, sizeof key->id, key->seed, sizeof key->seed, row + 5, BULWYNEF_PUBLIC_KEY_LEN));
}

static void begin(const uint8_t *directory, uint32_t id, const struct key *key, struct bulwynef_handle *node) {
    must(bulwynef_node_new(BULWYNEF_TALLY, directory, DIRECTORY, id, 1, BULWYNEF_H5, BULWYNEF_W8, key->id, sizeof key->id, key->seed,
                           sizeof key->seed, node));
}

/* What the node sends when its timer ticks at the moment: one message, under Tally. */
static struct bytes sent(struct bulwynef_handle *node, uint64_t moment) {
    struct bulwynef_handle text = {0, false};
    uint8_t entropy[BULWYNEF_ENTROPY_LEN];
    uint64_t seq;
    fill(entropy, sizeof entropy);
    must(bulwynef_node_timer(node, moment, entropy, sizeof entropy));
    must(bulwynef_node_waiting(node, 0, &seq));
    must(bulwynef_node_message(node, seq, &text));
    return text_of(&text);
}

static struct bytes answer(struct bulwynef_handle *node, struct bytes message) {
    struct bulwynef_handle text = {0, false};
    uint8_t entropy[BULWYNEF_ENTROPY_LEN];
    fill(entropy, sizeof entropy);
    must(bulwynef_node_answer(node, message.at, message.len, entropy, sizeof entropy, &text));
    return text_of(&text);
}

/* Hands the witness an item, and says what the items tell of node 2 then. */
static void show(struct bulwynef_handle *witness, const char *what, struct bytes item) {
    static const char *const words[] = {"no indication", "trusted", "suspected", "exposed"};
    uint8_t is_new, indication;
    must(bulwynef_store_take(witness, item.at, item.len, &is_new));
    must(bulwynef_store_indication(witness, 2, &indication));
    printf("%s: 2 is %s\n", what, words[indication]);
}

/* Whom the witness's proof against node 2 convicts before somebody else, and why. */
static void judge(struct bulwynef_handle *witness, const uint8_t *directory) {
    struct bulwynef_handle text = {0, false};
    struct bytes proof, why;
    uint32_t node;
    must(bulwynef_store_proof(witness, 2, &text));
    proof = text_of(&text);
    must(bulwynef_check_proof(BULWYNEF_TALLY, directory, DIRECTORY, proof.at, proof.len, &node));
    printf("the proof exposes %u\n", (unsigned)node);
    must(bulwynef_explain_proof(BULWYNEF_TALLY, directory, DIRECTORY, proof.at, proof.len, &text));
    why = text_of(&text);
    fwrite(why.at, 1, why.len, stdout);
    free(proof.at);
    free(why.at);
}

int main(void) {
    struct key keys[2];
    uint8_t directory[DIRECTORY] = {'P', 'R', 'D', 'I', 'R', 'E', 'C', '2', 0, 0, 0, 2};
    struct bulwynef_handle one = {0, false}, two = {0, false}, second = {0, false}, witness = {0, false};
    struct bytes message, ack, other, lie;
    fill((uint8_t *)keys, sizeof keys);
    list(directory + HEADER, 1, &keys[0]);
    list(directory + HEADER + ROW, 2, &keys[1]);
    begin(directory, 1, &keys[0], &one);
    begin(directory, 2, &keys[1], &two);
    must(bulwynef_store_open(BULWYNEF_TALLY, directory, DIRECTORY, &witness));

    message = sent(&one, 5);
    show(&witness, "a message to it", message);
    ack = answer(&two, message);
    must(bulwynef_node_accept_ack(&one, ack.at, ack.len));
    show(&witness, "its acknowledgement", ack);

    begin(directory, 2, &keys[1], &second);
    other = sent(&one, 6);
    lie = answer(&second, other);
    show(&witness, "an acknowledgement by a second log", lie);
    judge(&witness, directory);

    free(message.at); free(ack.at); free(other.at); free(lie.at);
    bulwynef_close(&one); bulwynef_close(&two); bulwynef_close(&second); bulwynef_close(&witness);
    return 0;
}
