/* For c/test.c: nodes and their witnesses. */
#include "test_heap.h"

enum { H = BULWYNEF_H5, W = BULWYNEF_W4 }; /* the keys of W4 are the quicker ones to make */
static uint8_t ids[3][16], seeds[3][32], entropy[32];
static uint8_t directory[12 + 61 + 56 + 61], other_directory[12 + 61];

static void put_u32(uint8_t *at, uint32_t n) {
    at[0] = (uint8_t)(n >> 24); at[1] = (uint8_t)(n >> 16); at[2] = (uint8_t)(n >> 8); at[3] = (uint8_t)n;
}
static uint8_t put_key(uint8_t *at, int n) {
    uint8_t r;
    memset(at, FILLED, 56);
    r = bulwynef_public_key(H, W, ids[n], 16, seeds[n], 32, at, 56);
    if (r) holds(__LINE__, is_all(at, 56));
    return r;
}
static uint8_t listed(uint8_t *at, uint32_t node) {
    put_u32(at, node);
    at[4] = 1;
    return put_key(at + 5, (int)node);
}
/* node 1 has two keys, the second of which is key 0, and node 2 has one */
static int begin(void) {
    int n;
    for (n = 0; n < 3; n++) { memset(ids[n], n, 16); memset(seeds[n], n + 100, 32); }
    memset(entropy, 0, sizeof entropy); /* so a scene tells the same each time */
    memcpy(directory, "PRDIREC2", 8);
    put_u32(directory + 8, 2);
    put_u32(directory + 12, 1);
    directory[16] = 2;
    memcpy(other_directory, "PRDIREC2", 8);
    put_u32(other_directory + 8, 1);
    return is(__LINE__, put_key(directory + 17, 1), 0) && is(__LINE__, put_key(directory + 73, 0), 0)
        && is(__LINE__, listed(directory + 129, 2), 0) && is(__LINE__, listed(other_directory + 12, 1), 0);
}
static uint8_t node_new(uint32_t id, struct bulwynef_handle *node) {
    return bulwynef_node_new(BULWYNEF_TALLY, directory, sizeof directory, id, 1, H, W, ids[id], 16, seeds[id], 32, node);
}
static uint8_t tick(struct bulwynef_handle *node, uint64_t moment) {
    entropy[0]++;
    return bulwynef_node_timer(node, moment, entropy, 32);
}
/* the text of the message that waits first */
static uint8_t first_message(struct bulwynef_handle *node, struct bytes *message) {
    struct bulwynef_handle t = {0, false};
    uint64_t seq = 0;
    uint8_t r = bulwynef_node_waiting(node, 0, &seq);
    if (!r) r = bulwynef_node_message(node, seq, &t);
    if (!r) *message = text_of(&t);
    return r;
}
/* As a caller should: what is answered 99 is asked for again. The node was then as before, or is as it was behind the answer. */
static uint8_t answered(struct bulwynef_handle *node, struct bytes challenge, struct bytes *answer) {
    struct bulwynef_handle t = {0, false};
    struct bytes first = nothing(), second = nothing(), third = nothing();
    uint8_t r;
    entropy[0]++;
    if (is_looking) first = state_of(node);
    r = bulwynef_node_answer(node, challenge.at, challenge.len, entropy, 32, &t);
    if (r == 99) {
        spent = 1;
        second = state_of(node);
        holds(__LINE__, !t.is_open);
        r = bulwynef_node_answer(node, challenge.at, challenge.len, entropy, 32, &t);
        third = state_of(node);
        holds(__LINE__, same(first, second) || same(second, third));
    }
    drop(&first); drop(&second); drop(&third);
    if (!r) *answer = text_of(&t);
    return r;
}
/* the statement at a place of an item, and the demand for a log up to a statement, from another one or from the beginning */
static uint8_t statement_of(struct bytes item, size_t place, struct bytes *statement) {
    struct bulwynef_handle t = {0, false};
    uint8_t r = bulwynef_statement_of(item.at, item.len, place, &t);
    if (!r) *statement = text_of(&t);
    return r;
}
static uint8_t audit_of(struct bytes first, struct bytes last, struct bytes *audit) {
    struct bulwynef_handle t = {0, false};
    uint8_t r = bulwynef_audit_challenge(first.at, first.len, last.at, last.len, &t);
    if (!r) *audit = text_of(&t);
    return r;
}
static uint8_t sending_of(struct bytes item, struct bytes *challenge) {
    struct bulwynef_handle t = {0, false};
    uint8_t r = bulwynef_send_challenge(item.at, item.len, &t);
    if (!r) *challenge = text_of(&t);
    return r;
}
static struct bytes size_of_empty(void) { struct bytes b; b.at = (uint8_t *)calloc(16, 1); b.len = 16; if (b.at) memcpy(b.at, "PRSTORE2", 8); return b; }

/* Node 1 sends node 2 a number, which acknowledges it; a second node 2 by the same key acknowledges another one under the same number, and
   is exposed; one witness has the first half, another the other, and they exchange what they have; a third begins with their export. */
static void scene(void) {
    struct bulwynef_handle one = {0, false}, two = {0, false}, liar = {0, false}, a = {0, false}, b = {0, false},
                           c = {0, false}, t = {0, false};
    struct bytes message = nothing(), ack = nothing(), again = nothing(), other = nothing(), lie = nothing(), outline = nothing(),
                 summary = nothing(), pack = nothing(), left_text = nothing(), right_text = nothing(), proof = nothing(),
                 open_one = nothing(), told = nothing(), whole = nothing(), rest = nothing();
    hold(&one, &two, &liar, &a, &b, &c, &t);
    if (!begin()) goto end;
    WANT(node_new(1, &one), 0);
    WANT(node_new(2, &two), 0);
    WANT(node_new(2, &liar), 0);
    WANT(bulwynef_store_open(BULWYNEF_TALLY, directory, sizeof directory, &a), 0);
    WANT(bulwynef_store_open(BULWYNEF_TALLY, directory, sizeof directory, &b), 0);
    WANT(bulwynef_node_remaining(&one, &out.leaves), 0);
    HOLDS(out.leaves == 32);
    WANT(tick(&one, 5), 0);
    WANT(bulwynef_node_remaining(&one, &out.leaves), 0);
    HOLDS(out.leaves == 31);
    WANT(first_message(&one, &message), 0);
    WANT(bulwynef_store_take(&a, message.at, message.len, &out.is_new), 0);
    HOLDS(out.is_new == 1);
    WANT(bulwynef_store_take(&a, message.at, message.len, &out.is_new), 0);
    HOLDS(out.is_new == 0);
    WANT(bulwynef_store_indication(&a, 2, &out.said), 0);
    HOLDS(out.said == BULWYNEF_SUSPECTED);
    WANT(bulwynef_store_proof(&a, 2, &t), 115);
    WANT(bulwynef_store_challenge(&a, 2, 0, &t), 0);
    open_one = text_of(&t);
    HOLDS(same(open_one, message));
    WANT(answered(&two, message, &ack), 0);
    WANT(answered(&two, message, &again), 0);
    HOLDS(same(ack, again));
    WANT(bulwynef_node_accept_ack(&one, ack.at, ack.len), 0);
    WANT(bulwynef_node_waiting(&one, 0, &out.seq), 116);
    WANT(bulwynef_node_checkpoint(&one, &out.seq), 0);
    /* entries of 13 bytes and a content: INIT 4, TIMER 8, SEND 4 and 9, CHECKPOINT 8 */
    WANT(bulwynef_node_history(&one, &t), 0);
    told = text_of(&t);
    HOLDS(told.len == 85 && told.at[8] == 1 && told.at[25] == 4 && told.at[46] == 2 && told.at[72] == 5);
    drop(&told);
    WANT(bulwynef_store_take(&a, ack.at, ack.len, &out.is_new), 0);
    WANT(bulwynef_store_indication(&a, 2, &out.said), 0);
    HOLDS(out.said == BULWYNEF_TRUSTED);
    WANT(bulwynef_store_challenge(&a, 2, 0, &t), 116);
    WANT(bulwynef_node_next_key(&one, H, W, ids[0], 16, seeds[0], 32), 0);
    WANT(bulwynef_node_remaining(&one, &out.leaves), 0);
    HOLDS(out.leaves == 32);
    WANT(tick(&one, 6), 0);
    WANT(first_message(&one, &other), 0);
    WANT(answered(&liar, other, &lie), 0);
    WANT(bulwynef_store_take(&b, lie.at, lie.len, &out.is_new), 0);
    WANT(bulwynef_store_includes(&a, &b, &out.includes), 0);
    HOLDS(out.includes == 0);
    /* b tells a what it lacks, by an outline, a short summary and a pack */
    WANT(bulwynef_store_outline(&b, &t), 0);
    outline = text_of(&t);
    WANT(bulwynef_store_short_summary(&a, outline.at, outline.len, &t), 0);
    summary = text_of(&t);
    WANT(bulwynef_store_pack(&b, summary.at, summary.len, &t), 0);
    pack = text_of(&t);
    WANT_OR_SPARE(bulwynef_store_apply(&a, pack.at, pack.len, &out.added));
    HOLDS(out.added == 1);
    WANT(bulwynef_store_includes(&a, &b, &out.includes), 0);
    HOLDS(out.includes == 1);
    WANT_OR_SPARE(bulwynef_store_merge(&b, &a, &out.added));
    HOLDS(out.added == 2);
    WANT(bulwynef_store_export(&a, &t), 0);
    left_text = text_of(&t);
    WANT(bulwynef_store_export(&b, &t), 0);
    right_text = text_of(&t);
    HOLDS(same(left_text, right_text));
    WANT(bulwynef_store_open(BULWYNEF_TALLY, directory, sizeof directory, &c), 0);
    WANT(bulwynef_store_import(&c, left_text.at, left_text.len, &out.added), 0);
    HOLDS(out.added == 3);
    WANT(bulwynef_store_summary(&c, &t), 0);
    whole = text_of(&t);
    WANT(bulwynef_store_pack(&b, whole.at, whole.len, &t), 0);
    rest = text_of(&t);
    WANT_OR_SPARE(bulwynef_store_apply(&c, rest.at, rest.len, &out.added));
    HOLDS(out.added == 0);
    WANT(bulwynef_store_indication(&b, 2, &out.said), 0);
    HOLDS(out.said == BULWYNEF_EXPOSED);
    WANT(bulwynef_store_indication(&b, 1, &out.said), 0);
    HOLDS(out.said == BULWYNEF_TRUSTED);
    WANT(bulwynef_store_proof(&b, 2, &t), 0);
    proof = text_of(&t);
    WANT(bulwynef_check_proof(BULWYNEF_TALLY, directory, sizeof directory, proof.at, proof.len, &out.node), 0);
    HOLDS(out.node == 2);
    WANT(bulwynef_explain_proof(BULWYNEF_TALLY, directory, sizeof directory, proof.at, proof.len, &t), 0);
    told = text_of(&t);
    HOLDS(has_line(told, "2 exposed"));
    HOLDS(!has_line(told, "1 trusted"));
    drop(&told);
    WANT(bulwynef_store_explain(&a, &t), 0);
    told = text_of(&t);
    HOLDS(has_line(told, "1 trusted"));
    HOLDS(has_line(told, "2 exposed"));
end:
    bulwynef_close(&one); bulwynef_close(&two); bulwynef_close(&liar); bulwynef_close(&a); bulwynef_close(&b); bulwynef_close(&c);
    bulwynef_close(&t); bulwynef_close(&a);
    drop(&message); drop(&ack); drop(&again); drop(&other); drop(&lie); drop(&outline); drop(&summary); drop(&pack); drop(&left_text);
    drop(&right_text); drop(&proof); drop(&open_one); drop(&told); drop(&whole); drop(&rest);
    if (!wrong && live) { fprintf(stderr, "%ld blocks are left\n", live); wrong = 1; }
}

/* Node 2 keeps two logs by one key. What it signed of the two has two numbers, so that nothing contradicts: but no log has both, and it is
   exposed by the log that it shows. */
static void forked(void) {
    struct bulwynef_handle one = {0, false}, two = {0, false}, liar = {0, false}, a = {0, false}, t = {0, false};
    struct bytes message = nothing(), ack = nothing(), other = nothing(), lie = nothing(), first = nothing(), last = nothing(),
                 both = nothing(), whole = nothing(), shown = nothing(), again = nothing(), proof = nothing();
    hold(&one, &two, &liar, &a, &t, &one, &two);
    if (!begin()) goto end;
    WANT(node_new(1, &one), 0);
    WANT(node_new(2, &two), 0);
    WANT(node_new(2, &liar), 0);
    WANT(bulwynef_store_open(BULWYNEF_TALLY, directory, sizeof directory, &a), 0);
    WANT(tick(&one, 5), 0);
    WANT(first_message(&one, &message), 0);
    WANT(answered(&two, message, &ack), 0);
    WANT(bulwynef_node_accept_ack(&one, ack.at, ack.len), 0);
    WANT(tick(&one, 6), 0);
    WANT(first_message(&one, &other), 0);
    WANT(tick(&liar, 7), 0);
    WANT(tick(&liar, 8), 0);
    WANT(answered(&liar, other, &lie), 0);
    WANT(bulwynef_store_take(&a, ack.at, ack.len, &out.is_new), 0);
    WANT(bulwynef_store_take(&a, lie.at, lie.len, &out.is_new), 0);
    WANT(bulwynef_store_indication(&a, 2, &out.said), 0);
    HOLDS(out.said == BULWYNEF_TRUSTED);
    /* the receiver's statements of the entries 2 and 4, and the demand for a log with both */
    WANT(statement_of(ack, 1, &first), 0);
    WANT(statement_of(lie, 1, &last), 0);
    HOLDS(first.at[0] == 1 && first.at[12] == 2 && last.at[0] == 1 && last.at[12] == 4);
    WANT(audit_of(first, last, &both), 0);
    WANT(bulwynef_store_take(&a, both.at, both.len, &out.is_new), 0);
    WANT(bulwynef_store_indication(&a, 2, &out.said), 0);
    HOLDS(out.said == BULWYNEF_SUSPECTED);
    WANT(answered(&two, both, &shown), 71);
    WANT(answered(&liar, both, &shown), 71);
    /* the demand for one of the two logs */
    WANT(audit_of(nothing(), last, &whole), 0);
    WANT(bulwynef_store_take(&a, whole.at, whole.len, &out.is_new), 0);
    WANT(answered(&liar, whole, &shown), 0);
    WANT(bulwynef_store_take(&a, shown.at, shown.len, &out.is_new), 0);
    WANT(bulwynef_store_indication(&a, 2, &out.said), 0);
    HOLDS(out.said == BULWYNEF_EXPOSED);
    WANT(bulwynef_store_proof(&a, 2, &t), 0);
    proof = text_of(&t);
    WANT(bulwynef_check_proof(BULWYNEF_TALLY, directory, sizeof directory, proof.at, proof.len, &out.node), 0);
    HOLDS(out.node == 2);
    /* the statements that other items hold */
    WANT(statement_of(both, 0, &again), 0);
    HOLDS(same(again, first));
    drop(&again);
    WANT(statement_of(both, 1, &again), 0);
    HOLDS(same(again, last));
    drop(&again);
    WANT(statement_of(whole, 0, &again), 0);
    HOLDS(same(again, last));
    drop(&again);
    WANT(statement_of(shown, 0, &again), 0);
    HOLDS(same(again, last));
    drop(&again);
    WANT(statement_of(last, 0, &again), 0);
    HOLDS(same(again, last));
    WANT(bulwynef_statement_of(last.at, last.len, 1, &t), 116);
    WANT(bulwynef_statement_of(shown.at, shown.len, 1, &t), 116);
    WANT(bulwynef_statement_of(whole.at, whole.len, 1, &t), 116);
    WANT(bulwynef_statement_of(both.at, both.len, 2, &t), 116);
    WANT(bulwynef_statement_of(ack.at, ack.len, 2, &t), 116);
    drop(&again);
    WANT(statement_of(ack, 0, &again), 0);
    drop(&first);
    WANT(statement_of(message, 0, &first), 0);
    HOLDS(same(again, first) && first.at[4] == 1);
    /* no range, and no statement */
    WANT(bulwynef_audit_challenge(last.at, last.len, last.at, last.len, &t), 48);
    WANT(bulwynef_audit_challenge(first.at, first.len, last.at, last.len, &t), 48);
    WANT(bulwynef_audit_challenge(ack.at, ack.len, last.at, last.len, &t), 41);
    WANT(bulwynef_audit_challenge(last.at, last.len, ack.at, ack.len, &t), 41);
    /* the message of an acknowledgement, and of a message */
    drop(&again);
    WANT(sending_of(ack, &again), 0);
    HOLDS(same(again, message));
    drop(&again);
    WANT(sending_of(message, &again), 0);
    HOLDS(same(again, message));
    WANT(bulwynef_send_challenge(last.at, last.len, &t), 41);
    WANT(bulwynef_send_challenge(shown.at, shown.len, &t), 41);
    WANT(bulwynef_send_challenge(both.at, both.len, &t), 41);
end:
    bulwynef_close(&one); bulwynef_close(&two); bulwynef_close(&liar); bulwynef_close(&a); bulwynef_close(&t);
    drop(&message); drop(&ack); drop(&other); drop(&lie); drop(&first); drop(&last); drop(&both); drop(&whole); drop(&shown);
    drop(&again); drop(&proof);
    if (!wrong && live) { fprintf(stderr, "%ld blocks are left\n", live); wrong = 1; }
}

/* Of an acknowledgement with one bit flipped, wherever that is, nothing is accepted, and its message still waits. */
static void mangled(void) {
    struct bulwynef_handle one = {0, false}, two = {0, false}, twin = {0, false}, a = {0, false}, t = {0, false};
    struct bytes message = nothing(), ack = nothing(), other = nothing(), other_ack = nothing();
    size_t at, waiting = 0;
    uint8_t r;
    hold(&one, &two, &twin, &a, &t, &one, &two);
    if (!begin()) goto end;
    WANT(node_new(1, &one), 0);
    WANT(node_new(1, &twin), 0);
    WANT(node_new(2, &two), 0);
    WANT(bulwynef_store_open(BULWYNEF_TALLY, directory, sizeof directory, &a), 0);
    WANT(tick(&one, 5), 0);
    WANT(first_message(&one, &message), 0);
    WANT(answered(&two, message, &ack), 0);
    /* all bytes of the fields before the signatures, and some of these */
    for (at = 1; at < ack.len; at += at < 60 ? 1 : 29) {
        ack.at[at] ^= 1;
        r = bulwynef_node_accept_ack(&one, ack.at, ack.len);
        HOLDS(r == 38 || (r >= 40 && r <= 43));
        HOLDS(bulwynef_store_take(&a, ack.at, ack.len, &out.is_new) != 0);
        HOLDS(bulwynef_node_waiting(&one, 0, &out.seq) == 0);
        waiting++;
        ack.at[at] ^= 1;
    }
    HOLDS(waiting > 100);
    /* evidence of the receipt of another message with the same number, which a second log of node 1 sent */
    WANT(tick(&twin, 6), 0);
    WANT(first_message(&twin, &other), 0);
    bulwynef_close(&two);
    WANT(node_new(2, &two), 0);
    WANT(answered(&two, other, &other_ack), 0);
    WANT(bulwynef_store_take(&a, other_ack.at, other_ack.len, &out.is_new), 0);
    WANT(bulwynef_node_accept_ack(&one, other_ack.at, other_ack.len), 38);
    WANT(bulwynef_node_accept_ack(&one, ack.at, ack.len), 0);
    WANT(bulwynef_node_waiting(&one, 0, &out.seq), 116);
    WANT(bulwynef_store_take(&a, ack.at, ack.len, &out.is_new), 0);
end:
    bulwynef_close(&one); bulwynef_close(&two); bulwynef_close(&twin); bulwynef_close(&a); bulwynef_close(&t);
    drop(&message); drop(&ack); drop(&other); drop(&other_ack);
    if (!wrong && live) { fprintf(stderr, "%ld blocks are left\n", live); wrong = 1; }
}
