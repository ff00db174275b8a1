/* For c/test.c: nodes that survive. A journal lies in memory; a crash is a node that is closed. */
#include "test_scenes.h"

/* the secrets of node 1, of node 2, and of both keys of node 1 behind each other */
static uint8_t secrets[3][48], both_secrets[96];
static void fill_secrets(void) {
    int n;
    for (n = 0; n < 3; n++) { memcpy(secrets[n], ids[n], 16); memcpy(secrets[n] + 16, seeds[n], 32); }
    memcpy(both_secrets, secrets[1], 48);
    memcpy(both_secrets + 48, secrets[0], 48);
}
static struct bytes new_file(void) { struct bytes file = nothing(); add_bytes(&file, "", 1); return file; }
static uint8_t restore(struct bytes file, uint32_t id, struct bulwynef_handle *node) {
    return id == 1 ? bulwynef_node_rebuild(BULWYNEF_TALLY, directory, sizeof directory, both_secrets, 96, file.at, file.len, node)
                   : bulwynef_node_rebuild(BULWYNEF_TALLY, directory, sizeof directory, secrets[id], 48, file.at, file.len, node);
}
/* As the header says: the block behind the closed gate, with the gate closed before it and behind it; then the gate is opened. Before that
   the journal stands for what it stood for, and is cut at no place but behind its gate. */
static uint8_t appended(struct bytes *file, struct bytes record) {
    struct bulwynef_handle t = {0, false};
    struct bytes block = nothing();
    size_t end = FILLED, again = FILLED;
    uint8_t r = bulwynef_journal_end(file->at, file->len, &end);
    if (!r) r = bulwynef_journal_block(record.at, record.len, &t);
    if (!r) {
        block = text_of(&t);
        holds(__LINE__, end < file->len && file->at[end] == 0 && block.len == record.len + 9 && block.at[0] == 255);
        file->len = end;
        add_bytes(file, block.at, block.len);
        add_bytes(file, "", 1);
        file->at[end] = 0;
        holds(__LINE__, bulwynef_journal_end(file->at, file->len, &again) == 0 && again == end);
        file->at[end] = 255;
        holds(__LINE__, bulwynef_journal_end(file->at, file->len, &again) == 0 && again == end + block.len && again + 1 == file->len);
    }
    drop(&block);
    return r;
}
/* The text that a call answers is written so. */
#define WRITTEN(file, call) do { WANT(call, 0); drop(&record); record = text_of(&t); WANT(appended(&file, record), 0); } while (0)
static uint8_t beginning_of(uint32_t id, struct bulwynef_handle *text) {
    return bulwynef_node_beginning(BULWYNEF_TALLY, directory, sizeof directory, id, 1, H, W, ids[id], 16, seeds[id], 32, text);
}
static int are_alike(struct bulwynef_handle *a, struct bulwynef_handle *b) {
    struct bytes one = state_of(a), other = state_of(b);
    int alike = same(one, other) && a->is_open && b->is_open;
    drop(&one); drop(&other);
    return alike;
}
/* Whether the journal's node is as this one, which goes on. */
static int is_back(struct bytes file, uint32_t id, struct bulwynef_handle *node) {
    struct bulwynef_handle again = {0, false};
    int alike = restore(file, id, &again) == 0 && are_alike(node, &again);
    bulwynef_close(&again);
    return alike;
}
/* Each node behind a journal is closed and rebuilt before each call. It answers what one answers that goes on, byte by byte, and then is as
   that one; and so is the one that is rebuilt of the journal behind the call. */
static void survives(void) {
    struct bulwynef_handle one = {0, false}, two = {0, false}, back = {0, false}, late = {0, false}, t = {0, false};
    struct bytes ones = new_file(), twos = new_file(), message = nothing(), ack = nothing(), told = nothing(), said = nothing(), old = nothing(),
                 record = nothing();
    uint8_t first = 0;
    size_t at;
    hold(&one, &two, &back, &late, &t, &one, &two);
    if (!begin()) goto end;
    fill_secrets();
    WANT(bulwynef_journal_end(NULL, 0, &out.end), 0);
    HOLDS(out.end == 0);
    WRITTEN(ones, beginning_of(1, &t));
    WRITTEN(twos, beginning_of(2, &t));
    WANT(node_new(1, &one), 0);
    WANT(node_new(2, &two), 0);
    HOLDS(is_back(ones, 1, &one) && is_back(twos, 2, &two));
    /* a tick of node 1, and its message */
    WANT(restore(ones, 1, &back), 0);
    entropy[0]++;
    WRITTEN(ones, bulwynef_record_timer(5, entropy, 32, &t));
    WANT(bulwynef_node_timer(&one, 5, entropy, 32), 0);
    HOLDS(is_back(ones, 1, &one) && !are_alike(&one, &back));
    WANT(bulwynef_node_timer(&back, 5, entropy, 32), 0);
    HOLDS(are_alike(&one, &back));
    WANT(first_message(&one, &message), 0);
    WANT(first_message(&back, &told), 0);
    HOLDS(same(message, told));
    drop(&told); bulwynef_close(&back);
    /* node 2 receives it: before and behind the crash it gives one acknowledgement */
    WANT(restore(twos, 2, &back), 0);
    entropy[0]++;
    WRITTEN(twos, bulwynef_record_answer(message.at, message.len, entropy, 32, &t));
    WANT(bulwynef_node_answer(&two, message.at, message.len, entropy, 32, &t), 0);
    ack = text_of(&t);
    WANT(bulwynef_node_answer(&back, message.at, message.len, entropy, 32, &t), 0);
    told = text_of(&t);
    HOLDS(same(ack, told) && are_alike(&two, &back) && is_back(twos, 2, &two));
    drop(&told); bulwynef_close(&back);
    WANT(restore(twos, 2, &back), 0);
    WANT(answered(&back, message, &told), 0);
    HOLDS(same(ack, told) && are_alike(&two, &back));
    drop(&told); bulwynef_close(&back);
    /* a copy of now, which node 1 goes on behind */
    add_bytes(&old, ones.at, ones.len);
    /* node 1 accepts it, and once more: the journal has that too */
    WANT(bulwynef_node_accept_ack(&one, ack.at, ack.len), 0);
    WRITTEN(ones, bulwynef_record_ack(ack.at, ack.len, &t));
    HOLDS(is_back(ones, 1, &one));
    WRITTEN(ones, bulwynef_record_checkpoint(&t));
    WANT(bulwynef_node_checkpoint(&one, &out.seq), 0);
    HOLDS(is_back(ones, 1, &one));
    /* a key that is refused, and one that is not */
    WRITTEN(ones, bulwynef_record_next_key(H, W, ids[1], 16, seeds[1], 32, &t));
    WANT(bulwynef_node_next_key(&one, H, W, ids[1], 16, seeds[1], 32), 31);
    HOLDS(is_back(ones, 1, &one));
    WRITTEN(ones, bulwynef_record_next_key(H, W, ids[0], 16, seeds[0], 32, &t));
    WANT(bulwynef_node_next_key(&one, H, W, ids[0], 16, seeds[0], 32), 0);
    HOLDS(is_back(ones, 1, &one));
    /* by that key it signs after a crash what it signs without one */
    WANT(restore(ones, 1, &back), 0);
    entropy[0]++;
    WRITTEN(ones, bulwynef_record_timer(6, entropy, 32, &t));
    WANT(bulwynef_node_timer(&one, 6, entropy, 32), 0);
    WANT(bulwynef_node_timer(&back, 6, entropy, 32), 0);
    drop(&message);
    WANT(first_message(&one, &message), 0);
    WANT(first_message(&back, &told), 0);
    HOLDS(same(message, told) && are_alike(&one, &back) && is_back(ones, 1, &one));
    /* what the witnesses hold: the node knows all of it, and one of the old copy does not */
    WANT(statement_of(message, 0, &said), 0);
    WANT(restore(old, 1, &late), 0);
    WANT(bulwynef_node_knows(&back, said.at, said.len, &out.knows), 0);
    HOLDS(out.knows == 1);
    WANT(bulwynef_node_knows(&late, said.at, said.len, &out.knows), 0);
    HOLDS(out.knows == 0);
    WANT(bulwynef_node_knows(&two, said.at, said.len, &out.knows), 0);
    HOLDS(out.knows == 1);
    bulwynef_close(&back); bulwynef_close(&late);
    /* what a crash tore behind the gate counts for nothing, whatever it is; without the gate the file is damaged */
    WANT(bulwynef_journal_end(ones.at, ones.len, &out.end), 0);
    at = out.end;
    HOLDS(at + 1 == ones.len);
    add_bytes(&ones, both_secrets, 80);
    WANT(bulwynef_journal_end(ones.at, ones.len, &out.end), 0);
    HOLDS(out.end == at && is_back(ones, 1, &one));
    ones.len = at;
    WANT(bulwynef_journal_end(ones.at, ones.len, &out.end), 122);
    WANT(restore(ones, 1, &back), 122);
    add_bytes(&ones, "", 1);
    HOLDS(is_back(ones, 1, &one));
    /* a bit of a length, each in its turn */
    for (at = 1; at < 9; at++) {
        first = ones.at[at];
        ones.at[at] ^= 16;
        WANT(bulwynef_journal_end(ones.at, ones.len, &out.end), 122);
        WANT(restore(ones, 1, &back), 122);
        ones.at[at] = first;
    }
    HOLDS(is_back(ones, 1, &one));
end:
    bulwynef_close(&one); bulwynef_close(&two); bulwynef_close(&back); bulwynef_close(&late); bulwynef_close(&t);
    drop(&ones); drop(&twos); drop(&message); drop(&ack); drop(&told); drop(&said); drop(&old); drop(&record);
    if (!wrong && live) { fprintf(stderr, "%ld blocks are left\n", live); wrong = 1; }
}
/* The same calls once each, as few as there are, for `fails`: node 2 begins, receives, and comes back. */
static void restored(void) {
    struct bulwynef_handle one = {0, false}, back = {0, false}, t = {0, false};
    struct bytes file = new_file(), message = nothing(), ack = nothing(), said = nothing(), record = nothing();
    hold(&one, &back, &t, &one, &back, &t, &one);
    if (!begin()) goto end;
    fill_secrets();
    WANT(node_new(1, &one), 0);
    WANT(tick(&one, 5), 0);
    WANT(first_message(&one, &message), 0);
    WRITTEN(file, beginning_of(2, &t));
    entropy[0]++;
    WRITTEN(file, bulwynef_record_timer(7, entropy, 32, &t));
    entropy[0]++;
    WRITTEN(file, bulwynef_record_answer(message.at, message.len, entropy, 32, &t));
    WRITTEN(file, bulwynef_record_checkpoint(&t));
    WRITTEN(file, bulwynef_record_next_key(H, W, ids[2], 16, seeds[2], 32, &t));
    WANT(restore(file, 2, &back), 0);
    WANT(answered(&back, message, &ack), 0);
    WANT(bulwynef_record_ack(ack.at, ack.len, &t), 0);
    bulwynef_close(&t);
    WANT(statement_of(ack, 1, &said), 0);
    WANT(bulwynef_node_knows(&back, said.at, said.len, &out.knows), 0);
    HOLDS(out.knows == 1);
end:
    bulwynef_close(&one); bulwynef_close(&back); bulwynef_close(&t);
    drop(&file); drop(&message); drop(&ack); drop(&said); drop(&record);
    if (!wrong && live) { fprintf(stderr, "%ld blocks are left\n", live); wrong = 1; }
}
/* What the calls for journals refuse, in their order. */
static void unrestored(void) {
    struct bulwynef_handle n = {0, false}, t = {0, false}, one = {0, false};
    struct bytes file = new_file(), text = nothing(), long_text = nothing(), message = nothing(), record = nothing();
    uint8_t room[16];
    size_t most = 8388608;
    hold(&n, &t, &one, &n, &t, &one, &n);
    memset(room, FILLED, sizeof room);
    if (!begin()) goto end;
    fill_secrets();
    long_text.at = (uint8_t *)calloc(most, 1);
    long_text.len = most;
    HOLDS(long_text.at != NULL);
    /* blocks: a group has 8,388,608 bytes at most */
    WANT(bulwynef_journal_block(long_text.at, most - 8, &t), 42);
    WANT(bulwynef_journal_block(long_text.at, most - 9, &t), 0);
    WANT(bulwynef_journal_block(NULL, 0, &t), 114);
    bulwynef_close(&t);
    WANT(bulwynef_journal_block(NULL, 0, &t), 0);
    text = text_of(&t);
    HOLDS(text.len == 9 && memcmp(text.at, "\xff\0\0\0\0\xff\xff\xff\xff", 9) == 0);
    WANT(bulwynef_journal_end(text.at, text.len, &out.end), 122);
    WANT(bulwynef_journal_end(text.at, 8, &out.end), 122);
    WANT(bulwynef_journal_end(long_text.at, most, &out.end), 0);
    HOLDS(out.end == 0);
    add_bytes(&long_text, "\0", 2);
    WANT(bulwynef_journal_end(long_text.at, most + 2, &out.end), 122);
    WANT(bulwynef_journal_end(long_text.at, most + 1, &out.end), 0);
    WANT(bulwynef_journal_end(room, 1, &out.end), 0);
    HOLDS(out.end == 0);
    /* beginnings */
    WANT(bulwynef_node_beginning(4, NULL, 0, 3, 1, 4, W, ids[1], 16, seeds[1], 32, &t), 2);
    WANT(bulwynef_node_beginning(4, NULL, 0, 3, 1, H, W, ids[1], 16, seeds[1], 31, &t), 117);
    WANT(bulwynef_node_beginning(4, NULL, 0, 3, 1, H, W, ids[1], 16, seeds[1], 32, &t), 113);
    WANT(bulwynef_node_beginning(1, NULL, 0, 3, 1, H, W, ids[1], 16, seeds[1], 32, &t), 24);
    /* records */
    WANT(node_new(1, &one), 0);
    WANT(tick(&one, 1), 0);
    WANT(first_message(&one, &message), 0);
    WANT(bulwynef_record_timer(1, entropy, 31, &t), 117);
    WANT(bulwynef_record_timer(1, NULL, 0, &t), 117);
    WANT(bulwynef_record_answer(NULL, 0, entropy, 31, &t), 117);
    WANT(bulwynef_record_answer(NULL, 0, entropy, 32, &t), 40);
    WANT(bulwynef_record_answer(message.at, message.len - 1, entropy, 32, &t), 40);
    WANT(bulwynef_record_ack(NULL, 0, &t), 40);
    WANT(bulwynef_record_ack(message.at, message.len, &t), 41);
    drop(&text);
    WANT(statement_of(message, 0, &text), 0);
    WANT(bulwynef_record_answer(text.at, text.len, entropy, 32, &t), 41);
    WANT(bulwynef_record_next_key(4, W, ids[1], 16, seeds[1], 32, &t), 2);
    WANT(bulwynef_record_next_key(H, W, NULL, 0, seeds[1], 32, &t), 117);
    WANT(bulwynef_record_timer(1, entropy, 32, &one), 114);
    WANT(bulwynef_record_answer(message.at, message.len, entropy, 32, &one), 114);
    WANT(bulwynef_record_ack(message.at, message.len, &one), 114);
    WANT(bulwynef_record_checkpoint(&one), 114);
    WANT(bulwynef_record_next_key(4, W, ids[1], 16, seeds[1], 32, &one), 114);
    WANT(beginning_of(1, &one), 114);
    WANT(restore(file, 1, &one), 114);
    /* statements */
    WANT(bulwynef_node_knows(&n, text.at, text.len, &out.knows), 110);
    WANT(bulwynef_node_knows(&one, text.at, text.len - 1, &out.knows), 40);
    WANT(bulwynef_node_knows(&one, message.at, message.len, &out.knows), 41);
    WANT(bulwynef_node_knows(&one, text.at, text.len, &out.knows), 0);
    HOLDS(out.knows == 1);
    /* journals, in the order of the header */
    WANT(bulwynef_node_rebuild(4, NULL, 0, secrets[1], 47, text.at, text.len, &n), 113);
    WANT(bulwynef_node_rebuild(1, NULL, 0, secrets[1], 47, text.at, text.len, &n), 117);
    WANT(bulwynef_node_rebuild(1, NULL, 0, secrets[1], 48, text.at, text.len, &n), 24);
    WANT(bulwynef_node_rebuild(1, directory, sizeof directory, NULL, 0, text.at, text.len, &n), 122);
    WANT(restore(file, 1, &n), 126);
    WANT(bulwynef_node_rebuild(1, directory, sizeof directory, NULL, 0, NULL, 0, &n), 126);
    WRITTEN(file, bulwynef_record_checkpoint(&t));
    WANT(restore(file, 1, &n), 127);
    drop(&file);
    file = new_file();
    WRITTEN(file, beginning_of(1, &t));
    WANT(bulwynef_node_rebuild(2, other_directory, sizeof other_directory, NULL, 0, file.at, file.len, &n), 123);
    WANT(bulwynef_node_rebuild(1, other_directory, sizeof other_directory, NULL, 0, file.at, file.len, &n), 124);
    WANT(bulwynef_node_rebuild(1, directory, sizeof directory, NULL, 0, file.at, file.len, &n), 128);
    WANT(restore(file, 2, &n), 128);
    WRITTEN(file, bulwynef_record_next_key(H, W, ids[2], 16, seeds[2], 32, &t));
    WANT(restore(file, 1, &n), 128);
    drop(&file);
    file = new_file();
    WRITTEN(file, bulwynef_node_beginning(1, directory, sizeof directory, 3, 1, H, W, ids[1], 16, seeds[1], 32, &t));
    WANT(restore(file, 1, &n), 30);
    drop(&file);
    file = new_file();
    WRITTEN(file, bulwynef_node_beginning(1, directory, sizeof directory, 2, 1, H, W, ids[1], 16, seeds[1], 32, &t));
    WANT(restore(file, 1, &n), 31);
    drop(&file);
    file = new_file();
    WRITTEN(file, beginning_of(1, &t));
    WRITTEN(file, beginning_of(1, &t));
    WANT(restore(file, 1, &n), 129);
    HOLDS(!n.is_open && !t.is_open);
end:
    bulwynef_close(&n); bulwynef_close(&t); bulwynef_close(&one);
    drop(&file); drop(&text); drop(&long_text); drop(&message); drop(&record);
    if (!wrong && live) { fprintf(stderr, "%ld blocks are left\n", live); wrong = 1; }
}
