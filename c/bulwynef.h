/* Bulwynef for C, and for other languages that call C: stores of evidence, nodes that answer for what they did, and proofs that a third party
 * checks.
 *
 * Link with -lbulwynef of a release (docs/INSTALL.md), or with libbulwynef.a. c/run.py makes libbulwynef.a of the crate bulwynef_c and of
 * heap.c. c/example.c is a program that does so. Each call is proved against its contract (crates/bulwynef_c/src). docs/FORMATS.md has the
 * bytes of every encoding, and docs/GLOSSARY.md explains the words.
 *
 * Every call but bulwynef_text_len and bulwynef_close returns a number: 0, or the number of a refusal. A refused call changes nothing, neither
 * behind a handle nor in what it writes to, unless its comment says otherwise. No call aborts, blocks, keeps a pointer, or writes beyond the
 * room that it is given.
 *
 * A handle is a struct of the caller's. It is closed at first: struct bulwynef_handle h = BULWYNEF_HANDLE_INIT, or zeros. A call opens it.
 * bulwynef_close closes it, and frees what is behind it. The library cannot see whether the caller keeps these rules:
 *  - A pointer points to as many bytes as the length beside it says, as long as the call runs. If the length is 0, the pointer may be any
 *    pointer, also NULL, and stands for no bytes.
 *  - What a call writes to overlaps nothing else that the call is given. Two handles of one call are two different handles. (A handle that is
 *    given twice is refused: with 110 if it is given as two stores, with 114 if it is given as a text too.)
 *  - The fields of a handle are the library's. A handle may be moved. If it is copied, only one of the two is used from then on, and only that
 *    one is closed: an open handle is closed once. If an open handle is dropped or overwritten, what is behind it leaks.
 *  - A handle has one call at a time, since nothing behind it has a lock. It stays on its thread, or is handed to another thread by something
 *    that orders the two, such as a lock or a join.
 *  - A handle that was opened before fork is not used in the child, and not closed there. Nothing refuses it. But parent and child would sign
 *    two statements by one leaf of a key, and whoever sees both can sign as the node.
 *  - malloc, realloc and free are one allocator, aligned to 16.
 *  - entropy is 32 random bytes, fresh for each call that signs. A seed signs in one process at a time. A key that has signed begins no
 *    second node: it begins its own node again, and only from that node's journal ("nodes that survive" below, docs/DEPLOYING.md).
 *
 * A call on a handle is refused with 110 if the handle is closed, and with 111 if something else is behind it. Two stores of two programs are
 * refused with 111 too. A call that asks for memory returns 99 if memory runs out. A call that gives bytes puts them behind a second handle,
 * `text`. This handle must be closed when the call begins, else the call is refused with 114 before anything else. docs/STABILITY.md says what
 * of this stays.
 *
 * Copyright 2026 the Bulwynef authors. Licensed under MIT or Apache-2.0, at your choice: LICENSE-MIT, LICENSE-APACHE.
 */
#ifndef BULWYNEF_H
#define BULWYNEF_H
#include <stdbool.h>
#include <stddef.h>
#include <stdint.h>
#ifdef __cplusplus
extern "C" {
#endif

/* The programs that nodes follow. */
enum { BULWYNEF_TALLY = 1, BULWYNEF_RELAY = 2, BULWYNEF_MAILBOX = 3 };
/* What a store says of a node. 0 is none of these, so a variable that no call wrote to says nothing. */
enum { BULWYNEF_TRUSTED = 1, BULWYNEF_SUSPECTED = 2, BULWYNEF_EXPOSED = 3 };
/* The types of trees and of one-time signatures (RFC 8554). A key of H5 signs 32 statements, and one of H10 1,024. */
enum { BULWYNEF_H5 = 5, BULWYNEF_H10 = 6 };
enum { BULWYNEF_W1 = 1, BULWYNEF_W2 = 2, BULWYNEF_W4 = 3, BULWYNEF_W8 = 4 };
enum { BULWYNEF_KEY_ID_LEN = 16, BULWYNEF_SEED_LEN = 32, BULWYNEF_ENTROPY_LEN = 32, BULWYNEF_PUBLIC_KEY_LEN = 56 };

struct bulwynef_handle { void *at; bool is_open; };
/* A handle with nothing behind it. Zeros are one too. */
#define BULWYNEF_HANDLE_INIT {0, false}

/* The version of this header. */
#define BULWYNEF_VERSION "0.9.0"
#define BULWYNEF_VERSION_MAJOR 0
#define BULWYNEF_VERSION_MINOR 9
#define BULWYNEF_VERSION_PATCH 0
#define BULWYNEF_VERSION_NUMBER (BULWYNEF_VERSION_MAJOR * 1000000 + BULWYNEF_VERSION_MINOR * 1000 + BULWYNEF_VERSION_PATCH)

/* What a call returns if it was done. Else it returns the number of a refusal. A number stands for one refusal for ever. Later versions have
   more refusals. */
enum { BULWYNEF_OK = 0 };
/* made by checks/reference/refusals.py */
enum bulwynef_refusal {
    BULWYNEF_REFUSED_UNKNOWN_LMS_TYPE = 2,
    BULWYNEF_REFUSED_UNKNOWN_OTS_TYPE = 3,
    BULWYNEF_REFUSED_HEIGHT_TOO_LARGE = 4,
    BULWYNEF_REFUSED_DUPLICATE_NODE = 20,
    BULWYNEF_REFUSED_DUPLICATE_KEY = 21,
    BULWYNEF_REFUSED_TOO_MANY_NODES = 22,
    BULWYNEF_REFUSED_DIRECTORY_BAD_MAGIC = 23,
    BULWYNEF_REFUSED_DIRECTORY_TRUNCATED = 24,
    BULWYNEF_REFUSED_DIRECTORY_TRAILING = 25,
    BULWYNEF_REFUSED_KEY_COUNT = 26,
    BULWYNEF_REFUSED_UNLISTED_NODE = 27,
    BULWYNEF_REFUSED_NODE_UNKNOWN_NODE = 30,
    BULWYNEF_REFUSED_WRONG_KEY = 31,
    BULWYNEF_REFUSED_NOT_MINE = 32,
    BULWYNEF_REFUSED_UNKNOWN_SENDER = 33,
    BULWYNEF_REFUSED_MESSAGE_BAD_SIGNATURE = 34,
    BULWYNEF_REFUSED_PAYLOAD_TOO_LONG = 35,
    BULWYNEF_REFUSED_KEY_SPENT = 36,
    BULWYNEF_REFUSED_LOG_FULL = 37,
    BULWYNEF_REFUSED_BAD_ACK = 38,
    BULWYNEF_REFUSED_NUMBER_TAKEN = 39,
    BULWYNEF_REFUSED_TRUNCATED = 40,
    BULWYNEF_REFUSED_BAD_TAG = 41,
    BULWYNEF_REFUSED_TOO_LONG = 42,
    BULWYNEF_REFUSED_TRAILING = 43,
    BULWYNEF_REFUSED_UNKNOWN_NODE = 44,
    BULWYNEF_REFUSED_SELF_MESSAGE = 45,
    BULWYNEF_REFUSED_EMPTY_SEGMENT = 46,
    BULWYNEF_REFUSED_BAD_START = 47,
    BULWYNEF_REFUSED_BAD_RANGE = 48,
    BULWYNEF_REFUSED_BAD_SIGNATURE = 49,
    BULWYNEF_REFUSED_NO_CONTRADICTION = 50,
    BULWYNEF_REFUSED_CONFORMS = 51,
    BULWYNEF_REFUSED_BAD_MAGIC = 60,
    BULWYNEF_REFUSED_NOT_ASCENDING = 61,
    BULWYNEF_REFUSED_NOTHING_KEPT = 62,
    BULWYNEF_REFUSED_NOT_FOR_ME = 70,
    BULWYNEF_REFUSED_NOT_IN_LOG = 71,
    BULWYNEF_REFUSED_NO_ANSWER_NEEDED = 72,
    BULWYNEF_REFUSED_MEMORY = 99,
    BULWYNEF_REFUSED_CLOSED = 110,
    BULWYNEF_REFUSED_OTHER_KIND = 111,
    BULWYNEF_REFUSED_OTHER_DIRECTORY = 112,
    BULWYNEF_REFUSED_BAD_PROGRAM = 113,
    BULWYNEF_REFUSED_STILL_OPEN = 114,
    BULWYNEF_REFUSED_NOT_EXPOSED = 115,
    BULWYNEF_REFUSED_OUT_OF_RANGE = 116,
    BULWYNEF_REFUSED_WRONG_LENGTH = 117,
    BULWYNEF_REFUSED_DAMAGED = 122,
    BULWYNEF_REFUSED_OTHER_PROGRAM = 123,
    BULWYNEF_REFUSED_JOURNAL_OTHER_DIRECTORY = 124,
    BULWYNEF_REFUSED_EMPTY_JOURNAL = 126,
    BULWYNEF_REFUSED_NO_BEGINNING = 127,
    BULWYNEF_REFUSED_OTHER_KEY = 128,
    BULWYNEF_REFUSED_BAD_RECORD = 129,
};
/* end */

/* ---- calls without a store or a node */

/* Checks a proof. Writes to *node the node that the proof convicts before anybody who has the directory and the program. If the call is
   refused, *node is as it was. Refusals, in this order:
    - 113 if there is no such program
    - 2, 3, 20 to 26 by the directory's encoding
    - 40 to 43 by the proof's encoding
    - 44 to 51 by the proof

       uint32_t node;
       if (bulwynef_check_proof(BULWYNEF_TALLY, directory, directory_len, proof, proof_len, &node) == 0) printf("exposes %u\n", node); */
uint8_t bulwynef_check_proof(uint8_t program, const uint8_t *directory, size_t directory_len, const uint8_t *proof, size_t proof_len,
                             uint32_t *node);

/* Gives a text for a person to read: whom a proof convicts, and why. It begins with what the verdict is based on: the line `program tally`
   (or relay, or mailbox), and the line `directory SUM`. SUM is the SHA-256 of the directory's encoding, in 64 hexadecimal digits. A line about
   the whole follows, the line `NODE exposed`, and sentences. Each sentence is a line that begins with two blanks. The call is refused as
   bulwynef_check_proof is. */
uint8_t bulwynef_explain_proof(uint8_t program, const uint8_t *directory, size_t directory_len, const uint8_t *proof, size_t proof_len,
                               struct bulwynef_handle *text);

/* Writes the public key of a seed, 56 bytes, as a directory has it. Refusals, in this order:
    - 117 if the room is not 56 bytes
    - 2 if the type of the tree is unknown, 3 if that of the one-time signature is
    - 117 if the identifier is not 16 bytes, or the seed not 32
    - 4 if the tree is higher than that of H10

       uint8_t key[BULWYNEF_PUBLIC_KEY_LEN];
       uint8_t refused = bulwynef_public_key(BULWYNEF_H10, BULWYNEF_W8, key_id, 16, seed, 32, key, sizeof key); */
uint8_t bulwynef_public_key(uint32_t lms_type, uint32_t ots_type, const uint8_t *key_id, size_t key_id_len, const uint8_t *seed,
                            size_t seed_len, uint8_t *key, size_t key_len);

/* ---- items that are made of others. These calls verify nothing: a store verifies what it takes (bulwynef_store_take).

       bulwynef_statement_of(message, message_len, 0, &text);               what its sender signed
       bulwynef_audit_challenge(NULL, 0, statement, statement_len, &text);  asks the signer for its log up to there
       bulwynef_store_take(&store, audit, audit_len, &is_new);              the signer is suspected until its segment comes */

/* Gives the statement at a place, from 0, among those whose signatures the item has. The statement is an item of tag 1. A statement (tag 1)
   has only itself, and a segment (2) that of its last entry. An audit challenge (3) has those that it names, the earlier one first. A send
   challenge (4) has that of the message's sender. An acknowledgement (5) has the sender's, and then the receiver's. The call is refused with 40
   to 43 by the item's encoding, and then with 116 if there are fewer statements.

       if (bulwynef_statement_of(ack, ack_len, 1, &text) == 0) { note_what_the_receiver_signed(&text); bulwynef_close(&text); } */
uint8_t bulwynef_statement_of(const uint8_t *item, size_t item_len, size_t place, struct bulwynef_handle *text);

/* Makes an audit challenge, an item of tag 3. It asks a node for its log up to the entry of its statement `last`: from the entry of its
   statement `first` on, or from the beginning if `first` is empty. Both are items of tag 1. Refusals, in this order:
    - 40 to 43 by the encoding of `first`, unless it is empty; 41 also if it is another item
    - 40 to 43 by the encoding of `last`; 41 also if it is another item
    - 48 if the two are of two nodes, or the number of `first` is not below that of `last`

       if (bulwynef_audit_challenge(first, first_len, last, last_len, &text) == 0) { ask_the_node(&text); bulwynef_close(&text); } */
uint8_t bulwynef_audit_challenge(const uint8_t *first, size_t first_len, const uint8_t *last, size_t last_len,
                                 struct bulwynef_handle *text);

/* Makes a send challenge, an item of tag 4. It asks the receiver of a message to acknowledge it. The message is that of an item: of a send
   challenge (tag 4) or of an acknowledgement (5). The call is refused with 40 to 43 by the item's encoding, and with 41 also if it is
   another item.

       if (bulwynef_send_challenge(ack, ack_len, &text) == 0) { ask_again(&text); bulwynef_close(&text); } */
uint8_t bulwynef_send_challenge(const uint8_t *message, size_t message_len, struct bulwynef_handle *text);

/* ---- stores of evidence */

/* Opens a store without items, under the directory with this encoding. It is refused with 114 if `store` is open, then with 113 if there is
   no such program, and then with 2, 3 or 20 to 26 by the encoding.

       struct bulwynef_handle store = BULWYNEF_HANDLE_INIT;
       uint64_t added;
       uint8_t said;
       uint8_t refused = bulwynef_store_open(BULWYNEF_TALLY, directory, directory_len, &store);
       if (!refused) refused = bulwynef_store_import(&store, text, text_len, &added);
       if (!refused) refused = bulwynef_store_indication(&store, 2, &said);
       if (!refused && said == BULWYNEF_EXPOSED) puts("node 2 is exposed");
       bulwynef_close(&store); */
uint8_t bulwynef_store_open(uint8_t program, const uint8_t *directory, size_t directory_len, struct bulwynef_handle *store);

/* Adds an item. Writes 1 to *is_new if the item is new, and 0 if the store has it already. It is refused with 40 to 43 by the item's encoding,
   and then with 44 to 49 by the item. */
uint8_t bulwynef_store_take(struct bulwynef_handle *store, const uint8_t *item, size_t item_len, uint8_t *is_new);

/* Adds the items of a store's export, all or none. Writes to *added how many are new. It is refused with 40 to 49, 60 or 61 by the export. */
uint8_t bulwynef_store_import(struct bulwynef_handle *store, const uint8_t *text, size_t text_len, uint64_t *added);

/* Adds the items of another store, all or none. Writes to *added how many are new. It is refused with 112 if the other store is under another
   directory. The other store never changes.

       if (bulwynef_store_merge(&mine, &theirs, &added) == 0) bulwynef_close(&theirs); */
uint8_t bulwynef_store_merge(struct bulwynef_handle *store, struct bulwynef_handle *other, uint64_t *added);

/* Writes 1 to *includes if the store has each item of the other store, else 0.

       if (bulwynef_store_includes(&mine, &theirs, &includes) == 0 && includes) bulwynef_close(&theirs); */
uint8_t bulwynef_store_includes(struct bulwynef_handle *store, struct bulwynef_handle *other, uint8_t *includes);

/* Writes to *indication what the items say of a node: BULWYNEF_TRUSTED, _SUSPECTED or _EXPOSED. It is refused with 44 if the node is not
   listed.

       if (bulwynef_store_indication(&store, node, &said) == 0 && said == BULWYNEF_EXPOSED) hand_on_a_proof(node); */
uint8_t bulwynef_store_indication(struct bulwynef_handle *store, uint32_t node, uint8_t *indication);

/* Gives a proof that convicts the node. It is refused with 44 if the node is not listed, and then with 115 if the items do not expose it.

       struct bulwynef_handle text = BULWYNEF_HANDLE_INIT;
       if (bulwynef_store_proof(&store, node, &text) == 0) {
           size_t len = bulwynef_text_len(&text);
           uint8_t *proof = malloc(len);
           if (proof) bulwynef_text_copy(&text, proof, len);
           bulwynef_close(&text);
       } */
uint8_t bulwynef_store_proof(struct bulwynef_handle *store, uint32_t node, struct bulwynef_handle *text);

/* Gives the challenge at a place, from 0, among those against a node that no item answers. They are in the order of their bytes. A challenge is
   an item of tag 3 or 4. It goes to the node (bulwynef_node_answer), and the store takes the node's answer. The call is refused with 44 if
   the node is not listed, and then with 116 if there are fewer challenges.

       for (size_t place = 0; bulwynef_store_challenge(&store, node, place, &text) == 0; place++) {
           ask_the_node(&text);
           bulwynef_close(&text);
       } */
uint8_t bulwynef_store_challenge(struct bulwynef_handle *store, uint32_t node, size_t place, struct bulwynef_handle *text);

/* Gives a text for a person to read: what the items say of each listed node, in ascending order, and why. It begins with what the verdict is
   based on: the line `program tally` (or relay, or mailbox), and the line `directory SUM`. SUM is the SHA-256 of the encoding by which the
   store was opened, in 64 hexadecimal digits. A line about the whole follows. Then each node has the line `NODE trusted`, `NODE suspected` or
   `NODE exposed`, and sentences. The node's line ends with ` (no item)` if the store has no statement of the node and no challenge against it.
   Each sentence is a line that begins with two blanks.

       if (bulwynef_store_explain(&store, &text) == 0) { print(&text); bulwynef_close(&text); } */
uint8_t bulwynef_store_explain(struct bulwynef_handle *store, struct bulwynef_handle *text);

/* Gives the store's export, the one encoding of its set of items. Stores of the same items have equal exports.

       if (bulwynef_store_export(&store, &text) == 0) { keep_for_import(&text); bulwynef_close(&text); } */
uint8_t bulwynef_store_export(struct bulwynef_handle *store, struct bulwynef_handle *text);

/* ---- what stores give one another: an outline, a summary against it, and a pack of what the summary does not name

       bulwynef_store_outline(&mine, &outline);                            goes to the other side
       bulwynef_store_short_summary(&theirs, outline, outline_len, &text); the summary comes back
       bulwynef_store_pack(&mine, summary, summary_len, &text);            the pack goes to the other side
       bulwynef_store_apply(&theirs, pack, pack_len, &added);              the other side now has all that is here */

/* Gives the outline of a store, some 8 KB: for each of 256 buckets the digest of the items in it. */
uint8_t bulwynef_store_outline(struct bulwynef_handle *store, struct bulwynef_handle *text);

/* Gives a summary that lists the digest of each item, 32 bytes each. It serves if there is no outline.

       if (bulwynef_store_summary(&theirs, &text) == 0) { ask_for_a_pack(&text); bulwynef_close(&text); } */
uint8_t bulwynef_store_summary(struct bulwynef_handle *store, struct bulwynef_handle *text);

/* Gives a summary against an outline: it lists the digests of the items in the buckets that differ. It is refused with 40, 43 or 60 by the
   outline's encoding. */
uint8_t bulwynef_store_short_summary(struct bulwynef_handle *store, const uint8_t *outline, size_t outline_len,
                                     struct bulwynef_handle *text);

/* Gives a pack of the items that the summary does not name. It is refused with 40, 41, 43 or 60 to 62 by the summary's encoding. */
uint8_t bulwynef_store_pack(struct bulwynef_handle *store, const uint8_t *summary, size_t summary_len, struct bulwynef_handle *text);
/* Adds the items of a pack, all or none. Writes to *added how many are new. It is refused with 40 to 49, 60 or 61 by the pack. */
uint8_t bulwynef_store_apply(struct bulwynef_handle *store, const uint8_t *pack, size_t pack_len, uint64_t *added);

/* ---- nodes */

/* Begins node `id` of the directory, which signs by the key of the seed. Its log begins with the number first_seq. Refusals, in this order:
    - 114 if `node` is open
    - 2, 3, 117, 4 by the key, as bulwynef_public_key refuses it
    - 113 if there is no such program
    - 2, 3, 20 to 26 by the directory's encoding
    - 30 if the node is not listed
    - 31 if the directory does not list the key for it */
uint8_t bulwynef_node_new(uint8_t program, const uint8_t *directory, size_t directory_len, uint32_t id, uint64_t first_seq,
                          uint32_t lms_type, uint32_t ots_type, const uint8_t *key_id, size_t key_id_len, const uint8_t *seed,
                          size_t seed_len, struct bulwynef_handle *node);

/* Ticks the node's timer at a moment, which is an input of the program (docs/PROGRAMS.md). It is refused with 117 if the entropy is not
   32 bytes, then with 36 if the key has too few leaves left, and then with 37 if the log is full. The messages that the node sends then
   wait:

       uint64_t seq;
       if (bulwynef_node_timer(&node, moment, entropy, 32) == 0)
           for (size_t place = 0; bulwynef_node_waiting(&node, place, &seq) == 0; place++)
               if (bulwynef_node_message(&node, seq, &text) == 0) { send_on(&text); bulwynef_close(&text); } */
uint8_t bulwynef_node_timer(struct bulwynef_handle *node, uint64_t moment, const uint8_t *entropy, size_t entropy_len);

/* Writes to *seq the number of the message at a place, from 0, among those that wait for their acknowledgements. It is refused with 116 if
   fewer wait. */
uint8_t bulwynef_node_waiting(struct bulwynef_handle *node, size_t place, uint64_t *seq);

/* Gives the message that the node sent with this number, as an item of tag 4. It goes to its receiver, and to a witness if it is not
   acknowledged. The call is refused with 116 if the node sent none with this number. A message can be asked for as often as one likes. */
uint8_t bulwynef_node_message(struct bulwynef_handle *node, uint64_t seq, struct bulwynef_handle *text);

/* Answers a challenge. A send challenge (an item of tag 4) has a message. The node receives it, and the answer is its acknowledgement, an item
   of tag 5. An audit challenge (tag 3) is answered by a segment, an item of tag 2. What was answered before gets the same answer. If the call
   returns 99, the node is as it was, or has answered: the same call again gives the answer. Refusals, in this order:
    - 114 if `text` is open
    - 117 if the entropy is not 32 bytes
    - 40 to 49 by the item
    - 72 if the item is no challenge
    - 70 if the challenge is against another node
    - 71 if it names an entry that is not in the log
    - 36 if the key has too few leaves left, then 37 if the log is full

       uint8_t refused = bulwynef_node_answer(&node, item, item_len, entropy, 32, &text);
       if (refused == 99) refused = bulwynef_node_answer(&node, item, item_len, entropy, 32, &text);
       if (!refused) { send_back(&text); bulwynef_close(&text); } */
uint8_t bulwynef_node_answer(struct bulwynef_handle *node, const uint8_t *challenge, size_t challenge_len, const uint8_t *entropy,
                             size_t entropy_len, struct bulwynef_handle *text);

/* Gives the entries of the node's log, from the first to the last, each as a segment has it: number, kind, and content after its length
   (docs/FORMATS.md). The node signs nothing for it. Whoever must believe the log asks for it by an audit challenge.

       if (bulwynef_node_history(&node, &text) == 0) { look_at(&text); bulwynef_close(&text); } */
uint8_t bulwynef_node_history(struct bulwynef_handle *node, struct bulwynef_handle *text);

/* Accepts an acknowledgement, an item of tag 5. Its message waits no longer. The acknowledgement is evidence of the receipt: a store of the
   same directory takes it (bulwynef_store_take), and its message is, byte by byte, one that the node sent. It is refused with 40 to 43 by its
   encoding, with 41 if it is another item, and with 38 if it is any other acknowledgement.

       if (bulwynef_node_accept_ack(&node, ack, ack_len) == 38) send_the_message_again(); */
uint8_t bulwynef_node_accept_ack(struct bulwynef_handle *node, const uint8_t *ack, size_t ack_len);

/* Logs a checkpoint, from which an audit can begin. Writes its number to *seq. It is refused with 37 if the log is full.

       if (bulwynef_node_checkpoint(&node, &seq) == 37) begin_the_next_epoch(); */
uint8_t bulwynef_node_checkpoint(struct bulwynef_handle *node, uint64_t *seq);

/* Writes to *leaves how many statements the key in use can still sign.

       if (bulwynef_node_remaining(&node, &leaves) == 0 && leaves < 2) take_the_next_key(); */
uint8_t bulwynef_node_remaining(struct bulwynef_handle *node, uint32_t *leaves);

/* Makes the node sign by another of its keys from now on. It is refused first by the key, as bulwynef_public_key is, and last with 31 if
   the key is none of the node's, or is or was in use.

       bulwynef_node_next_key(&node, BULWYNEF_H10, BULWYNEF_W8, key_id, 16, seed, 32); */
uint8_t bulwynef_node_next_key(struct bulwynef_handle *node, uint32_t lms_type, uint32_t ots_type, const uint8_t *key_id,
                               size_t key_id_len, const uint8_t *seed, size_t seed_len);

/* ---- nodes that survive

   A node behind a handle ends with its process. A node with a journal comes back as it was: with its log, its keys, and all that it signed.
   The journal is a file of the host's. The library gives its bytes; the host writes, syncs, calls and sends. docs/FORMATS.md has the file
   ("A journal's file") and the texts in it ("A node's journal"). It has no seed, but the entropy of each signature: keep it secret.

   The order of the steps is the first rule. For each call that signs or logs (bulwynef_node_timer, _answer, _checkpoint and _next_key), the
   host does this, one call after the other:

    1. It makes the text of the record: bulwynef_record_timer, _answer, _checkpoint or _next_key.
    2. It writes the text's block (bulwynef_journal_block) into the file. The block begins at the place of the closed gate, with a 0 in the
       place of its first byte, which is 255, and a 0 stands behind it. It syncs the file. It writes the 255, and syncs again.
    3. It makes the call of the node, with the same input and the same entropy.
    4. It sends what the node answers.

   An acknowledgement comes the other way round, because nothing is signed of it: the host calls bulwynef_node_accept_ack first. Only if that
   answers 0, it writes the text of bulwynef_record_ack in step 2, before any further call. The record lacks the message of the item, so a
   rebuilt node would accept an item that the node refused for its message. After a crash between the two, the message waits again.

   If a write or a sync fails, the host makes no further call. If the call answers 99, memory ran out behind a record that is written. In
   both cases the host ends its process, or closes the handle, and begins with the file as at a start. A node that went on without a record
   that is written would sign other texts than the rebuilt one, by the same leaves, and whoever sees both can sign as the node. A call that
   is refused otherwise changes nothing, and the rebuilt node refuses it again. An answer to an audit (an item of tag 3) changes nothing, and
   has no record. Several records may be one group: their blocks stand one behind the other, in at most 8,388,608 bytes, the first of them
   begins with the 0 and then the 255, and all of their calls are made, in their order.

   A start, also the first one:

    1. One process at a time has the file: the host locks it, and reads all of it.
    2. bulwynef_journal_end gives the place of the closed gate. At 122 the file is damaged, as no crash leaves it: the host changes nothing
       of it. A file of at most one byte gets a 0 as its only byte. Any other is cut behind the closed gate. The host syncs the file, and
       the folder of a new one.
    3. If the file has no text, bulwynef_node_beginning gives the first one. Its block is written as in step 2 above.
    4. bulwynef_node_rebuild gives the node of the file's bytes.
    5. If the file may be an old copy, as one of a backup, the host asks all witnesses for the statements of this node that they hold, and
       bulwynef_node_knows says 1 of each of these. Else the node signed what the file lacks, and no key of it may ever sign again.
    6. The host sends again each message that waits (bulwynef_node_waiting). What is asked of the node is answered as always. */

/* The open block of a text, which stands for it in a journal. Refused, in this order: 114 the handle is open; 42 the block would be longer
   than 8,388,608 bytes.

       if (bulwynef_journal_block(record, record_len, &text) == 0) { write_behind_the_closed_gate(&text); bulwynef_close(&text); } */
uint8_t bulwynef_journal_block(const uint8_t *text, size_t text_len, struct bulwynef_handle *block);

/* The place of the closed gate in the bytes of a journal, which is the number of bytes that its blocks take. It is 0 for a new file. What
   stands behind the gate counts for nothing. 122 no crash leaves such a file.

       size_t end;
       if (bulwynef_journal_end(journal, journal_len, &end) == 0 && journal_len > end + 1) cut_the_file_to(end + 1); */
uint8_t bulwynef_journal_end(const uint8_t *journal, size_t journal_len, size_t *end);

/* The first text of a node's journal: how node `id` of the directory begins, by the key of the seed, with a log whose first number is
   first_seq. The text has the public key, and no seed. 114 the handle is open; as bulwynef_public_key refuses the key; 113 no such program;
   2, 3, 20 to 26 of the directory's text. Whether the directory lists the node with this key, bulwynef_node_rebuild says. */
uint8_t bulwynef_node_beginning(uint8_t program, const uint8_t *directory, size_t directory_len, uint32_t id, uint64_t first_seq,
                                uint32_t lms_type, uint32_t ots_type, const uint8_t *key_id, size_t key_id_len, const uint8_t *seed,
                                size_t seed_len, struct bulwynef_handle *text);

/* The record of a tick, which bulwynef_node_timer does. 114 the handle is open; 117 the entropy is not 32 bytes.

       if (bulwynef_record_timer(moment, entropy, 32, &text) == 0 && is_written_and_synced(&text))
           refused = bulwynef_node_timer(&node, moment, entropy, 32); */
uint8_t bulwynef_record_timer(uint64_t moment, const uint8_t *entropy, size_t entropy_len, struct bulwynef_handle *text);

/* The record of a message, an item of tag 4, which bulwynef_node_answer answers. Refused, in this order: 114 the handle is open; 117 the
   entropy is not 32 bytes; 40 to 43 of the item's text, 41 also of another item. */
uint8_t bulwynef_record_answer(const uint8_t *challenge, size_t challenge_len, const uint8_t *entropy, size_t entropy_len,
                               struct bulwynef_handle *text);

/* The record of an acknowledgement, an item of tag 5, which bulwynef_node_accept_ack accepted. 114 the handle is open; 40 to 43 of the item's
   text, 41 also of another item.

       if (bulwynef_node_accept_ack(&node, ack, ack_len) == 0 && bulwynef_record_ack(ack, ack_len, &text) == 0)
           write_and_sync_or_end(&text); */
uint8_t bulwynef_record_ack(const uint8_t *ack, size_t ack_len, struct bulwynef_handle *text);

/* The record of a checkpoint, which bulwynef_node_checkpoint logs. 114 the handle is open. */
uint8_t bulwynef_record_checkpoint(struct bulwynef_handle *text);

/* The record of the next key, by which bulwynef_node_next_key has the node sign. It has the public key, and no seed. 114 the handle is open;
   as bulwynef_public_key refuses the key. */
uint8_t bulwynef_record_next_key(uint32_t lms_type, uint32_t ots_type, const uint8_t *key_id, size_t key_id_len, const uint8_t *seed,
                                 size_t seed_len, struct bulwynef_handle *text);

/* The node of a journal: the one that its first text began, after the calls that the further texts record. The secrets are 48 bytes for each
   key of the node, the identifier in 16 and the seed in 32. Refused, in this order: 114 the handle is open; 113 no such program; 117 the
   secrets are no multiple of 48 bytes; 2, 3, 20 to 26 of the directory's text; 122 no crash leaves such a journal; 126 it has no text; 127
   the first text is no beginning; 123 it is of another program; 124 it is of another directory; 128 none of the secrets makes its key; 30
   the directory does not list the node; 31 the key is none of its keys there; then for each further text, in order, 129 it is no record,
   128 none of the secrets makes its key.

       uint8_t refused = bulwynef_node_rebuild(BULWYNEF_TALLY, directory, directory_len, secrets, 48, journal, journal_len, &node); */
uint8_t bulwynef_node_rebuild(uint8_t program, const uint8_t *directory, size_t directory_len, const uint8_t *secrets, size_t secrets_len,
                              const uint8_t *journal, size_t journal_len, struct bulwynef_handle *node);

/* 1 if a statement, an item of tag 1, is of another node, or if the node signed its number and its hash; else 0. 40 to 43 of the item's
   text, 41 also of another item. It does not verify the statement: ask it of valid ones (bulwynef_store_take).

       if (bulwynef_node_knows(&node, statement, statement_len, &knows) == 0 && !knows) never_sign_by_these_keys_again(); */
uint8_t bulwynef_node_knows(struct bulwynef_handle *node, const uint8_t *statement, size_t statement_len, uint8_t *knows);

/* ---- texts: the bytes that calls gave */

size_t bulwynef_text_len(struct bulwynef_handle *text);                                  /* returns 0 if it is no text */
uint8_t bulwynef_text_copy(struct bulwynef_handle *text, uint8_t *out, size_t out_len);  /* 117 unless out_len is its length */

void bulwynef_close(struct bulwynef_handle *handle);                                     /* a closed handle stays closed */

#ifdef __cplusplus
}
#endif
#endif
