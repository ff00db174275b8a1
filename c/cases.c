/* cases: runs bindings/cases.txt, which is handed to it on standard input, and tells each answer that is another. Its page says how a line is
 * read. It ends with 1 where one is, or where a line can't be read. */
#include "bulwynef.h"
#include <stdio.h>
#include <stdlib.h>
#include <string.h>

enum { MOST_WORDS = 16, MOST_NAMES = 256, MOST_LINE = 1 << 20 };
struct bytes { uint8_t *at; size_t len; };
struct named { char *name; struct bytes text; };
struct opened { char *name; struct bulwynef_handle handle; };
static struct named texts[MOST_NAMES];
static struct opened handles[MOST_NAMES];
static size_t text_count, handle_count, line_number;

static void stop(const char *why) {
    fprintf(stderr, "cases: line %zu: %s\n", line_number, why);
    exit(1);
}

static void *room(size_t len) {
    void *at = calloc(len ? len : 1, 1);
    if (at == NULL) stop("memory ran out");
    return at;
}

static char *copy_of(const char *word) { return strcpy(room(strlen(word) + 1), word); }

static void name_text(const char *name, struct bytes text) {
    if (text_count == MOST_NAMES) stop("too many texts");
    texts[text_count++] = (struct named){copy_of(name), text};
}

static struct bytes text_of(const char *word) {
    for (size_t i = 0; i < text_count; i++)
        if (word[0] == '@' && strcmp(texts[i].name, word + 1) == 0) return texts[i].text;
    stop("no such text");
    return (struct bytes){NULL, 0};
}

static struct bulwynef_handle *handle_of(const char *word) {
    for (size_t i = 0; i < handle_count; i++)
        if (strcmp(handles[i].name, word) == 0) return &handles[i].handle;
    if (handle_count == MOST_NAMES) stop("too many handles");
    handles[handle_count] = (struct opened){copy_of(word), BULWYNEF_HANDLE_INIT};
    return &handles[handle_count++].handle;
}

static struct bytes decoded(const char *digits) {
    struct bytes text = {room(strlen(digits) / 2), strlen(digits) / 2};
    for (size_t i = 0; i < text.len; i++) {
        unsigned byte;
        if (sscanf(digits + 2 * i, "%2x", &byte) != 1) stop("no digits");
        text.at[i] = (uint8_t)byte;
    }
    return text;
}

/* What a call answered: the number, and a number or a text beside it. */
struct answer { uint8_t refused; bool has_number; uint64_t number; bool has_text; struct bytes text; };

static struct answer of_text(uint8_t refused, struct bulwynef_handle *text) {
    struct answer it = {refused, false, 0, refused == 0, {NULL, 0}};
    if (refused == 0) {
        it.text.len = bulwynef_text_len(text);
        it.text.at = room(it.text.len);
        if (bulwynef_text_copy(text, it.text.at, it.text.len) != 0) stop("the text can't be copied");
        bulwynef_close(text);
    }
    return it;
}

static struct answer of_number(uint8_t refused, uint64_t number) { return (struct answer){refused, true, number, false, {NULL, 0}}; }
static struct answer plain(uint8_t refused) { return (struct answer){refused, false, 0, false, {NULL, 0}}; }

#define TEXT(place) text_of(w[place]).at, text_of(w[place]).len
#define NUMBER(place) strtoull(w[place], NULL, 10)
#define HANDLE(place) handle_of(w[place])
#define IS(word) (strcmp(w[0], word) == 0)

static struct answer of_store(char **w) {
    struct bulwynef_handle text = BULWYNEF_HANDLE_INIT;
    uint8_t small = 0, refused;
    uint64_t many = 0;
    if (IS("store_open")) return plain(bulwynef_store_open((uint8_t)NUMBER(2), TEXT(3), HANDLE(1)));
    if (IS("store_take")) return refused = bulwynef_store_take(HANDLE(1), TEXT(2), &small), of_number(refused, small);
    if (IS("store_import")) return refused = bulwynef_store_import(HANDLE(1), TEXT(2), &many), of_number(refused, many);
    if (IS("store_merge")) return refused = bulwynef_store_merge(HANDLE(1), HANDLE(2), &many), of_number(refused, many);
    if (IS("store_includes")) return refused = bulwynef_store_includes(HANDLE(1), HANDLE(2), &small), of_number(refused, small);
    if (IS("store_indication")) return refused = bulwynef_store_indication(HANDLE(1), (uint32_t)NUMBER(2), &small), of_number(refused, small);
    if (IS("store_proof")) return of_text(bulwynef_store_proof(HANDLE(1), (uint32_t)NUMBER(2), &text), &text);
    if (IS("store_challenge")) return of_text(bulwynef_store_challenge(HANDLE(1), (uint32_t)NUMBER(2), NUMBER(3), &text), &text);
    if (IS("store_explain")) return of_text(bulwynef_store_explain(HANDLE(1), &text), &text);
    if (IS("store_export")) return of_text(bulwynef_store_export(HANDLE(1), &text), &text);
    if (IS("store_outline")) return of_text(bulwynef_store_outline(HANDLE(1), &text), &text);
    if (IS("store_summary")) return of_text(bulwynef_store_summary(HANDLE(1), &text), &text);
    if (IS("store_short_summary")) return of_text(bulwynef_store_short_summary(HANDLE(1), TEXT(2), &text), &text);
    if (IS("store_pack")) return of_text(bulwynef_store_pack(HANDLE(1), TEXT(2), &text), &text);
    if (IS("store_apply")) return refused = bulwynef_store_apply(HANDLE(1), TEXT(2), &many), of_number(refused, many);
    stop("no such call");
    return plain(0);
}

static struct answer of_node(char **w) {
    struct bulwynef_handle text = BULWYNEF_HANDLE_INIT;
    uint8_t refused;
    uint32_t leaves = 0;
    uint64_t seq = 0;
    if (IS("node_new"))
        return plain(bulwynef_node_new((uint8_t)NUMBER(2), TEXT(3), (uint32_t)NUMBER(4), NUMBER(5), (uint32_t)NUMBER(6), (uint32_t)NUMBER(7),
                                       TEXT(8), TEXT(9), HANDLE(1)));
    if (IS("node_timer")) return plain(bulwynef_node_timer(HANDLE(1), NUMBER(2), TEXT(3)));
    if (IS("node_waiting")) return refused = bulwynef_node_waiting(HANDLE(1), NUMBER(2), &seq), of_number(refused, seq);
    if (IS("node_message")) return of_text(bulwynef_node_message(HANDLE(1), NUMBER(2), &text), &text);
    if (IS("node_answer")) return of_text(bulwynef_node_answer(HANDLE(1), TEXT(2), TEXT(3), &text), &text);
    if (IS("node_history")) return of_text(bulwynef_node_history(HANDLE(1), &text), &text);
    if (IS("node_accept_ack")) return plain(bulwynef_node_accept_ack(HANDLE(1), TEXT(2)));
    if (IS("node_checkpoint")) return refused = bulwynef_node_checkpoint(HANDLE(1), &seq), of_number(refused, seq);
    if (IS("node_remaining")) return refused = bulwynef_node_remaining(HANDLE(1), &leaves), of_number(refused, leaves);
    if (IS("node_next_key"))
        return plain(bulwynef_node_next_key(HANDLE(1), (uint32_t)NUMBER(2), (uint32_t)NUMBER(3), TEXT(4), TEXT(5)));
    stop("no such call");
    return plain(0);
}

static struct answer of_journal(char **w) {
    struct bulwynef_handle text = BULWYNEF_HANDLE_INIT;
    uint8_t small = 0, refused;
    size_t end = 0;
    if (IS("journal_block")) return of_text(bulwynef_journal_block(TEXT(1), &text), &text);
    if (IS("journal_end")) return refused = bulwynef_journal_end(TEXT(1), &end), of_number(refused, end);
    if (IS("node_beginning"))
        return of_text(bulwynef_node_beginning((uint8_t)NUMBER(1), TEXT(2), (uint32_t)NUMBER(3), NUMBER(4), (uint32_t)NUMBER(5),
                                               (uint32_t)NUMBER(6), TEXT(7), TEXT(8), &text), &text);
    if (IS("record_timer")) return of_text(bulwynef_record_timer(NUMBER(1), TEXT(2), &text), &text);
    if (IS("record_answer")) return of_text(bulwynef_record_answer(TEXT(1), TEXT(2), &text), &text);
    if (IS("record_ack")) return of_text(bulwynef_record_ack(TEXT(1), &text), &text);
    if (IS("record_checkpoint")) return of_text(bulwynef_record_checkpoint(&text), &text);
    if (IS("record_next_key"))
        return of_text(bulwynef_record_next_key((uint32_t)NUMBER(1), (uint32_t)NUMBER(2), TEXT(3), TEXT(4), &text), &text);
    if (IS("node_rebuild")) return plain(bulwynef_node_rebuild((uint8_t)NUMBER(2), TEXT(3), TEXT(4), TEXT(5), HANDLE(1)));
    if (IS("node_knows")) return refused = bulwynef_node_knows(HANDLE(1), TEXT(2), &small), of_number(refused, small);
    return of_node(w);
}

static struct answer answered(char **w) {
    struct bulwynef_handle text = BULWYNEF_HANDLE_INIT;
    if (strncmp(w[0], "store_", 6) == 0) return of_store(w);
    if (strncmp(w[0], "node_", 5) == 0 || strncmp(w[0], "record_", 7) == 0 || strncmp(w[0], "journal_", 8) == 0) return of_journal(w);
    if (IS("check_proof")) {
        uint32_t node = 0;
        uint8_t refused = bulwynef_check_proof((uint8_t)NUMBER(1), TEXT(2), TEXT(3), &node);
        return of_number(refused, node);
    }
    if (IS("public_key")) {
        struct bytes key = {room(BULWYNEF_PUBLIC_KEY_LEN), BULWYNEF_PUBLIC_KEY_LEN};
        uint8_t refused = bulwynef_public_key((uint32_t)NUMBER(1), (uint32_t)NUMBER(2), TEXT(3), TEXT(4), key.at, key.len);
        return (struct answer){refused, false, 0, true, key};
    }
    if (IS("explain_proof")) return of_text(bulwynef_explain_proof((uint8_t)NUMBER(1), TEXT(2), TEXT(3), &text), &text);
    if (IS("statement_of")) return of_text(bulwynef_statement_of(TEXT(1), NUMBER(2), &text), &text);
    if (IS("audit_challenge")) return of_text(bulwynef_audit_challenge(TEXT(1), TEXT(2), &text), &text);
    if (IS("send_challenge")) return of_text(bulwynef_send_challenge(TEXT(1), &text), &text);
    stop("no such call");
    return plain(0);
}

/* Whether the answer is what stands behind `=`; a text that nothing tells is named. */
static bool is_as_wanted(struct answer found, char **wanted, size_t count) {
    if (found.refused != strtoull(wanted[0], NULL, 10)) return false;
    if (found.refused != 0) return count == 1;
    if (count == 1) return !found.has_number && !found.has_text;
    if (wanted[1][0] == '>') return name_text(wanted[1] + 1, found.text), found.has_text;
    if (wanted[1][0] != '@') return found.has_number && found.number == strtoull(wanted[1], NULL, 10);
    struct bytes text = text_of(wanted[1]);
    return found.has_text && found.text.len == text.len && memcmp(found.text.at, text.at, text.len) == 0;
}

/* Whether the line is as it should be; how many calls it makes is added. */
static bool is_line_right(char *line, size_t *calls) {
    char *w[MOST_WORDS] = {0};
    size_t count = 0, equals = 0;
    for (char *word = strtok(line, " \n"); word != NULL && count < MOST_WORDS; word = strtok(NULL, " \n")) {
        if (strcmp(word, "=") == 0) equals = count;
        w[count++] = word;
    }
    if (count == 0 || w[0][0] == '#') return true;
    if (strcmp(w[0], "text") == 0) return name_text(w[1], decoded(count > 2 ? w[2] : "")), true;
    if (strcmp(w[0], "zeros") == 0) {
        size_t len = count > 2 ? strtoull(w[2], NULL, 10) : 0;
        return name_text(w[1], (struct bytes){room(len), len}), true;
    }
    if (equals == 0 || count == MOST_WORDS) stop("the line can't be read");
    ++*calls;
    struct answer found = answered(w);
    bool is_right = is_as_wanted(found, w + equals + 1, count - equals - 1);
    bool is_kept = is_right && count == equals + 3 && w[equals + 2][0] == '>';
    if (!is_kept) free(found.text.at);
    return is_right;
}

int main(void) {
    char *line = room(MOST_LINE);
    size_t calls = 0, wrong = 0;
    while (fgets(line, MOST_LINE, stdin) != NULL) {
        line_number++;
        if (!is_line_right(line, &calls)) {
            wrong++;
            fprintf(stderr, "cases: line %zu: another answer\n", line_number);
        }
    }
    for (size_t i = 0; i < handle_count; i++) bulwynef_close(&handles[i].handle), free(handles[i].name);
    for (size_t i = 0; i < text_count; i++) free(texts[i].name), free(texts[i].text.at);
    free(line);
    printf("C: %zu calls, %zu wrong\n", calls, wrong);
    return calls == 0 || wrong != 0;
}
