/* checkproof: whom a proof convicts, over libbulwynef.a, as one file that wants no library of the system.
 *
 *   checkproof --program tally|relay|mailbox DIRECTORY PROOF
 *
 * A file has bytes, or one line of hexadecimal digits: told apart by its first eight bytes. It writes three lines, `exposes ID`, `program
 * NAME` and `directory SUM`, the SHA-256 of the directory's bytes, and ends with 0; with 1 after `refused NUMBER NAME` on standard error;
 * with 2 where the words are others than these. No program is taken where none is named: a proof against a node that was to follow one
 * shows nothing of a node that was to follow another. The check itself is proved; the reading of words, files and digits, in this file, is
 * not.
 */
#include "bulwynef.h"
#include "refusals.h"
#include <stdio.h>
#include <stdlib.h>
#include <string.h>

enum { MEMORY = 99, READ_FAILED = 100, INPUT_TOO_LONG = 101, WRITE_FAILED = 102, BAD_HEX = 103, LINE_COUNT = 104 };
/* The most bytes of a file, as digits or not. */
static const size_t MOST = (size_t)1 << 31;

struct text { uint8_t *at; size_t len; };

static const char *name_of(unsigned number) {
    for (size_t i = 0; i < sizeof refusals / sizeof *refusals; i++)
        if (refusals[i].number == number) return refusals[i].name;
    return "Unknown";
}

static int refused(unsigned number, const char *place) {
    fprintf(stderr, "refused %u %s%s%s\n", number, name_of(number), *place ? ": " : "", place);
    return 1;
}

/* Puts what the file has behind the text, which is freed by the caller; or tells why not. */
static unsigned read_all(FILE *file, struct text *text) {
    size_t room = 0;
    for (;;) {
        if (text->len == room) {
            room = room ? 2 * room : 65536;
            uint8_t *more = realloc(text->at, room);
            if (more == NULL) return MEMORY;
            text->at = more;
        }
        size_t count = fread(text->at + text->len, 1, room - text->len, file);
        text->len += count;
        if (text->len > MOST) return INPUT_TOO_LONG;
        if (ferror(file)) return READ_FAILED;
        if (count == 0) return 0;
    }
}

static unsigned read_file(const char *path, struct text *text) {
    FILE *file = fopen(path, "rb");
    if (file == NULL) return READ_FAILED;
    unsigned fault = read_all(file, text);
    fclose(file);
    return fault;
}

static int value_of(uint8_t digit) {
    if (digit >= '0' && digit <= '9') return digit - '0';
    if (digit >= 'a' && digit <= 'f') return digit - 'a' + 10;
    if (digit >= 'A' && digit <= 'F') return digit - 'A' + 10;
    return -1;
}

/* Whether a file is digits, as it is where its first eight bytes are. */
static int is_spelled(const struct text *text) {
    for (size_t i = 0; i < 8; i++)
        if (i >= text->len || value_of(text->at[i]) < 0) return 0;
    return 1;
}

/* Whether a line has another byte than digits, or an odd number of them. */
static int is_bad(const uint8_t *line, size_t len) {
    for (size_t i = 0; i < len; i++)
        if (value_of(line[i]) < 0) return 1;
    return len % 2 != 0;
}

/* Why lines are no line of digits, in the order of FORMATS: a second line that is blank, or a third one; a bad line; a second line, where
 * one text is to stand. */
static unsigned fault_of(const uint8_t *lines, size_t len) {
    const uint8_t *feed = memchr(lines, '\n', len);
    if (feed == NULL) return is_bad(lines, len) ? BAD_HEX : 0;
    size_t first = (size_t)(feed - lines), second = len - first - 1;
    if (second == 0 || memchr(feed + 1, '\n', second) != NULL) return LINE_COUNT;
    return is_bad(lines, first) || is_bad(feed + 1, second) ? BAD_HEX : LINE_COUNT;
}

/* Replaces a line of digits by the bytes that they spell; or tells why not. A line feed may end it. */
static unsigned decode(struct text *text) {
    size_t len = text->len - (text->at[text->len - 1] == '\n');
    unsigned fault = fault_of(text->at, len);
    if (fault != 0) return fault;
    text->len = len / 2;
    for (size_t i = 0; i < text->len; i++) text->at[i] = (uint8_t)(value_of(text->at[2 * i]) * 16 + value_of(text->at[2 * i + 1]));
    return 0;
}

static unsigned text_of(const char *path, struct text *text) {
    unsigned fault = read_file(path, text);
    return fault == 0 && is_spelled(text) ? decode(text) : fault;
}

struct program { const char *word; uint8_t number; };
static const struct program programs[] = {{"tally", BULWYNEF_TALLY}, {"relay", BULWYNEF_RELAY}, {"mailbox", BULWYNEF_MAILBOX}};

enum { SUM_DIGITS = 64 };

/* Puts the digits of the directory's sum there, which the library's explanation has; or tells why not. */
static unsigned sum_of(uint8_t program, const struct text texts[2], char sum[SUM_DIGITS + 1]) {
    static const char before[] = "\ndirectory ";
    struct bulwynef_handle handle = {0};
    unsigned fault = bulwynef_explain_proof(program, texts[0].at, texts[0].len, texts[1].at, texts[1].len, &handle);
    if (fault != 0) return fault;
    size_t len = bulwynef_text_len(&handle), count = 0;
    char *text = malloc(len + 1);
    fault = text == NULL ? MEMORY : bulwynef_text_copy(&handle, (uint8_t *)text, len);
    bulwynef_close(&handle);
    if (fault == 0) {
        text[len] = '\0';
        const char *at = strstr(text, before);
        for (at = at ? at + sizeof before - 1 : ""; *at && *at != '\n' && count < SUM_DIGITS; at++) sum[count++] = *at;
    }
    sum[count] = '\0';
    free(text);
    return fault == 0 && count != SUM_DIGITS ? MEMORY : fault;
}

static int told(uint32_t node, const char *word, const char *sum) {
    if (printf("exposes %u\nprogram %s\ndirectory %s\n", (unsigned)node, word, sum) < 0 || fflush(stdout) != 0) return refused(WRITE_FAILED, "");
    return 0;
}

static int check(const struct program *program, const char *const paths[2], struct text texts[2]) {
    for (int i = 0; i < 2; i++) {
        unsigned fault = text_of(paths[i], &texts[i]);
        if (fault != 0) return refused(fault, paths[i]);
    }
    uint32_t node = 0;
    char sum[SUM_DIGITS + 1];
    unsigned fault = bulwynef_check_proof(program->number, texts[0].at, texts[0].len, texts[1].at, texts[1].len, &node);
    if (fault == 0) fault = sum_of(program->number, texts, sum);
    return fault == 0 ? told(node, program->word, sum) : refused(fault, "");
}

static const struct program *program_of(const char *word) {
    for (size_t i = 0; i < sizeof programs / sizeof *programs; i++)
        if (strcmp(programs[i].word, word) == 0) return &programs[i];
    return NULL;
}

int main(int count, char **words) {
    const struct program *program = NULL;
    const char *paths[2] = {NULL, NULL};
    int found = 0, is_named = 0, is_good = 1;
    for (int i = 1; i < count; i++) {
        if (strcmp(words[i], "--program") == 0 && i + 1 < count && !is_named) is_named = 1, program = program_of(words[++i]);
        else if (found < 2 && words[i][0] != '-') paths[found++] = words[i];
        else is_good = 0;
    }
    if (program == NULL) fprintf(stderr, "--program NAME says which program the nodes were to follow: tally, relay, mailbox\n");
    if (program == NULL || !is_good || found != 2) {
        fprintf(stderr, "usage: checkproof --program tally|relay|mailbox DIRECTORY PROOF\n");
        return 2;
    }
    struct text texts[2] = {{NULL, 0}, {NULL, 0}};
    int status = check(program, paths, texts);
    free(texts[0].at);
    free(texts[1].at);
    return status;
}
