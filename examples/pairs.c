/*
 * Pairs the brackets of a text before a parser with a small stack sees it, as on a watch: a line for each pair with its opener's kind, and
 * where the opener and the closer start, then DEEPEST and how deep they nest. Where they do not nest, the line is the refusal, the index of
 * its record, and for people the line and column of that; where a lexeme is refused, it is that refusal with its span, and nothing is paired.
 * pairs [sqlite] [FILE] reads FILE, or standard input; with `sqlite` it lexes under the profile nearer SQLite, where `[name]` is no bracket.
 * It keeps the text, its list and the partners in static memory; the library uses no heap.
 *
 *     tools/archive target/libcapi.a
 *     cc -Iinclude -o pairs examples/pairs.c target/libcapi.a
 */
#include <inttypes.h>
#include <stdio.h>
#include <string.h>

#include "sqllex.h"

/* One byte more than a list takes, so that a longer text is seen to be too long. */
static uint8_t text[SQLLEX_LONGEST_TEXT + 1];

/* A record for each byte, which is enough for any text, and a partner for each record. */
static uint32_t list[SQLLEX_LONGEST_TEXT * SQLLEX_RECORD_WIDTH];
static uint32_t partners[SQLLEX_LONGEST_TEXT];

#define KIND_NAME(kind) [SQLLEX_##kind] = #kind,
static const char *const kind_names[] = {SQLLEX_KINDS(KIND_NAME)};

#define REFUSAL_NAME(constant, name) [SQLLEX_##constant] = #name,
static const char *const refusal_names[] = {SQLLEX_REFUSALS(REFUSAL_NAME)};

/* An opener is the one of a pair whose partner stands behind it; what is no bracket is its own. */
static void print_pairs(size_t records)
{
    for (size_t i = 0; i < records; i++)
        if (partners[i] > i) {
            sqllex_record opener = sqllex_record_at(list, i), closer = sqllex_record_at(list, partners[i]);
            printf("%s\t%" PRIu32 "\t%" PRIu32 "\n", kind_names[opener.kind], opener.start, closer.start);
        }
}

/* There are as many partners as records, and records are whole and no more than there may be: no refusal comes that has no record. */
static void pair(size_t records)
{
    size_t value;
    uint32_t status = sqllex_pair(list, records * SQLLEX_RECORD_WIDTH, partners, records, &value);
    if (status == SQLLEX_DONE) {
        print_pairs(records);
        printf("DEEPEST\t%zu\n", value);
    } else {
        sqllex_record at = sqllex_record_at(list, value);
        printf("%s\t%zu\t%" PRIu32 "\t%" PRIu32 "\n", refusal_names[status], value, at.line, at.column);
    }
}

/* The profile is one of the two that there are: no status SQLLEX_UNKNOWN_PROFILE comes. Nor is the list ever full. */
static void list_and_pair(size_t text_length, uint32_t profile)
{
    sqllex_answer answer;
    uint32_t status = sqllex_list_from(text, text_length, 0, profile, list, sizeof list / sizeof *list, &answer);
    if (status == SQLLEX_END)
        pair(answer.value);
    else
        printf("%s\t%zu\t%zu\n", refusal_names[status], answer.start, answer.length);
}

int main(int argc, char **argv)
{
    bool sqlite = argc > 1 && strcmp(argv[1], "sqlite") == 0;
    int file = sqlite ? 2 : 1;
    FILE *in = argc > file ? fopen(argv[file], "rb") : stdin;
    size_t text_length = in != NULL ? fread(text, 1, sizeof text, in) : 0;
    if (in == NULL || ferror(in)) {
        perror("pairs");
        return 2;
    }
    list_and_pair(text_length, sqlite ? SQLLEX_SQLITE : SQLLEX_TURSO);
    return 0;
}
