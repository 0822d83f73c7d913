/*
 * Prints the tokens of a text as the program sqllex does: a line for each with its kind, start and length, then how it ended.
 * tokens [sqlite] [FILE] reads FILE, or standard input; with `sqlite` it lexes under the profile nearer SQLite, which sqllex does not
 * have. It keeps the text and one short list in static memory; the library uses no heap.
 *
 *     tools/archive target/libcapi.a
 *     cc -Iinclude -o tokens examples/tokens.c target/libcapi.a
 */
#include <inttypes.h>
#include <stdio.h>
#include <string.h>

#include "sqllex.h"

/* One byte more than a list takes, so that a longer text is seen to be too long. */
static uint8_t text[SQLLEX_LONGEST_TEXT + 1];

/* Sixteen records at a time. */
static uint32_t list[16 * SQLLEX_RECORD_WIDTH];

#define KIND_NAME(kind) [SQLLEX_##kind] = #kind,
static const char *const kind_names[] = {SQLLEX_KINDS(KIND_NAME)};

#define REFUSAL_NAME(constant, name) [SQLLEX_##constant] = #name,
static const char *const refusal_names[] = {SQLLEX_REFUSALS(REFUSAL_NAME)};

static void print_records(size_t records)
{
    for (size_t i = 0; i < records; i++) {
        sqllex_record record = sqllex_record_at(list, i);
        printf("%s\t%" PRIu32 "\t%" PRIu32 "\n", kind_names[record.kind], record.start, record.length);
    }
}

/*
 * A full list is printed, and filled again from where it ended. The profile is one of the two that there are: no status
 * SQLLEX_UNKNOWN_PROFILE comes.
 */
static void print_tokens(size_t text_length, uint32_t profile)
{
    sqllex_answer answer = {0, 0, 0, 0, 0, 0};
    size_t tokens = 0;
    uint32_t status;
    do {
        status = sqllex_list_from(text, text_length, answer.next, profile, list, sizeof list / sizeof *list, &answer);
        print_records(answer.value);
        tokens += answer.value;
    } while (status == SQLLEX_LIST_FULL);
    if (status == SQLLEX_END)
        printf("END\t%zu\t%zu\n", answer.next, tokens);
    else
        printf("%s\t%zu\t%zu\t%zu\n", refusal_names[status], answer.start, answer.length, answer.next);
}

int main(int argc, char **argv)
{
    bool sqlite = argc > 1 && strcmp(argv[1], "sqlite") == 0;
    int file = sqlite ? 2 : 1;
    FILE *in = argc > file ? fopen(argv[file], "rb") : stdin;
    size_t text_length = in != NULL ? fread(text, 1, sizeof text, in) : 0;
    if (in == NULL || ferror(in)) {
        perror("tokens");
        return 2;
    }
    print_tokens(text_length, sqlite ? SQLLEX_SQLITE : SQLLEX_TURSO);
    return 0;
}
