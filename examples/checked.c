/*
 * A list that is made on a phone and checked on a watch: both sides of it in one program.
 *
 * checked phone [sqlite] FILE writes the list of FILE to standard output, as it is sent: for each token its kind, start, length, line and
 * column, 4 bytes each, lowest first. checked watch [sqlite] FILE reads such a list from standard input, and says whether it is that of
 * FILE: ACCEPTED and how many records it has, or the refusal and its index. With `sqlite` both lex under the profile nearer SQLite. What the
 * phone sends, or what becomes of it on the way, the watch need not trust.
 *
 *     tools/archive target/libcapi.a
 *     cc -Iinclude -o checked examples/checked.c target/libcapi.a
 */
#include <stdio.h>
#include <string.h>

#include "sqllex.h"

/* One byte more than a list takes, so that a longer text is seen to be too long. */
static uint8_t text[SQLLEX_LONGEST_TEXT + 1];

/* A record for each byte, which is enough for any text, and one more, so that what is surplus is seen to be. */
static sqllex_record records[SQLLEX_LONGEST_TEXT + 1];

#define REFUSAL_NAME(constant, name) [SQLLEX_##constant] = #name,
static const char *const refusal_names[] = {SQLLEX_REFUSALS(REFUSAL_NAME)};

/* This machine is an x86-64, so that the numbers' bytes lie in memory as they are sent. A text that is refused has a list up to there. */
static int send_list(size_t text_length, uint32_t profile)
{
    static uint32_t list[SQLLEX_LONGEST_TEXT * SQLLEX_RECORD_WIDTH];
    sqllex_answer answer;
    uint32_t status = sqllex_list_from(text, text_length, 0, profile, list, sizeof list / sizeof *list, &answer);
    if (status != SQLLEX_END)
        fprintf(stderr, "%s\t%zu\t%zu\n", refusal_names[status], answer.start, answer.length);
    return fwrite(list, sizeof(sqllex_record), answer.value, stdout) == answer.value ? 0 : 2;
}

/* The profile is one of the two that there are: no status SQLLEX_UNKNOWN_PROFILE comes. */
static int check_list(size_t text_length, uint32_t profile)
{
    size_t size = fread(records, 1, sizeof records, stdin);
    size_t count = size / sizeof *records;
    size_t index;
    if (ferror(stdin) || size % sizeof *records != 0) {
        fprintf(stderr, "checked: no whole records came\n");
        return 2;
    }
    uint32_t status = sqllex_check_list(text, text_length, profile, records, count, &index);
    if (status == SQLLEX_ACCEPTED)
        printf("ACCEPTED\t%zu\n", count);
    else
        printf("%s\t%zu\n", refusal_names[status], index);
    return 0;
}

int main(int argc, char **argv)
{
    bool watch = argc > 2 && strcmp(argv[1], "watch") == 0;
    bool sqlite = argc > 3 && strcmp(argv[2], "sqlite") == 0;
    int file = sqlite ? 3 : 2;
    if (argc != file + 1 || (!watch && strcmp(argv[1], "phone") != 0)) {
        fprintf(stderr, "checked phone|watch [sqlite] FILE\n");
        return 2;
    }
    FILE *in = fopen(argv[file], "rb");
    size_t text_length = in != NULL ? fread(text, 1, sizeof text, in) : 0;
    if (in == NULL || ferror(in)) {
        perror("checked");
        return 2;
    }
    uint32_t profile = sqlite ? SQLLEX_SQLITE : SQLLEX_TURSO;
    return watch ? check_list(text_length, profile) : send_list(text_length, profile);
}
