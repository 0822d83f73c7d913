/*
 * Prints the tokens of a text as the program sqllex does: a line for each with its kind, start and length, then how it ended.
 * stream [sqlite] [FILE] reads FILE, or standard input, in small parts, and lexes each as it comes; with `sqlite` it lexes under the
 * profile nearer SQLite, which sqllex does not have. The text may have up to 4,294,967,295 bytes, where sqllex takes 65,535, but no
 * lexeme more than 2,048, blanks and comments included: such a one is refused as LexemeTooLong. All that is kept of the text is one
 * part and one row, in static memory; the library uses no heap.
 *
 *     tools/archive target/libcapi.a
 *     cc -Iinclude -o stream examples/stream.c target/libcapi.a
 */
#include <stdio.h>
#include <string.h>

#include "sqllex.h"

static sqllex_stream stream;
static uint8_t row[SQLLEX_ROW_LENGTH];

/* As much as is read at a time. */
static uint8_t part[64];

static size_t tokens;

#define KIND_NAME(kind) [SQLLEX_##kind] = #kind,
static const char *const kind_names[] = {SQLLEX_KINDS(KIND_NAME)};

#define REFUSAL_NAME(constant, name) [SQLLEX_##constant] = #name,
static const char *const refusal_names[] = {SQLLEX_REFUSALS(REFUSAL_NAME)};

/* The token's bytes are row[0] to row[token->length - 1] here, for those who want more than its place. */
static void print_token(const sqllex_answer *token)
{
    printf("%s\t%zu\t%zu\n", kind_names[token->value], token->start, token->length);
    tokens++;
}

/* The tokens that are settled by a part, up to a status that is no token. */
static uint32_t print_part(size_t part_length, sqllex_given *given)
{
    size_t taken = 0;
    uint32_t status;
    while ((status = sqllex_stream_offer(&stream, row, part + taken, part_length - taken, given)) == SQLLEX_TOKEN) {
        print_token(&given->answer);
        taken += given->taken;
    }
    return status;
}

/* The tokens that are left when no part comes any more. */
static uint32_t print_rest(sqllex_given *given)
{
    uint32_t status;
    while ((status = sqllex_stream_finish(&stream, row, given)) == SQLLEX_TOKEN)
        print_token(&given->answer);
    return status;
}

/*
 * The profile is one of the two that there are, and the stream was begun: neither status SQLLEX_UNKNOWN_PROFILE nor
 * SQLLEX_UNKNOWN_STREAM comes. Says whether all could be read that was wanted.
 */
static bool print_tokens(FILE *in, uint32_t profile)
{
    sqllex_given given;
    uint32_t status = sqllex_stream_begin(profile, &stream);
    size_t part_length;
    while (status == SQLLEX_MORE && (part_length = fread(part, 1, sizeof part, in)) > 0)
        status = print_part(part_length, &given);
    if (ferror(in))
        return false;
    if (status == SQLLEX_MORE)
        status = print_rest(&given);
    if (status == SQLLEX_END)
        printf("END\t%zu\t%zu\n", given.answer.next, tokens);
    else
        printf("%s\t%zu\t%zu\t%zu\n", refusal_names[status], given.answer.start, given.answer.length, given.answer.next);
    return true;
}

int main(int argc, char **argv)
{
    bool sqlite = argc > 1 && strcmp(argv[1], "sqlite") == 0;
    int file = sqlite ? 2 : 1;
    FILE *in = argc > file ? fopen(argv[file], "rb") : stdin;
    if (in == NULL || !print_tokens(in, sqlite ? SQLLEX_SQLITE : SQLLEX_TURSO)) {
        perror("stream");
        return 2;
    }
    return 0;
}
