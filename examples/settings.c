/*
 * Prints the literals of a text as they arrive: a line for each with what it is and its value, then how it ended. An integer is printed in
 * decimal, with the minus before it where one stands there; a string or a quoted name as its bytes; a blob in hexadecimal digits. In place
 * of a number that no int64_t is, or of more bytes than a setting may have here, the line has the refusal's name, and where the literal
 * lies. Bare words, operators and floats are passed over.
 * settings [sqlite] [FILE] reads FILE, or standard input, in small parts, and lexes each as it comes, as examples/stream.c does; with
 * `sqlite` under the profile nearer SQLite. All that is kept of the text is one part and one row, and of a literal its value, in static
 * memory; the library uses no heap.
 *
 *     tools/archive target/libcapi.a
 *     cc -Iinclude -o settings examples/settings.c target/libcapi.a
 *     echo "INSERT INTO settings VALUES ('stillness', 5), ('name', 'it''s'), ('key', x'0AFF'), (\"quoted\", -3);" | ./settings
 */
#include <inttypes.h>
#include <stdio.h>
#include <string.h>

#include "sqllex.h"

static sqllex_stream stream;
static uint8_t row[SQLLEX_ROW_LENGTH];

/* As much as is read at a time. */
static uint8_t part[16];

/* As much as a string, a name or a blob may have. */
static uint8_t value[64];

static uint32_t profile;
static size_t literals;

/* Whether the last token, but for blanks and comments, was a minus. */
static bool minus;

#define REFUSAL_NAME(constant, name) [SQLLEX_##constant] = #name,
static const char *const refusal_names[] = {SQLLEX_REFUSALS(REFUSAL_NAME)};

typedef uint32_t read_function(const uint8_t *text, size_t text_length, size_t start, size_t length, uint32_t profile, uint8_t *buffer,
                               size_t buffer_length, size_t *bytes);

/* A token's bytes are row[0] to row[length - 1]: it is read there as a text of its own. */
static uint32_t print_integer(size_t length)
{
    int64_t number;
    uint32_t status = sqllex_read_integer(row, length, 0, length, profile, &number);
    if (status == SQLLEX_DONE && minus && number == INT64_MIN) /* its negative is no int64_t */
        return SQLLEX_OUT_OF_RANGE;
    if (status == SQLLEX_DONE)
        printf("INTEGER\t%" PRId64 "\n", minus ? -number : number);
    return status;
}

static uint32_t print_bytes(const char *what, read_function *read, size_t length)
{
    size_t bytes;
    uint32_t status = read(row, length, 0, length, profile, value, sizeof value, &bytes);
    if (status == SQLLEX_DONE) {
        printf("%s\t", what);
        fwrite(value, 1, bytes, stdout);
        printf("\n");
    }
    return status;
}

static uint32_t print_blob(size_t length)
{
    size_t bytes;
    uint32_t status = sqllex_read_blob(row, length, 0, length, profile, value, sizeof value, &bytes);
    if (status == SQLLEX_DONE) {
        printf("BLOB\t");
        for (size_t i = 0; i < bytes; i++)
            printf("%02X", value[i]);
        printf("\n");
    }
    return status;
}

/* A bare word is of the kind that quoted names have too: it is SQLLEX_NOT_THAT_LITERAL, as what is of any other kind. */
static uint32_t print_literal(const sqllex_answer *token)
{
    switch (token->value) {
    case SQLLEX_TK_INTEGER:
        return print_integer(token->length);
    case SQLLEX_TK_STRING:
        return print_bytes("STRING", sqllex_read_string, token->length);
    case SQLLEX_TK_ID:
        return print_bytes("NAME", sqllex_read_name, token->length);
    case SQLLEX_TK_BLOB:
        return print_blob(token->length);
    default:
        return SQLLEX_NOT_THAT_LITERAL;
    }
}

static void print_token(const sqllex_answer *token)
{
    uint32_t status = print_literal(token);
    if (status != SQLLEX_NOT_THAT_LITERAL)
        literals++;
    if (status != SQLLEX_NOT_THAT_LITERAL && status != SQLLEX_DONE)
        printf("%s\t%zu\t%zu\n", refusal_names[status], token->start, token->length);
    if (token->value != SQLLEX_TK_NONE)
        minus = token->value == SQLLEX_TK_MINUS;
}

/* The tokens that are settled by a part, up to a status that is no token. */
static uint32_t print_part(size_t part_length, sqllex_given *given)
{
    size_t taken = 0;
    uint32_t status;
    while ((status = sqllex_stream_offer(&stream, row, part + taken, part_length - taken, given)) == SQLLEX_TOKEN) {
        print_token(&given->answer);
        taken += given->taken;
    }
    return status;
}

/* The tokens that are left when no part comes any more. */
static uint32_t print_rest(sqllex_given *given)
{
    uint32_t status;
    while ((status = sqllex_stream_finish(&stream, row, given)) == SQLLEX_TOKEN)
        print_token(&given->answer);
    return status;
}

/* Says whether all could be read that was wanted. */
static bool print_settings(FILE *in)
{
    sqllex_given given;
    uint32_t status = sqllex_stream_begin(profile, &stream);
    size_t part_length;
    while (status == SQLLEX_MORE && (part_length = fread(part, 1, sizeof part, in)) > 0)
        status = print_part(part_length, &given);
    if (ferror(in))
        return false;
    if (status == SQLLEX_MORE)
        status = print_rest(&given);
    if (status == SQLLEX_END)
        printf("END\t%zu\t%zu\n", given.answer.next, literals);
    else
        printf("%s\t%zu\t%zu\t%zu\n", refusal_names[status], given.answer.start, given.answer.length, given.answer.next);
    return true;
}

int main(int argc, char **argv)
{
    bool sqlite = argc > 1 && strcmp(argv[1], "sqlite") == 0;
    int file = sqlite ? 2 : 1;
    FILE *in = argc > file ? fopen(argv[file], "rb") : stdin;
    profile = sqlite ? SQLLEX_SQLITE : SQLLEX_TURSO;
    if (in == NULL || !print_settings(in)) {
        perror("settings");
        return 2;
    }
    return 0;
}
