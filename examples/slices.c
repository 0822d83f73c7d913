/*
 * Prints the tokens of a text, blanks and comments left out: a line for each with its kind, start and length, then how it ended. The
 * text is listed a slice at a time, and between two slices a display is served: here a line on standard error says how far it is.
 * slices [sqlite] [FILE] reads FILE, or standard input; with `sqlite` it lexes under the profile nearer SQLite. It keeps the text and
 * one short list in static memory; the library uses no heap.
 *
 *     tools/archive target/libcapi.a
 *     cc -Iinclude -o slices examples/slices.c target/libcapi.a
 */
#include <inttypes.h>
#include <stdio.h>
#include <string.h>

#include "sqllex.h"

/* One byte more than a list takes, so that a longer text is seen to be too long. */
static uint8_t text[SQLLEX_LONGEST_TEXT + 1];

/*
 * So many lexemes are passed before the display has its turn, and the list has room for sixteen records, so that a slice may fill it.
 * Both are small here, to be seen at work. A device takes more at a time: each call goes through all that lies before its offset.
 */
#define ALLOWANCE 24u
static uint32_t list[16 * SQLLEX_RECORD_WIDTH];

static size_t tokens;

#define KIND_NAME(kind) [SQLLEX_##kind] = #kind,
static const char *const kind_names[] = {SQLLEX_KINDS(KIND_NAME)};

#define REFUSAL_NAME(constant, name) [SQLLEX_##constant] = #name,
static const char *const refusal_names[] = {SQLLEX_REFUSALS(REFUSAL_NAME)};

static void print_records(size_t records)
{
    for (size_t i = 0; i < records; i++) {
        sqllex_record record = sqllex_record_at(list, i);
        printf("%s\t%" PRIu32 "\t%" PRIu32 "\n", kind_names[record.kind], record.start, record.length);
    }
    tokens += records;
}

/* What a device would do here: draw, and look for a key. */
static void serve_display(size_t offset, size_t text_length)
{
    fprintf(stderr, "%zu of %zu bytes\n", offset, text_length);
}

/*
 * One slice from where the last one stopped. A list that is full before the allowance is spent is printed, and filled again with what is
 * left of it.
 */
static uint32_t print_slice(size_t text_length, uint32_t profile, sqllex_slice *slice)
{
    uint32_t allowance = ALLOWANCE;
    uint32_t status;
    do {
        status = sqllex_list_part(text, text_length, slice->answer.next, profile, allowance, list, sizeof list / sizeof *list, slice);
        print_records(slice->answer.value);
        allowance -= (uint32_t)slice->spent;
    } while (status == SQLLEX_LIST_FULL);
    return status;
}

/* The profile is one of the two that there are: no status SQLLEX_UNKNOWN_PROFILE comes. */
static void print_tokens(size_t text_length, uint32_t profile)
{
    sqllex_slice slice = {{0, 0, 0, 0, 0, 0}, 0};
    uint32_t status;
    while ((status = print_slice(text_length, profile, &slice)) == SQLLEX_PAUSED)
        serve_display(slice.answer.next, text_length);
    if (status == SQLLEX_END)
        printf("END\t%zu\t%zu\n", slice.answer.next, tokens);
    else
        printf("%s\t%zu\t%zu\t%zu\n", refusal_names[status], slice.answer.start, slice.answer.length, slice.answer.next);
}

int main(int argc, char **argv)
{
    bool sqlite = argc > 1 && strcmp(argv[1], "sqlite") == 0;
    int file = sqlite ? 2 : 1;
    FILE *in = argc > file ? fopen(argv[file], "rb") : stdin;
    size_t text_length = in != NULL ? fread(text, 1, sizeof text, in) : 0;
    if (in == NULL || ferror(in)) {
        perror("slices");
        return 2;
    }
    print_tokens(text_length, sqlite ? SQLLEX_SQLITE : SQLLEX_TURSO);
    return 0;
}
