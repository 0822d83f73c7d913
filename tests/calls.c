/*
 * calls.c: every call of include/sqllex.h, with all that it is lent beside a page that cannot be touched. tests/library runs it.
 *
 * calls PLACE next|sums|list N|part N A|cut [turso|sqlite]  reads records as sqlbatch does, and prints what sqlbatch prints of them
 * calls PLACE stream [turso|sqlite]                the same, of records that are scripts of a stream's calls
 * calls PLACE literal [turso|sqlite]               the same, of records that are a span to be read and a buffer's length
 * calls PLACE write                                the same, of records whose offset is a buffer's length
 * calls PLACE word                                 the same, of records that are words
 * calls PLACE replay                               prints what the program replay prints of them
 * calls PLACE check                                reads lists with what the oracle says of them, and stops where one is checked otherwise
 * calls PLACE pair                                 the same of lists whose brackets are paired
 * calls PLACE edges                                tries the calls that stand below with their answers
 *
 * PLACE, front or back, says where a text, list, answer, slice, index, partners, stream, row, buffer, value or count lies in its room between
 * two such pages: at its beginning or at its end. In every mode what a call must leave alone is seen to be as it was: the bytes beside all
 * that is written, the list's numbers behind the records, those behind the partners, the row's bytes behind those held, an index, a value
 * or a count that is not set, and the text, the part or the records that are checked or paired, which cannot be written. And the records of
 * every list are seen to lie one behind the other, those of a slice with nothing but blanks between them, each with the line and column
 * that the text's bytes give.
 */
#define _DEFAULT_SOURCE
#include <stdio.h>
#include <stdlib.h>
#include <string.h>
#include <sys/mman.h>
#include <unistd.h>

#include "sqllex.h"

#define TEXT_MOST 70000u
#define ROW_LENGTH SQLLEX_ROW_LENGTH
#define RECORD_WIDTH SQLLEX_RECORD_WIDTH
#define SHORT_LISTS (2 * RECORD_WIDTH + 2) /* the program replay makes the lists of fewer numbers than this, */
#define FREE_BEHIND 4u                     /* and one with so many behind all records */
#define LIST_MOST (SQLLEX_LONGEST_TEXT * RECORD_WIDTH + FREE_BEHIND)
#define BESIDE 64u    /* bytes beside what is lent that are looked at */
#define OLD_BYTE 0xff /* what all these are before a call */
#define OLD 4294967295

#define KIND_NAME(kind) #kind,
static const char *const kind_names[] = {SQLLEX_KINDS(KIND_NAME)};
#define REFUSAL_NAME(constant, name) [SQLLEX_##constant] = #name,
static const char *const refusal_names[] = {SQLLEX_REFUSALS(REFUSAL_NAME)};

static void fail(const char *what)
{
    fflush(stdout);
    fprintf(stderr, "calls: %s\n", what);
    exit(1);
}

static void require(bool holds, const char *what)
{
    if (!holds)
        fail(what);
}

/* Whole pages between two that cannot be touched. */
struct room {
    unsigned char *bytes;
    size_t size;
};
static struct room text_room, list_room, answer_room, slice_room, stream_room, row_room, given_room;
static bool at_back;

static struct room make_room(size_t size)
{
    size_t page = (size_t)sysconf(_SC_PAGESIZE);
    struct room room = {NULL, (size + page - 1) / page * page};
    unsigned char *all = mmap(NULL, room.size + 2 * page, PROT_NONE, MAP_PRIVATE | MAP_ANONYMOUS, -1, 0);
    require(all != MAP_FAILED, "no memory");
    room.bytes = all + page;
    require(mprotect(room.bytes, room.size, PROT_READ | PROT_WRITE) == 0, "no memory");
    return room;
}

static unsigned char *place(struct room room, size_t size)
{
    return at_back ? room.bytes + (room.size - size) : room.bytes;
}

/* The profile and the text of the calls that follow. */
static uint32_t profile = SQLLEX_TURSO;
static const uint8_t *text;
static size_t text_length;

/* Puts bytes into a room, where they cannot be written afterwards: it opens no more pages than they take. */
static const void *put(struct room room, const void *bytes, size_t size)
{
    unsigned char *there = place(room, size), *page = there - (size_t)(there - room.bytes) % (size_t)sysconf(_SC_PAGESIZE);
    size_t length = (size_t)(there - page) + size;
    mprotect(page, length, PROT_READ | PROT_WRITE);
    if (size > 0)
        memcpy(there, bytes, size);
    mprotect(page, length, PROT_READ);
    return there;
}

static void set_text(const void *bytes, size_t length)
{
    text = put(text_room, bytes, length);
    text_length = length;
}

/* What lies on the open side of a place in a room, before and after a call. */
static unsigned char *beside(const void *there, size_t size)
{
    unsigned char *start = (unsigned char *)there;
    return at_back ? start - BESIDE : start + size;
}

static void look_beside(const void *there, size_t size, const char *what)
{
    const unsigned char *byte = beside(there, size);
    for (size_t i = 0; i < BESIDE; i++)
        require(byte[i] == OLD_BYTE, what);
}

/* Where a place in a room begins, with what lies beside it. */
static unsigned char *first_of(void *there)
{
    return (unsigned char *)there - (at_back ? BESIDE : 0);
}

/* Of `size` bytes in a room; they and those beside them are set, so that it is seen which of them a call writes. */
static void *unset(struct room room, size_t size)
{
    unsigned char *there = place(room, size);
    memset(first_of(there), OLD_BYTE, size + BESIDE);
    return there;
}

static sqllex_answer *unset_answer(void)
{
    return unset(answer_room, sizeof(sqllex_answer));
}

static sqllex_answer written(const sqllex_answer *answer)
{
    look_beside(answer, sizeof *answer, "a byte beside the answer was written");
    return *answer;
}

static uint32_t call_next(size_t offset, sqllex_answer *said)
{
    sqllex_answer *answer = unset_answer();
    uint32_t status = sqllex_next(text, text_length, offset, profile, answer);
    *said = written(answer);
    return status;
}

static uint32_t call_cut(size_t offset, sqllex_answer *said)
{
    sqllex_answer *answer = unset_answer();
    uint32_t status = sqllex_cut(text, text_length, offset, profile, answer);
    *said = written(answer);
    return status;
}

/*
 * The records of tokens that lie one behind the other: each has the line and the column of its first byte. These are counted here byte by
 * byte, from the text's first on.
 */
static void look_at_lines(const uint32_t *list, size_t records)
{
    size_t at = 0;
    uint32_t line = 1, column = 1;
    for (size_t i = 0; i < records; i++) {
        sqllex_record record = sqllex_record_at(list, i);
        require(memcmp(&record, list + i * RECORD_WIDTH, sizeof record) == 0, "sqllex_record_at reads otherwise");
        for (; at < record.start; at++) {
            line += text[at] == '\n';
            column = text[at] == '\n' ? 1 : column + 1;
        }
        require(record.line == line && record.column == column, "a record with another line or column");
    }
}

/* The records of a list from an offset on: tokens without a gap. */
static void look_at_records(size_t offset, const uint32_t *list, size_t records)
{
    size_t end = offset;
    require(records == 0 || offset <= text_length, "records from behind the text");
    for (size_t i = 0; i < records; i++) {
        sqllex_record record = sqllex_record_at(list, i);
        require(record.kind < SQLLEX_KINDS_COUNT, "a record with a kind that is none");
        require(record.start == end && record.length > 0 && record.length <= text_length - end, "a record that lies elsewhere");
        end += record.length;
    }
    look_at_lines(list, records);
}

static const char beside_list[] = "a byte beside the list was written";

/* Behind the records of a list all is as it was. */
static void look_behind(const uint32_t *list, size_t records, size_t length)
{
    require(records <= length / RECORD_WIDTH, "more records than have room");
    for (size_t i = RECORD_WIDTH * records; i < length; i++)
        require(list[i] == OLD, "a number behind the records was written");
}

/* A list from offset 0 is asked of both calls, which must write the same. */
static uint32_t call_list(size_t offset, size_t length, uint32_t **list, sqllex_answer *said)
{
    static uint32_t first[LIST_MOST];
    size_t size = length * sizeof(uint32_t);
    uint64_t records = 0;
    if (offset == 0) {
        *list = unset(list_room, size);
        records = sqllex_list(text, text_length, profile, *list, length);
        look_beside(*list, size, beside_list);
        memcpy(first, *list, size);
    }
    *list = unset(list_room, size);
    sqllex_answer *answer = unset_answer();
    uint32_t status = sqllex_list_from(text, text_length, offset, profile, *list, length, answer);
    *said = written(answer);
    look_beside(*list, size, beside_list);
    if (offset == 0) {
        require(records == said->value, "sqllex_list and sqllex_list_from count otherwise");
        require(memcmp(first, *list, size) == 0, "sqllex_list and sqllex_list_from write otherwise");
    }
    look_behind(*list, said->value, length);
    require(status != SQLLEX_LIST_FULL || said->value == length / RECORD_WIDTH, "a full list with room for a record");
    look_at_records(offset, *list, said->value);
    return status;
}

/*
 * What a slice says by sqllex_next, called from lexeme to lexeme: so many are spent, those that are no blanks have the records, and what
 * is behind them is told as it is there.
 */
static void look_at_slice(size_t offset, uint32_t allowance, size_t length, const uint32_t *list, uint32_t status,
                          const sqllex_slice *said)
{
    const sqllex_answer *answer = &said->answer;
    sqllex_answer there;
    size_t records = 0;
    for (size_t i = 0; i < said->spent; i++) {
        require(call_next(offset, &there) == SQLLEX_TOKEN, "a lexeme was spent that is none");
        if (there.value != SQLLEX_TK_NONE) {
            require(records < answer->value, "a token without a record");
            sqllex_record record = sqllex_record_at(list, records++);
            require(record.kind == there.value && record.start == there.start && record.length == there.length,
                    "a record of another token");
        }
        offset = there.next;
    }
    require(records == answer->value, "a record of no token");
    look_at_lines(list, records);
    uint32_t next = call_next(offset, &there);
    if (next != SQLLEX_TOKEN) {
        require(status == next, "a slice that ends otherwise than its lexemes");
        require(answer->start == there.start && answer->length == there.length && answer->next == there.next, "a slice that ends elsewhere");
        return;
    }
    require(answer->start == offset && answer->length == 0 && answer->next == offset, "a slice that does not stop where it stops");
    if (said->spent == allowance) {
        require(status == SQLLEX_PAUSED, "no pause, and the allowance is spent");
        return;
    }
    require(status == SQLLEX_LIST_FULL, "a slice that stops before its allowance is spent");
    require(there.value != SQLLEX_TK_NONE && records == length / RECORD_WIDTH, "a full list with room");
}

static uint32_t call_part(size_t offset, uint32_t allowance, size_t length, uint32_t **list, sqllex_slice *said)
{
    size_t size = length * sizeof(uint32_t);
    sqllex_slice *slice = unset(slice_room, sizeof *slice);
    *list = unset(list_room, size);
    uint32_t status = sqllex_list_part(text, text_length, offset, profile, allowance, *list, length, slice);
    *said = *slice;
    look_beside(slice, sizeof *slice, "a byte beside the slice was written");
    look_beside(*list, size, beside_list);
    look_behind(*list, said->answer.value, length);
    require(said->spent <= allowance && said->answer.value <= said->spent, "more was spent than is allowed, or less than was listed");
    require(said->answer.digits == 0 && said->answer.underscores == 0, "digits or underscores of a slice");
    if (text_length > SQLLEX_LONGEST_TEXT)
        require(status == SQLLEX_TOO_LONG && said->spent == 0, "a slice of a text that is too long");
    else
        look_at_slice(offset, allowance, length, *list, status, said);
    return status;
}

/* A stream's phases, and the stream that is called, with its row: they stay where they are from call to call. */
enum { TAKING, FINISHING, OVER };
static sqllex_stream *stream;
static uint8_t *row;

/* What these were before a call. */
static sqllex_stream stream_before;
static uint8_t row_before[ROW_LENGTH];

static void begin_stream(void)
{
    row = unset(row_room, ROW_LENGTH);
    stream = unset(stream_room, sizeof *stream);
    require(sqllex_stream_begin(profile, stream) == SQLLEX_MORE, "a stream that is begun wants no part");
    look_beside(stream, sizeof *stream, "a byte beside a stream that is begun was written");
    require(stream->profile == profile && stream->phase == TAKING, "a stream begins otherwise");
    require(stream->given == 0 && stream->held == 0 && stream->total == 0, "a stream begins with bytes");
}

static void look_at_row(size_t from)
{
    require(memcmp(row + from, row_before + from, ROW_LENGTH - from) == 0, "bytes of the row were written that are not held");
}

static void look_at_numbers(uint32_t phase, uint32_t given, uint32_t held, uint32_t total)
{
    require(stream->profile == stream_before.profile && stream->phase == phase, "a stream with another profile or phase");
    require(stream->given == given && stream->held == held && stream->total == total, "a stream that holds otherwise");
}

/* Statuses that take nothing: a stream is left as it was but for its phase, and the row as well. */
static void look_at_none(uint32_t phase, const sqllex_given *said)
{
    require(said->taken == 0, "bytes were taken that are refused");
    look_at_numbers(phase, stream_before.given, stream_before.held, stream_before.total);
    require(stream->reading == stream_before.reading, "a stream that reads otherwise");
    look_at_row(0);
}

/* Any other status: what was taken is counted, and what is held lies at the row's front. */
static void look_at_some(uint32_t status, size_t part_length, bool finish, const sqllex_given *said)
{
    const sqllex_answer *answer = &said->answer;
    uint32_t phase = status != SQLLEX_TOKEN && status != SQLLEX_MORE ? OVER : finish ? FINISHING : TAKING;
    require(said->taken <= part_length, "more was taken than a part has");
    require(stream->held <= ROW_LENGTH, "more is held than a row has");
    look_at_numbers(phase, status == SQLLEX_TOKEN ? (uint32_t)answer->length : 0, stream->held,
                    stream_before.total + (uint32_t)said->taken);
    require(answer->length <= stream->held, "a span of more than is held");
    look_at_row(stream->held);
    if (status == SQLLEX_MORE)
        require(said->taken == part_length && answer->start + answer->length + answer->next == 0, "more than taken beside More");
}

/* The answer of a token is that of sqllex_next for the bytes that are held. */
static void look_at_held(const sqllex_answer *token)
{
    sqllex_answer next;
    require(sqllex_next(row, stream->held, 0, stream->profile, &next) == SQLLEX_TOKEN, "a token of what is none");
    require(next.value == token->value && next.length == token->length, "another token than sqllex_next gives");
    require(next.digits == token->digits && next.underscores == token->underscores, "other sums than sqllex_next gives");
    require(token->next == token->start + token->length, "a token that ends elsewhere");
}

/* What holds of every call, whatever the stream's numbers and the row's bytes were. */
static void look_at_stream(uint32_t status, size_t part_length, bool finish, const sqllex_given *said)
{
    static const unsigned char known[] = {0, 1, 2, 3, 4, 5, 6, 7, 9, 14, 15, 100, 103};
    require(status <= 103 && memchr(known, (int)status, sizeof known) != NULL, "a status that a stream has not");
    require(!finish || (status != SQLLEX_MORE && status != SQLLEX_TOO_LONG && status != SQLLEX_LEXEME_TOO_LONG),
            "a status that a finish call has not");
    require(status == SQLLEX_TOKEN || said->answer.value + said->answer.digits + said->answer.underscores == 0,
            "a kind or sums of what is no token");
    if (status == SQLLEX_CLOSED)
        look_at_none(stream_before.phase, said);
    else if (status == SQLLEX_TOO_LONG)
        look_at_none(OVER, said);
    else
        look_at_some(status, part_length, finish, said);
    if (status == SQLLEX_TOKEN)
        look_at_held(&said->answer);
}

/* A finish call, or the text is offered as a part. */
static uint32_t call_stream(bool finish, sqllex_given *said)
{
    sqllex_given *given = unset(given_room, sizeof *given);
    stream_before = *stream;
    memcpy(row_before, row, ROW_LENGTH);
    uint32_t status = finish ? sqllex_stream_finish(stream, row, given) : sqllex_stream_offer(stream, row, text, text_length, given);
    *said = *given;
    look_beside(given, sizeof *given, "a byte beside what is given was written");
    look_beside(stream, sizeof *stream, "a byte beside the stream was written");
    look_beside(row, ROW_LENGTH, "a byte beside the row was written");
    look_at_stream(status, finish ? 0 : text_length, finish, said);
    return status;
}

/* The name of a status, and what every answer with it has, beside what is printed. */
static void look_for_sums(const sqllex_answer *answer)
{
    require(answer->digits == 0 && answer->underscores == 0, "digits or underscores of what is no number");
}

static const char *refusal_name(uint32_t status, const sqllex_answer *answer)
{
    require(status >= 1 && status <= SQLLEX_LIST_FULL, "a status that is none");
    if (status < SQLLEX_OFFSET_PAST_END)
        require(answer->length <= text_length && answer->start <= text_length - answer->length, "a span outside the text");
    return refusal_names[status];
}

static void print_refusal(uint32_t status, const sqllex_answer *answer)
{
    printf("%s\t%zu\t%zu\t%zu", refusal_name(status, answer), answer->start, answer->length, answer->next);
}

static void look_at_end(const sqllex_answer *answer)
{
    require(answer->start == answer->next && answer->next == text_length && answer->length == 0, "an end that is not the text's");
}

/* Kinds that the profile sqlite never gives. */
static bool is_of_turso(size_t kind)
{
    return kind == SQLLEX_TK_LBRACKET || kind == SQLLEX_TK_COLON || kind == SQLLEX_TK_ARRAY_OVERLAP || kind == SQLLEX_TK_ARRAY_CONTAINS;
}

static void look_at_token(const sqllex_answer *answer, size_t offset)
{
    bool number = answer->value == SQLLEX_TK_INTEGER || answer->value == SQLLEX_TK_FLOAT;
    require(answer->value < SQLLEX_KINDS_COUNT, "a kind that is none");
    require(profile == SQLLEX_TURSO || !is_of_turso(answer->value), "a kind that the profile has not");
    require(answer->start == offset && answer->next == offset + answer->length, "a token that lies elsewhere");
    require(answer->length > 0, "a token of no byte");
    if (!number)
        look_for_sums(answer);
    require((answer->digits > 0) == number, "a number without a digit");
    require(answer->digits <= answer->length && answer->underscores <= answer->length - answer->digits, "more digits than bytes");
}

static void print_token(const sqllex_answer *answer, bool sums)
{
    printf("%s\t%zu\t%zu", kind_names[answer->value], answer->start, answer->length);
    if (sums)
        printf("\t%zu\t%zu", answer->digits, answer->underscores);
    printf("\n");
}

static size_t print_walk(size_t offset, bool sums)
{
    sqllex_answer answer;
    size_t tokens = 0;
    uint32_t status;
    while ((status = call_next(offset, &answer)) == SQLLEX_TOKEN) {
        look_at_token(&answer, offset);
        print_token(&answer, sums);
        offset = answer.next;
        tokens++;
    }
    require(answer.value == 0, "a value beside an end or a refusal");
    look_for_sums(&answer);
    if (status == SQLLEX_END) {
        look_at_end(&answer);
        printf("END\t%zu\t%zu\n\n", answer.next, tokens);
        return tokens;
    }
    if (status < SQLLEX_OFFSET_PAST_END)
        require(answer.start + answer.length > offset, "a refusal that ends before it begins");
    print_refusal(status, &answer);
    printf("\n\n");
    return tokens;
}

static void print_list(size_t offset, size_t length)
{
    sqllex_answer answer;
    uint32_t *list;
    uint32_t status = call_list(offset, length, &list, &answer);
    look_for_sums(&answer);
    for (size_t i = 0; i < length; i++)
        printf("%s%lu", i > 0 ? " " : "", (unsigned long)list[i]);
    printf("\n");
    if (status == SQLLEX_END) {
        look_at_end(&answer);
        printf("END\t%zu", answer.next);
    } else {
        print_refusal(status, &answer);
    }
    printf("\t%zu\n\n", answer.value);
}

static void print_cut(size_t offset)
{
    sqllex_answer answer;
    uint32_t status = call_cut(offset, &answer);
    look_for_sums(&answer);
    if (status == SQLLEX_CUT) {
        printf("CUT\t%zu\t%zu\t%zu\t%zu\n\n", answer.start, answer.length, answer.value, answer.next);
        return;
    }
    require(answer.value == (status == SQLLEX_OPEN), "a value that a cut has not");
    if (status == SQLLEX_END)
        look_at_end(&answer);
    if (status == SQLLEX_OPEN || status == SQLLEX_END)
        printf("%s\t%zu\t%zu\t%zu", status == SQLLEX_OPEN ? "OPEN" : "END", answer.start, answer.length, answer.next);
    else
        print_refusal(status, &answer);
    printf("\n\n");
}

static void print_replay(size_t offset)
{
    size_t tokens = print_walk(offset, true);
    (void)print_walk(offset, true); /* the program replay has this one from a reader, which C has not */
    size_t enough = text_length > SQLLEX_LONGEST_TEXT ? 0 : tokens * RECORD_WIDTH;
    for (size_t length = 0; length < SHORT_LISTS; length++)
        print_list(offset, length);
    print_list(offset, enough > 0 ? enough - 1 : 0);
    print_list(offset, enough);
    print_list(offset, enough + FREE_BEHIND);
    print_cut(offset);
}

static void print_next(size_t offset)
{
    (void)print_walk(offset, false);
}

static void print_sums(size_t offset)
{
    (void)print_walk(offset, true);
}

static size_t list_length;
static uint32_t slice_allowance;

static void print_one_list(size_t offset)
{
    print_list(offset, list_length);
}

/* Paused is printed as a refusal is. */
static void print_slice(size_t offset)
{
    sqllex_slice said;
    uint32_t *list;
    uint32_t status = call_part(offset, slice_allowance, list_length, &list, &said);
    for (size_t i = 0; i < list_length; i++)
        printf("%s%lu", i > 0 ? " " : "", (unsigned long)list[i]);
    printf("\n");
    if (status == SQLLEX_END) {
        look_at_end(&said.answer);
        printf("END\t%zu", said.answer.next);
    } else if (status == SQLLEX_PAUSED) {
        printf("Paused\t%zu\t%zu\t%zu", said.answer.start, said.answer.length, said.answer.next);
    } else {
        print_refusal(status, &said.answer);
    }
    printf("\t%zu\t%lu\n\n", said.answer.value, (unsigned long)said.spent);
}

static void print_word(size_t offset)
{
    (void)offset;
    printf("%s\t%d\n\n", kind_names[sqllex_word_kind(text, text_length)], sqllex_is_quotable_keyword(text, text_length));
}

/* The bytes that the stream has taken, from the first of all parts on, and where the token given last ends. */
static uint8_t sent[TEXT_MOST];
static size_t sent_length, last_end;

static void follow_stream(void)
{
    sent_length = last_end = 0;
    begin_stream();
}

static void look_at_refusal(uint32_t status, const sqllex_answer *answer)
{
    if (status >= SQLLEX_TOO_LONG)
        require(answer->start == last_end && answer->length == 0 && answer->next == last_end, "a refusal that lies elsewhere");
    else if (status != SQLLEX_END)
        require(answer->start >= last_end && answer->start + answer->length <= sent_length, "a span outside the text");
    else
        require(answer->start == sent_length && answer->length == 0 && answer->next == sent_length, "an end that is not the text's");
}

/* A call whose answer is that of the bytes sent; a token's bytes are at the row's front. */
static uint32_t call_sent(bool finish, sqllex_given *said)
{
    const sqllex_answer *answer = &said->answer;
    uint32_t status = call_stream(finish, said);
    require(said->taken <= sizeof sent - sent_length, "too much was taken");
    if (said->taken > 0)
        memcpy(sent + sent_length, text, said->taken);
    sent_length += said->taken;
    require(stream->total == sent_length, "another number of bytes was taken");
    if (status == SQLLEX_TOKEN) {
        look_at_token(answer, last_end);
        require(answer->length <= SQLLEX_LONGEST_LEXEME && answer->next <= sent_length, "a token that is too long");
        require(memcmp(row, sent + answer->start, answer->length) == 0, "the row's front is not the token");
        last_end = answer->next;
    } else if (status != SQLLEX_MORE) {
        look_at_refusal(status, answer);
    }
    return status;
}

static void print_given(uint32_t status, const sqllex_given *given)
{
    const sqllex_answer *answer = &given->answer;
    if (status == SQLLEX_TOKEN)
        printf("%s\t%zu\t%zu\t%zu\n", kind_names[answer->value], answer->start, answer->length, given->taken);
    else if (status == SQLLEX_MORE)
        printf("More\t%zu\n", given->taken);
    else if (status == SQLLEX_END)
        printf("END\t%zu\n", answer->next);
    else
        printf("%s\t%zu\t%zu\t%zu\t%zu\n", refusal_names[status], answer->start, answer->length, answer->next, given->taken);
}

/* A part is offered, and its rest again as long as tokens come. */
static void print_part(const uint8_t *part, size_t length)
{
    sqllex_given given;
    uint32_t status;
    do {
        set_text(part, length);
        status = call_sent(false, &given);
        print_given(status, &given);
        part += given.taken;
        length -= given.taken;
    } while (status == SQLLEX_TOKEN);
}

static void print_finish(void)
{
    sqllex_given given;
    uint32_t status = call_sent(true, &given);
    print_given(status, &given);
}

/* A script: two bytes for each call, lowest first, which are the length of the part behind them, or FINISH for a finish call. */
#define FINISH 65535u

static void print_stream(size_t offset)
{
    static uint8_t script[TEXT_MOST];
    size_t left = text_length, length;
    const uint8_t *at = script;
    (void)offset;
    memcpy(script, text, left);
    follow_stream();
    while (left > 0) {
        length = left < 2 ? 0 : at[0] + 256u * at[1];
        if (left < 2 || (length != FINISH && length > left - 2)) {
            printf("BADSCRIPT\n");
            break;
        }
        at += 2;
        left -= 2;
        if (length == FINISH) {
            print_finish();
            continue;
        }
        print_part(at, length);
        at += length;
        left -= length;
    }
    printf("\n");
}

/* Records: offset and length, 4 bytes each, lowest first, and the text. */
static void each_record(void (*print)(size_t offset))
{
    static unsigned char bytes[TEXT_MOST];
    unsigned char head[8];
    while (fread(head, 1, sizeof head, stdin) == sizeof head) {
        size_t number[2] = {0, 0};
        for (int i = 7; i >= 0; i--)
            number[i / 4] = number[i / 4] * 256 + head[i];
        require(number[1] <= sizeof bytes && fread(bytes, 1, number[1], stdin) == number[1], "a bad record");
        set_text(bytes, number[1]);
        print(number[0]);
    }
}

/* The calls of `edges`, each with its status, value, start, length and next; a number with its digits and underscores too. */
static void expect_number(int line, uint32_t got, const sqllex_answer *said, uint32_t status, size_t value, size_t start, size_t length,
                          size_t next, size_t digits, size_t underscores)
{
    if (got == status && said->value == value && said->start == start && said->length == length && said->next == next &&
        said->digits == digits && said->underscores == underscores)
        return;
    fprintf(stderr, "calls: line %d: the status is %u, the answer %zu %zu %zu %zu %zu %zu\n", line, (unsigned)got, said->value,
            said->start, said->length, said->next, said->digits, said->underscores);
    exit(1);
}

static void expect(int line, uint32_t got, const sqllex_answer *said, uint32_t status, size_t value, size_t start, size_t length,
                   size_t next)
{
    expect_number(line, got, said, status, value, start, length, next, 0, 0);
}

static sqllex_answer said;
static sqllex_slice sliced;
static uint32_t *list;
#define TEXT(literal) set_text(literal, sizeof literal - 1)
#define NEXT(offset, ...) expect(__LINE__, call_next(offset, &said), &said, __VA_ARGS__)
#define NUMBER(offset, ...) expect_number(__LINE__, call_next(offset, &said), &said, SQLLEX_TOKEN, __VA_ARGS__)
#define CUT(offset, ...) expect(__LINE__, call_cut(offset, &said), &said, __VA_ARGS__)
#define LIST(offset, length, ...) expect(__LINE__, call_list(offset, length, &list, &said), &said, __VA_ARGS__)

/* A slice, with what is spent behind the rest. */
#define PART(offset, allowance, length, ...) \
    expect_slice(__LINE__, call_part(offset, allowance, length, &list, &sliced), __VA_ARGS__)

static void expect_slice(int line, uint32_t got, uint32_t status, size_t value, size_t start, size_t length, size_t next, size_t spent)
{
    said = sliced.answer;
    expect(line, got, &said, status, value, start, length, next);
    if (sliced.spent == spent)
        return;
    fprintf(stderr, "calls: line %d: %zu lexemes were spent\n", line, sliced.spent);
    exit(1);
}

/* The list of the last LIST or PART is these records: kind, start, length, line, column. What is behind them these have looked at. */
#define RECORDS(...) expect_records(__LINE__, (const uint32_t[]){__VA_ARGS__}, sizeof((const uint32_t[]){__VA_ARGS__}))
#define ROOM (6 * RECORD_WIDTH - 1) /* for as many records as any of these lists has, and some numbers */

static void expect_records(int line, const uint32_t *numbers, size_t size)
{
    if (said.value * sizeof(sqllex_record) == size && memcmp(list, numbers, size) == 0)
        return;
    fprintf(stderr, "calls: line %d: another list\n", line);
    exit(1);
}

static void try_next(void)
{
    TEXT("");
    NEXT(0, SQLLEX_END, 0, 0, 0, 0);
    NEXT(1, SQLLEX_OFFSET_PAST_END, 0, 0, 0, 1);
    TEXT("SELECT 1.e-1;\n");
    NEXT(0, SQLLEX_TOKEN, SQLLEX_TK_SELECT, 0, 6, 6);
    NUMBER(7, SQLLEX_TK_FLOAT, 7, 5, 12, 2, 0);
    NEXT(8, SQLLEX_TOKEN, SQLLEX_TK_DOT, 8, 1, 9);
    NEXT(14, SQLLEX_END, 0, 14, 0, 14);
    NEXT(15, SQLLEX_OFFSET_PAST_END, 0, 0, 0, 15);
    NEXT(SIZE_MAX, SQLLEX_OFFSET_PAST_END, 0, 0, 0, SIZE_MAX);
    TEXT("a\vb c");
    NEXT(1, SQLLEX_UNRECOGNIZED_TOKEN, 0, 1, 2, 3);
    TEXT("a x'1'");
    NEXT(2, SQLLEX_UNRECOGNIZED_TOKEN, 0, 2, 4, 2);
    TEXT("a '''");
    NEXT(2, SQLLEX_UNTERMINATED_LITERAL, 0, 2, 3, 2);
    TEXT("a 12_x");
    NEXT(2, SQLLEX_BAD_NUMBER, 0, 3, 2, 2);
    TEXT("a 1.5a");
    NEXT(2, SQLLEX_BAD_FRACTIONAL_PART, 0, 3, 2, 2);
    TEXT("a 1e+");
    NEXT(2, SQLLEX_BAD_EXPONENT_PART, 0, 3, 2, 2);
    TEXT("a 0x");
    NEXT(2, SQLLEX_MALFORMED_HEX_INTEGER, 0, 2, 2, 2);
    TEXT("a !");
    NEXT(2, SQLLEX_EXPECTED_EQUALS_SIGN, 0, 2, 1, 2);
}

static void try_numbers(void)
{
    TEXT("1e5_ 0x1_F 1.5e+1_0 5. ?12 0X0 .0_0 0");
    NEXT(0, SQLLEX_BAD_NUMBER, 0, 2, 2, 0);
    NUMBER(5, SQLLEX_TK_INTEGER, 5, 5, 10, 2, 1);
    NUMBER(11, SQLLEX_TK_FLOAT, 11, 8, 19, 4, 1);
    NUMBER(20, SQLLEX_TK_FLOAT, 20, 2, 22, 1, 0);
    NUMBER(23, SQLLEX_TK_VARIABLE, 23, 3, 26, 0, 0);
    NUMBER(27, SQLLEX_TK_INTEGER, 27, 3, 30, 1, 0);
    NUMBER(31, SQLLEX_TK_FLOAT, 31, 4, 35, 2, 1);
    NUMBER(36, SQLLEX_TK_INTEGER, 36, 1, 37, 1, 0);
}

static void try_list(void)
{
    static const uint32_t records[] = {SQLLEX_TK_ID, 0, 1, 1, 1, SQLLEX_TK_SEMI, 1, 1, 1, 2, SQLLEX_TK_ID, 2, 1, 1, 3};
    const size_t all = sizeof records / sizeof *records, tokens = all / RECORD_WIDTH;
    TEXT("a;b");
    for (size_t length = 0; length <= all + RECORD_WIDTH; length++) {
        size_t whole = length < all ? length / RECORD_WIDTH : tokens;
        if (whole < tokens)
            LIST(0, length, SQLLEX_LIST_FULL, whole, whole, 0, whole);
        else
            LIST(0, length, SQLLEX_END, tokens, 3, 0, 3);
        for (size_t i = 0; i < length; i++)
            require(list[i] == (i < RECORD_WIDTH * whole ? records[i] : OLD), "another list of a;b");
    }
    LIST(1, RECORD_WIDTH, SQLLEX_LIST_FULL, 1, 2, 0, 2);
    LIST(2, RECORD_WIDTH - 1, SQLLEX_LIST_FULL, 0, 2, 0, 2);
    LIST(2, RECORD_WIDTH, SQLLEX_END, 1, 3, 0, 3);
    LIST(3, 0, SQLLEX_END, 0, 3, 0, 3);
    LIST(4, ROOM, SQLLEX_OFFSET_PAST_END, 0, 0, 0, 4);
    TEXT("a;!");
    LIST(0, 2 * RECORD_WIDTH, SQLLEX_EXPECTED_EQUALS_SIGN, 2, 2, 1, 2);
    LIST(0, 2 * RECORD_WIDTH - 1, SQLLEX_LIST_FULL, 1, 1, 0, 1);
    TEXT("a\vb c");
    LIST(0, RECORD_WIDTH, SQLLEX_UNRECOGNIZED_TOKEN, 1, 1, 2, 3);
}

/* Lines and columns. */
static void try_lines(void)
{
    TEXT("a\nb");
    LIST(0, ROOM, SQLLEX_END, 3, 3, 0, 3);
    RECORDS(SQLLEX_TK_ID, 0, 1, 1, 1, SQLLEX_TK_NONE, 1, 1, 1, 2, SQLLEX_TK_ID, 2, 1, 2, 1);
    LIST(1, ROOM, SQLLEX_END, 2, 3, 0, 3);
    RECORDS(SQLLEX_TK_NONE, 1, 1, 1, 2, SQLLEX_TK_ID, 2, 1, 2, 1);
    LIST(2, ROOM, SQLLEX_END, 1, 3, 0, 3);
    RECORDS(SQLLEX_TK_ID, 2, 1, 2, 1);
    TEXT("\na");
    LIST(0, ROOM, SQLLEX_END, 2, 2, 0, 2);
    RECORDS(SQLLEX_TK_NONE, 0, 1, 1, 1, SQLLEX_TK_ID, 1, 1, 2, 1);
    TEXT("a\r\nb\r\n\r\nc");
    LIST(0, ROOM, SQLLEX_END, 5, 9, 0, 9);
    RECORDS(SQLLEX_TK_ID, 0, 1, 1, 1, SQLLEX_TK_NONE, 1, 2, 1, 2, SQLLEX_TK_ID, 3, 1, 2, 1, SQLLEX_TK_NONE, 4, 4, 2, 2,
            SQLLEX_TK_ID, 8, 1, 4, 1);
    LIST(2, RECORD_WIDTH, SQLLEX_LIST_FULL, 1, 3, 0, 3);
    RECORDS(SQLLEX_TK_NONE, 2, 1, 1, 3);
    LIST(6, ROOM, SQLLEX_END, 2, 9, 0, 9);
    RECORDS(SQLLEX_TK_NONE, 6, 2, 3, 1, SQLLEX_TK_ID, 8, 1, 4, 1);
    TEXT("a\r\fb"); /* no other byte ends a line */
    LIST(0, ROOM, SQLLEX_END, 3, 4, 0, 4);
    RECORDS(SQLLEX_TK_ID, 0, 1, 1, 1, SQLLEX_TK_NONE, 1, 2, 1, 2, SQLLEX_TK_ID, 3, 1, 1, 4);
    TEXT("\xc3\xa9;"); /* a letter of two bytes */
    LIST(0, ROOM, SQLLEX_END, 2, 3, 0, 3);
    RECORDS(SQLLEX_TK_ID, 0, 2, 1, 1, SQLLEX_TK_SEMI, 2, 1, 1, 3);
}

/* Tokens with a 0A in them: a string, names, comments. The list may start inside one. */
static void try_lines_within(void)
{
    TEXT("'x\ny''\n' a");
    LIST(0, ROOM, SQLLEX_END, 3, 10, 0, 10);
    RECORDS(SQLLEX_TK_STRING, 0, 8, 1, 1, SQLLEX_TK_NONE, 8, 1, 3, 2, SQLLEX_TK_ID, 9, 1, 3, 3);
    LIST(3, ROOM, SQLLEX_UNTERMINATED_LITERAL, 3, 7, 3, 7);
    RECORDS(SQLLEX_TK_ID, 3, 1, 2, 1, SQLLEX_TK_STRING, 4, 2, 2, 2, SQLLEX_TK_NONE, 6, 1, 2, 4);
    TEXT("\"a\nb\"`\n`c");
    LIST(0, ROOM, SQLLEX_END, 3, 9, 0, 9);
    RECORDS(SQLLEX_TK_ID, 0, 5, 1, 1, SQLLEX_TK_ID, 5, 3, 2, 3, SQLLEX_TK_ID, 8, 1, 3, 2);
    TEXT("/* \n */a");
    LIST(0, ROOM, SQLLEX_END, 2, 8, 0, 8);
    RECORDS(SQLLEX_TK_NONE, 0, 7, 1, 1, SQLLEX_TK_ID, 7, 1, 2, 4);
    LIST(5, ROOM, SQLLEX_END, 3, 8, 0, 8);
    RECORDS(SQLLEX_TK_STAR, 5, 1, 2, 2, SQLLEX_TK_SLASH, 6, 1, 2, 3, SQLLEX_TK_ID, 7, 1, 2, 4);
    TEXT("-- a\n-- b\nc");
    LIST(0, ROOM, SQLLEX_END, 3, 11, 0, 11);
    RECORDS(SQLLEX_TK_NONE, 0, 5, 1, 1, SQLLEX_TK_NONE, 5, 5, 2, 1, SQLLEX_TK_ID, 10, 1, 3, 1);
    TEXT("a\n 'b"); /* a refused lexeme has no record */
    LIST(0, ROOM, SQLLEX_UNTERMINATED_LITERAL, 2, 3, 2, 3);
    RECORDS(SQLLEX_TK_ID, 0, 1, 1, 1, SQLLEX_TK_NONE, 1, 2, 1, 2);
}

/* From an offset on the list is filled again and again: the records are those of the tokens that sqllex_next gives, up to the same end. */
static void try_filled_again(size_t offset, size_t length)
{
    sqllex_answer token;
    uint32_t status;
    do {
        status = call_list(offset, length, &list, &said);
        for (size_t i = 0; i < said.value; i++) {
            sqllex_record record = sqllex_record_at(list, i);
            require(call_next(offset, &token) == SQLLEX_TOKEN, "a record of what is no token");
            require(token.value == record.kind && token.length == record.length, "a record of another token");
            offset = token.next;
        }
    } while (status == SQLLEX_LIST_FULL);
    require(call_next(offset, &token) == status, "a list that ends otherwise than its tokens");
    require(token.start == said.start && token.length == said.length && token.next == said.next, "a list that ends elsewhere");
}

/* Every offset of a text of several lines, past its end too, and lists of every length up to some records. */
static void try_offsets(void)
{
    TEXT("\n-- a\r\nSELECT 'b\n''\nc', \"d\ne\"/* f\n\n */ ,\n`g\n`;[h\ni]\r\n1.5 x'0A'\n\n$a(b) @c\n\n!=\xc3\xa9\n ");
    for (size_t offset = 0; offset <= text_length + 1; offset++) {
        for (size_t length = 0; length <= ROOM; length++)
            (void)call_list(offset, length, &list, &said);
        for (size_t length = RECORD_WIDTH; length <= ROOM; length++)
            try_filled_again(offset, length);
    }
}

/* A slice: every status, and which of several comes. */
static void try_part(void)
{
    TEXT("a b;");
    PART(0, 9, ROOM, SQLLEX_END, 3, 4, 0, 4, 4);
    RECORDS(SQLLEX_TK_ID, 0, 1, 1, 1, SQLLEX_TK_ID, 2, 1, 1, 3, SQLLEX_TK_SEMI, 3, 1, 1, 4);
    PART(0, 4, ROOM, SQLLEX_END, 3, 4, 0, 4, 4); /* the end comes before a pause */
    PART(0, UINT32_MAX, ROOM, SQLLEX_END, 3, 4, 0, 4, 4);
    PART(0, 3, ROOM, SQLLEX_PAUSED, 2, 3, 0, 3, 3);
    RECORDS(SQLLEX_TK_ID, 0, 1, 1, 1, SQLLEX_TK_ID, 2, 1, 1, 3);
    PART(0, 1, ROOM, SQLLEX_PAUSED, 1, 1, 0, 1, 1); /* before a blank too */
    PART(1, 1, ROOM, SQLLEX_PAUSED, 0, 2, 0, 2, 1);
    PART(3, 1, ROOM, SQLLEX_END, 1, 4, 0, 4, 1);
    PART(4, 9, ROOM, SQLLEX_END, 0, 4, 0, 4, 0);
    PART(5, 9, ROOM, SQLLEX_OFFSET_PAST_END, 0, 0, 0, 5, 0);
    PART(SIZE_MAX, UINT32_MAX, ROOM, SQLLEX_OFFSET_PAST_END, 0, 0, 0, SIZE_MAX, 0);
    /* a pause comes before a full list */
    PART(0, 3, 2 * RECORD_WIDTH, SQLLEX_PAUSED, 2, 3, 0, 3, 3);
    PART(0, 4, 2 * RECORD_WIDTH, SQLLEX_LIST_FULL, 2, 3, 0, 3, 3);
    PART(0, UINT32_MAX, 2 * RECORD_WIDTH - 1, SQLLEX_LIST_FULL, 1, 2, 0, 2, 2);
    PART(2, 1, 0, SQLLEX_LIST_FULL, 0, 2, 0, 2, 0);
    PART(4, 1, 0, SQLLEX_END, 0, 4, 0, 4, 0);
    /* a refusal before both, also where its lexeme is the first */
    TEXT("a;!");
    PART(0, 2, 2 * RECORD_WIDTH, SQLLEX_EXPECTED_EQUALS_SIGN, 2, 2, 1, 2, 2);
    PART(0, 3, 2 * RECORD_WIDTH, SQLLEX_EXPECTED_EQUALS_SIGN, 2, 2, 1, 2, 2);
    PART(0, 1, ROOM, SQLLEX_PAUSED, 1, 1, 0, 1, 1);
    PART(2, 0, 0, SQLLEX_EXPECTED_EQUALS_SIGN, 0, 2, 1, 2, 0);
    TEXT("a\vb c");
    PART(0, 1, RECORD_WIDTH, SQLLEX_UNRECOGNIZED_TOKEN, 1, 1, 2, 3, 1);
    TEXT(" 'b");
    PART(0, 5, 0, SQLLEX_UNTERMINATED_LITERAL, 0, 1, 2, 1, 1);
    TEXT("a 12_x");
    PART(1, 1, 0, SQLLEX_BAD_NUMBER, 0, 3, 2, 2, 1);
    TEXT("a 1.5a");
    PART(1, 1, 0, SQLLEX_BAD_FRACTIONAL_PART, 0, 3, 2, 2, 1);
    TEXT("a 1e+");
    PART(1, 1, 0, SQLLEX_BAD_EXPONENT_PART, 0, 3, 2, 2, 1);
    TEXT("a 0x");
    PART(1, 1, 0, SQLLEX_MALFORMED_HEX_INTEGER, 0, 2, 2, 2, 1);
}

/* An allowance of 0 passes nothing: the end, a refusal or a pause. */
static void try_no_allowance(void)
{
    TEXT("");
    PART(0, 0, 0, SQLLEX_END, 0, 0, 0, 0, 0);
    PART(1, 0, ROOM, SQLLEX_OFFSET_PAST_END, 0, 0, 0, 1, 0);
    TEXT("a {");
    PART(0, 0, ROOM, SQLLEX_PAUSED, 0, 0, 0, 0, 0);
    PART(0, 0, 0, SQLLEX_PAUSED, 0, 0, 0, 0, 0);
    PART(1, 0, ROOM, SQLLEX_PAUSED, 0, 1, 0, 1, 0);
    PART(2, 0, ROOM, SQLLEX_UNRECOGNIZED_TOKEN, 0, 2, 1, 3, 0);
    PART(3, 0, ROOM, SQLLEX_END, 0, 3, 0, 3, 0);
    PART(4, 0, 0, SQLLEX_OFFSET_PAST_END, 0, 0, 0, 4, 0);
}

/* Blanks and comments have no record, pass a full list, and are spent. */
static void try_blanks(void)
{
    TEXT(" /**/ --");
    PART(0, 9, 0, SQLLEX_END, 0, 8, 0, 8, 4);
    PART(0, 9, ROOM, SQLLEX_END, 0, 8, 0, 8, 4);
    PART(0, 3, 0, SQLLEX_PAUSED, 0, 6, 0, 6, 3);
    TEXT("\na -- b\n/*\n*/ c");
    PART(0, 9, 2 * RECORD_WIDTH, SQLLEX_END, 2, 15, 0, 15, 7);
    RECORDS(SQLLEX_TK_ID, 1, 1, 2, 1, SQLLEX_TK_ID, 14, 1, 4, 4);
    PART(0, 9, RECORD_WIDTH, SQLLEX_LIST_FULL, 1, 14, 0, 14, 6);
    RECORDS(SQLLEX_TK_ID, 1, 1, 2, 1);
    PART(0, 6, RECORD_WIDTH, SQLLEX_PAUSED, 1, 14, 0, 14, 6);
    PART(0, 5, RECORD_WIDTH, SQLLEX_PAUSED, 1, 13, 0, 13, 5);
    PART(0, 9, RECORD_WIDTH - 1, SQLLEX_LIST_FULL, 0, 1, 0, 1, 1);
    PART(14, 9, RECORD_WIDTH, SQLLEX_END, 1, 15, 0, 15, 1);
    RECORDS(SQLLEX_TK_ID, 14, 1, 4, 4);
    TEXT("a  ");
    PART(0, 9, RECORD_WIDTH, SQLLEX_END, 1, 3, 0, 3, 2);
    TEXT("a {");
    PART(0, 9, RECORD_WIDTH, SQLLEX_UNRECOGNIZED_TOKEN, 1, 2, 1, 3, 2);
}

/* The records of a text from an offset on, those of blanks left out, and how their list ends: by one call of sqllex_list_from. */
static uint32_t kept[LIST_MOST];
static size_t kept_count, lexeme_count;

static uint32_t keep_list(size_t offset, sqllex_answer *end)
{
    uint32_t status = call_list(offset, text_length * RECORD_WIDTH, &list, end);
    kept_count = 0;
    lexeme_count = end->value;
    for (size_t i = 0; i < lexeme_count; i++)
        if (sqllex_record_at(list, i).kind != SQLLEX_TK_NONE)
            memcpy(kept + RECORD_WIDTH * kept_count++, list + RECORD_WIDTH * i, sizeof(sqllex_record));
    return status;
}

/*
 * Slices of one allowance, each from where the last stopped, in lists that may run full: joined, their records are those that are kept,
 * they spend each lexeme once, and they end as that list does. Where none runs full, every slice but the last spends its allowance.
 */
static void try_slices(size_t offset, uint32_t allowance, size_t length, uint32_t status, const sqllex_answer *end)
{
    size_t records = 0, spent = 0;
    uint32_t got;
    do {
        got = call_part(offset, allowance, length, &list, &sliced);
        require(records + sliced.answer.value <= kept_count, "slices with more records than one list");
        require(memcmp(kept + RECORD_WIDTH * records, list, sliced.answer.value * sizeof(sqllex_record)) == 0,
                "slices with other records than one list");
        require(got != SQLLEX_PAUSED || sliced.spent == allowance, "a pause before the allowance is spent");
        require(length / RECORD_WIDTH < allowance || got != SQLLEX_LIST_FULL, "a full list with room for the allowance");
        records += sliced.answer.value;
        spent += sliced.spent;
        offset = sliced.answer.next;
    } while (got == SQLLEX_PAUSED || got == SQLLEX_LIST_FULL);
    require(records == kept_count && spent == lexeme_count, "slices that list or spend otherwise than one list");
    require(got == status && sliced.answer.start == end->start && sliced.answer.length == end->length && sliced.answer.next == end->next,
            "slices that end otherwise than one list");
}

/* Every allowance up to more than all lexemes, with lists that have room for all of them, for one, for some, and one slice for all. */
static void try_allowances(size_t offset)
{
    sqllex_answer end;
    uint32_t status = keep_list(offset, &end);
    for (uint32_t allowance = 1; allowance <= lexeme_count + 1; allowance++) {
        try_slices(offset, allowance, allowance * RECORD_WIDTH, status, &end);
        try_slices(offset, allowance, RECORD_WIDTH, status, &end);
        try_slices(offset, allowance, 3 * RECORD_WIDTH + 2, status, &end);
    }
    require(call_part(offset, UINT32_MAX, kept_count * RECORD_WIDTH, &list, &sliced) == status, "one slice that ends otherwise");
    require(sliced.answer.value == kept_count && sliced.spent == lexeme_count, "one slice with other records");
}

static void try_part_offsets(void)
{
    TEXT("\n-- a\r\nSELECT 'b\n''\nc', \"d\ne\"/* f\n\n */ ,\n`g\n`;[h\ni]\r\n1.5 x'0A'\n\n$a(b) @c\n\n!=\xc3\xa9\n ");
    for (size_t offset = 0; offset <= text_length + 1; offset++) {
        try_allowances(offset);
        for (uint32_t allowance = 0; allowance <= 8; allowance++)
            for (size_t length = 0; length <= ROOM; length++)
                (void)call_part(offset, allowance, length, &list, &sliced);
    }
}

static void try_cut(void)
{
    TEXT("a;b");
    CUT(0, SQLLEX_CUT, 1, 0, 2, 2);
    CUT(1, SQLLEX_CUT, 0, 1, 1, 2);
    CUT(2, SQLLEX_OPEN, 1, 2, 1, 3);
    CUT(3, SQLLEX_END, 0, 3, 0, 3);
    CUT(4, SQLLEX_OFFSET_PAST_END, 0, 0, 0, 4);
    TEXT("';'");
    CUT(0, SQLLEX_OPEN, 1, 0, 3, 3);
    TEXT(" /*;*/ ");
    CUT(0, SQLLEX_END, 0, 7, 0, 7);
    TEXT(" -- a\n;");
    CUT(0, SQLLEX_CUT, 0, 0, 7, 7);
    TEXT("a b 1.5a;");
    CUT(1, SQLLEX_BAD_FRACTIONAL_PART, 0, 5, 2, 1);
    TEXT("a \vb ;");
    CUT(1, SQLLEX_UNRECOGNIZED_TOKEN, 0, 2, 2, 1);
    TEXT("create trigger a begin select 1; end;b");
    CUT(0, SQLLEX_CUT, 1, 0, 37, 37);
    CUT(7, SQLLEX_CUT, 1, 7, 25, 32); /* from the second word on it is no trigger's */
    TEXT("explain query plan create temporary trigger a; end /*;*/");
    CUT(0, SQLLEX_OPEN, 1, 0, 56, 56);
    TEXT("create temp trigger a;!;end;");
    CUT(0, SQLLEX_EXPECTED_EQUALS_SIGN, 0, 22, 1, 0);
    TEXT("create temp;a");
    CUT(0, SQLLEX_CUT, 1, 0, 12, 12);
}

/* Texts as long as a list takes, and longer. */
static void try_long(void)
{
    static unsigned char bytes[TEXT_MOST];
    memset(bytes, ';', sizeof bytes);
    set_text(bytes, SQLLEX_LONGEST_TEXT);
    PART(0, SQLLEX_LONGEST_TEXT, SQLLEX_LONGEST_TEXT * RECORD_WIDTH, SQLLEX_END, SQLLEX_LONGEST_TEXT, SQLLEX_LONGEST_TEXT, 0,
         SQLLEX_LONGEST_TEXT, SQLLEX_LONGEST_TEXT);
    PART(0, SQLLEX_LONGEST_TEXT - 1, SQLLEX_LONGEST_TEXT * RECORD_WIDTH, SQLLEX_PAUSED, SQLLEX_LONGEST_TEXT - 1, SQLLEX_LONGEST_TEXT - 1, 0,
         SQLLEX_LONGEST_TEXT - 1, SQLLEX_LONGEST_TEXT - 1);
    LIST(0, SQLLEX_LONGEST_TEXT * RECORD_WIDTH, SQLLEX_END, SQLLEX_LONGEST_TEXT, SQLLEX_LONGEST_TEXT, 0, SQLLEX_LONGEST_TEXT);
    LIST(0, SQLLEX_LONGEST_TEXT * RECORD_WIDTH - 1, SQLLEX_LIST_FULL, SQLLEX_LONGEST_TEXT - 1, SQLLEX_LONGEST_TEXT - 1, 0,
         SQLLEX_LONGEST_TEXT - 1);
    set_text(bytes, SQLLEX_LONGEST_TEXT + 1);
    LIST(0, ROOM, SQLLEX_TOO_LONG, 0, 0, 0, 0);
    require(list[0] == OLD, "a list of a text that is too long was written");
    LIST(7, 0, SQLLEX_TOO_LONG, 0, 0, 0, 7);
    LIST(SIZE_MAX, ROOM, SQLLEX_TOO_LONG, 0, 0, 0, SIZE_MAX);
    PART(0, 9, ROOM, SQLLEX_TOO_LONG, 0, 0, 0, 0, 0);
    require(list[0] == OLD, "a slice of a text that is too long was written");
    PART(7, 0, 0, SQLLEX_TOO_LONG, 0, 0, 0, 7, 0);
    PART(SIZE_MAX, UINT32_MAX, ROOM, SQLLEX_TOO_LONG, 0, 0, 0, SIZE_MAX, 0);
    memset(bytes, ' ', sizeof bytes);
    set_text(bytes, sizeof bytes);
    NEXT(0, SQLLEX_TOKEN, SQLLEX_TK_NONE, 0, TEXT_MOST, TEXT_MOST);
    CUT(65536, SQLLEX_END, 0, TEXT_MOST, 0, TEXT_MOST);
    NEXT(TEXT_MOST, SQLLEX_END, 0, TEXT_MOST, 0, TEXT_MOST);
    for (size_t i = 0; i < sizeof bytes; i++)
        bytes[i] = i % 2 == 0 ? '9' : '_';
    set_text(bytes, sizeof bytes - 1);
    NUMBER(0, SQLLEX_TK_INTEGER, 0, TEXT_MOST - 1, TEXT_MOST - 1, TEXT_MOST / 2, TEXT_MOST / 2 - 1);
}

/* The last records of such texts: of all 0A, of one line, of a 0A before every other token. */
static void try_long_lines(void)
{
    static unsigned char bytes[SQLLEX_LONGEST_TEXT];
    const size_t enough = SQLLEX_LONGEST_TEXT * RECORD_WIDTH;
    memset(bytes, '\n', sizeof bytes);
    set_text(bytes, sizeof bytes);
    LIST(0, ROOM, SQLLEX_END, 1, 65535, 0, 65535);
    RECORDS(SQLLEX_TK_NONE, 0, 65535, 1, 1);
    LIST(65534, ROOM, SQLLEX_END, 1, 65535, 0, 65535);
    RECORDS(SQLLEX_TK_NONE, 65534, 1, 65535, 1);
    memset(bytes, ';', sizeof bytes);
    set_text(bytes, sizeof bytes);
    LIST(65534, ROOM, SQLLEX_END, 1, 65535, 0, 65535);
    RECORDS(SQLLEX_TK_SEMI, 65534, 1, 1, 65535);
    LIST(0, enough, SQLLEX_END, 65535, 65535, 0, 65535);
    sqllex_record last = sqllex_record_at(list, 65534);
    require(last.start == 65534 && last.line == 1 && last.column == 65535, "another last record of one line");
    for (size_t i = 0; i < sizeof bytes; i += 2)
        bytes[i] = '\n';
    set_text(bytes, sizeof bytes);
    LIST(65533, ROOM, SQLLEX_END, 2, 65535, 0, 65535);
    RECORDS(SQLLEX_TK_SEMI, 65533, 1, 32768, 1, SQLLEX_TK_NONE, 65534, 1, 32768, 2);
    LIST(0, enough, SQLLEX_END, 65535, 65535, 0, 65535);
    last = sqllex_record_at(list, 65533);
    require(last.start == 65533 && last.line == 32768 && last.column == 1, "another last record of many lines");
}

static void try_word(const char *word, uint32_t kind, bool quotable)
{
    set_text(word, strlen(word));
    require(sqllex_word_kind(text, text_length) == kind, word);
    require(sqllex_is_quotable_keyword(text, text_length) == quotable, word);
}

static void try_words(void)
{
    try_word("", SQLLEX_TK_ID, false);
    try_word("Select", SQLLEX_TK_SELECT, true);
    try_word("type", SQLLEX_TK_TYPE, false);
    try_word("types", SQLLEX_TK_ID, false);
    try_word("CURRENT_TIMESTAMP", SQLLEX_TK_CTIME_KW, true);
    try_word("CURRENT_TIMESTAMPS", SQLLEX_TK_ID, false);
}

/* No text and no list, by null pointers. */
static void try_null(void)
{
    text = NULL;
    text_length = 0;
    NEXT(0, SQLLEX_END, 0, 0, 0, 0);
    NEXT(1, SQLLEX_OFFSET_PAST_END, 0, 0, 0, 1);
    CUT(0, SQLLEX_END, 0, 0, 0, 0);
    sqllex_answer *answer = unset_answer();
    require(sqllex_list_from(NULL, 0, 0, profile, NULL, 0, answer) == SQLLEX_END && written(answer).value == 0, "a list of nothing");
    require(sqllex_list(NULL, 0, profile, NULL, 0) == 0, "records of nothing");
    TEXT("a");
    require(sqllex_list_from(text, text_length, 0, profile, NULL, 0, answer) == SQLLEX_LIST_FULL, "a record in no list");
    require(sqllex_list(text, text_length, profile, NULL, 0) == 0, "a record in no list");
    sqllex_slice *slice = unset(slice_room, sizeof *slice);
    require(sqllex_list_part(NULL, 0, 0, profile, 1, NULL, 0, slice) == SQLLEX_END && slice->spent == 0, "a slice of nothing");
    require(sqllex_list_part(text, text_length, 0, profile, 1, NULL, 0, slice) == SQLLEX_LIST_FULL, "a record in no list");
    require(sqllex_word_kind(NULL, 0) == SQLLEX_TK_ID && !sqllex_is_quotable_keyword(NULL, 0), "a kind of no word");
}

/* A statement that both profiles lex alike. */
static void try_statement(void)
{
    TEXT("SELECT 1;");
    NEXT(0, SQLLEX_TOKEN, SQLLEX_TK_SELECT, 0, 6, 6);
    NUMBER(7, SQLLEX_TK_INTEGER, 7, 1, 8, 1, 0);
    LIST(0, ROOM, SQLLEX_END, 4, 9, 0, 9);
    RECORDS(SQLLEX_TK_SELECT, 0, 6, 1, 1, SQLLEX_TK_NONE, 6, 1, 1, 7, SQLLEX_TK_INTEGER, 7, 1, 1, 8, SQLLEX_TK_SEMI, 8, 1, 1, 9);
    CUT(0, SQLLEX_CUT, 1, 0, 9, 9);
    PART(0, 3, ROOM, SQLLEX_PAUSED, 2, 8, 0, 8, 3);
    RECORDS(SQLLEX_TK_SELECT, 0, 6, 1, 1, SQLLEX_TK_INTEGER, 7, 1, 1, 8);
}

/*
 * What the two profiles read otherwise, by every call. To the cut these tokens are as good as others, so it is asked where a semicolon is a
 * token, or a lexeme refused, under one profile alone; `&&` is the same to it under both.
 */
static void try_turso(void)
{
    TEXT(":2");
    NEXT(0, SQLLEX_TOKEN, SQLLEX_TK_COLON, 0, 1, 1);
    LIST(0, ROOM, SQLLEX_END, 2, 2, 0, 2);
    RECORDS(SQLLEX_TK_COLON, 0, 1, 1, 1, SQLLEX_TK_INTEGER, 1, 1, 1, 2);
    TEXT(":2(;)");
    CUT(0, SQLLEX_CUT, 1, 0, 4, 4);
    TEXT(":");
    CUT(0, SQLLEX_OPEN, 1, 0, 1, 1);
    TEXT("[a]");
    NEXT(0, SQLLEX_TOKEN, SQLLEX_TK_LBRACKET, 0, 1, 1);
    LIST(0, ROOM, SQLLEX_END, 3, 3, 0, 3);
    RECORDS(SQLLEX_TK_LBRACKET, 0, 1, 1, 1, SQLLEX_TK_ID, 1, 1, 1, 2, SQLLEX_TK_RBRACKET, 2, 1, 1, 3);
    TEXT("[\n];");
    LIST(0, ROOM, SQLLEX_END, 4, 4, 0, 4);
    RECORDS(SQLLEX_TK_LBRACKET, 0, 1, 1, 1, SQLLEX_TK_NONE, 1, 1, 1, 2, SQLLEX_TK_RBRACKET, 2, 1, 2, 1, SQLLEX_TK_SEMI, 3, 1, 2, 2);
    PART(0, 3, ROOM, SQLLEX_PAUSED, 2, 3, 0, 3, 3);
    RECORDS(SQLLEX_TK_LBRACKET, 0, 1, 1, 1, SQLLEX_TK_RBRACKET, 2, 1, 2, 1);
    TEXT("[;]");
    CUT(0, SQLLEX_CUT, 1, 0, 2, 2);
    TEXT("&&");
    NEXT(0, SQLLEX_TOKEN, SQLLEX_TK_ARRAY_OVERLAP, 0, 2, 2);
    LIST(0, ROOM, SQLLEX_END, 1, 2, 0, 2);
    RECORDS(SQLLEX_TK_ARRAY_OVERLAP, 0, 2, 1, 1);
    CUT(0, SQLLEX_OPEN, 1, 0, 2, 2);
    TEXT("@>");
    NEXT(0, SQLLEX_TOKEN, SQLLEX_TK_ARRAY_CONTAINS, 0, 2, 2);
    LIST(0, ROOM, SQLLEX_END, 1, 2, 0, 2);
    RECORDS(SQLLEX_TK_ARRAY_CONTAINS, 0, 2, 1, 1);
    CUT(0, SQLLEX_OPEN, 1, 0, 2, 2);
    TEXT("1e_5");
    NUMBER(0, SQLLEX_TK_FLOAT, 0, 4, 4, 2, 1);
    PART(0, 1, ROOM, SQLLEX_END, 1, 4, 0, 4, 1);
    LIST(0, ROOM, SQLLEX_END, 1, 4, 0, 4);
    RECORDS(SQLLEX_TK_FLOAT, 0, 4, 1, 1);
    CUT(0, SQLLEX_OPEN, 1, 0, 4, 4);
}

static void try_sqlite(void)
{
    TEXT(":2");
    NEXT(0, SQLLEX_TOKEN, SQLLEX_TK_VARIABLE, 0, 2, 2);
    LIST(0, ROOM, SQLLEX_END, 1, 2, 0, 2);
    RECORDS(SQLLEX_TK_VARIABLE, 0, 2, 1, 1);
    TEXT(":2(;)");
    CUT(0, SQLLEX_OPEN, 1, 0, 5, 5);
    TEXT(":");
    CUT(0, SQLLEX_UNRECOGNIZED_TOKEN, 0, 0, 1, 0);
    TEXT("[a]");
    NEXT(0, SQLLEX_TOKEN, SQLLEX_TK_ID, 0, 3, 3);
    LIST(0, ROOM, SQLLEX_END, 1, 3, 0, 3);
    RECORDS(SQLLEX_TK_ID, 0, 3, 1, 1);
    TEXT("[\n];");
    LIST(0, ROOM, SQLLEX_END, 2, 4, 0, 4);
    RECORDS(SQLLEX_TK_ID, 0, 3, 1, 1, SQLLEX_TK_SEMI, 3, 1, 2, 2);
    PART(0, 1, ROOM, SQLLEX_PAUSED, 1, 3, 0, 3, 1);
    RECORDS(SQLLEX_TK_ID, 0, 3, 1, 1);
    TEXT("[;]");
    CUT(0, SQLLEX_OPEN, 1, 0, 3, 3);
    TEXT("&&");
    NEXT(0, SQLLEX_TOKEN, SQLLEX_TK_BITAND, 0, 1, 1);
    LIST(0, ROOM, SQLLEX_END, 2, 2, 0, 2);
    RECORDS(SQLLEX_TK_BITAND, 0, 1, 1, 1, SQLLEX_TK_BITAND, 1, 1, 1, 2);
    CUT(0, SQLLEX_OPEN, 1, 0, 2, 2);
    TEXT("@>");
    NEXT(0, SQLLEX_UNRECOGNIZED_TOKEN, 0, 0, 1, 0);
    LIST(0, ROOM, SQLLEX_UNRECOGNIZED_TOKEN, 0, 0, 1, 0);
    CUT(0, SQLLEX_UNRECOGNIZED_TOKEN, 0, 0, 1, 0);
    TEXT("1e_5");
    NEXT(0, SQLLEX_BAD_EXPONENT_PART, 0, 1, 1, 0);
    LIST(0, ROOM, SQLLEX_BAD_EXPONENT_PART, 0, 1, 1, 0);
    PART(0, 1, ROOM, SQLLEX_BAD_EXPONENT_PART, 0, 1, 1, 0, 0);
    CUT(0, SQLLEX_BAD_EXPONENT_PART, 0, 1, 1, 0);
    TEXT("a [b");
    NEXT(2, SQLLEX_UNTERMINATED_LITERAL, 0, 2, 2, 2);
    LIST(0, ROOM, SQLLEX_UNTERMINATED_LITERAL, 2, 2, 2, 2);
    CUT(0, SQLLEX_UNTERMINATED_LITERAL, 0, 2, 2, 0);
}

/* The bytes of an answer or list that is lent under a number that is no profile's: other ones than a call could write by chance. */
static unsigned char lent_byte(size_t i)
{
    return (unsigned char)(i * 37 + 11);
}

static void *lend(struct room room, size_t size)
{
    unsigned char *there = place(room, size), *first = first_of(there);
    for (size_t i = 0; i < size + BESIDE; i++)
        first[i] = lent_byte(i);
    return there;
}

/* What is lent has its bytes once more; those beside it stay as they are. */
static void lend_again(void *there, size_t size)
{
    unsigned char *bytes = there;
    for (size_t i = 0; i < size; i++)
        bytes[i] = lent_byte((size_t)(bytes + i - first_of(there)));
}

static void look_at_lent(void *there, size_t size, const char *what)
{
    const unsigned char *first = first_of(there);
    for (size_t i = 0; i < size + BESIDE; i++)
        require(first[i] == lent_byte(i), what);
}

static void expect_unknown(uint32_t number, size_t offset, size_t length)
{
    size_t size = length * sizeof(uint32_t);
    sqllex_answer *answer = lend(answer_room, sizeof *answer);
    uint32_t *lent = lend(list_room, size);
    require(sqllex_next(text, text_length, offset, number, answer) == SQLLEX_UNKNOWN_PROFILE, "next under no profile");
    require(sqllex_cut(text, text_length, offset, number, answer) == SQLLEX_UNKNOWN_PROFILE, "cut under no profile");
    require(sqllex_list_from(text, text_length, offset, number, lent, length, answer) == SQLLEX_UNKNOWN_PROFILE,
            "list_from under no profile");
    require(sqllex_list(text, text_length, number, lent, length) == 0, "records under no profile");
    sqllex_slice *slice = lend(slice_room, sizeof *slice);
    for (uint32_t allowance = 0; allowance < 3; allowance++)
        require(sqllex_list_part(text, text_length, offset, number, allowance, lent, length, slice) == SQLLEX_UNKNOWN_PROFILE,
                "list_part under no profile");
    look_at_lent(slice, sizeof *slice, "a byte of a slice was written under no profile");
    look_at_lent(answer, sizeof *answer, "a byte of an answer was written under no profile");
    look_at_lent(lent, size, "a byte of a list was written under no profile");
}

/* Offsets in the text, at its end and past it; lists of no number, too short and long enough. The text cannot even be read. */
static void try_unknown(void)
{
    static const uint32_t numbers[] = {2, 3, 99, 0x80000000, 0xffffffff};
    static const size_t lengths[] = {0, 1, RECORD_WIDTH - 1, RECORD_WIDTH, RECORD_WIDTH + 1, 30};
    const size_t offsets[] = {0, 1, text_length, text_length + 1, SIZE_MAX};
    mprotect(text_room.bytes, text_room.size, PROT_NONE);
    for (size_t n = 0; n < sizeof numbers / sizeof *numbers; n++)
        for (size_t at = 0; at < sizeof offsets / sizeof *offsets; at++)
            for (size_t i = 0; i < sizeof lengths / sizeof *lengths; i++)
                expect_unknown(numbers[n], offsets[at], lengths[i]);
}

static void try_unknown_texts(void)
{
    static unsigned char bytes[SQLLEX_LONGEST_TEXT + 1];
    TEXT("");
    try_unknown();
    TEXT("SELECT 1;");
    try_unknown();
    TEXT(":2 [a] && 1e_5 @>");
    try_unknown();
    TEXT("{");
    try_unknown();
    memset(bytes, ';', sizeof bytes);
    set_text(bytes, sizeof bytes);
    try_unknown();
    text = NULL;
    text_length = 0;
    try_unknown();
}

static sqllex_given gave;

static void expect_given(int line, uint32_t got, uint32_t status, size_t value, size_t start, size_t length, size_t next, size_t taken)
{
    if (status == SQLLEX_TOKEN) /* its sums look_at_held has seen */
        gave.answer.digits = gave.answer.underscores = 0;
    expect(line, got, &gave.answer, status, value, start, length, next);
    if (gave.taken == taken)
        return;
    fprintf(stderr, "calls: line %d: %zu bytes were taken\n", line, gave.taken);
    exit(1);
}

/* The text is offered, or what was not taken of it; a finish call is made. */
#define OFFER(...) expect_given(__LINE__, call_stream(false, &gave), __VA_ARGS__)
#define FINISHES(...) expect_given(__LINE__, call_stream(true, &gave), __VA_ARGS__, 0)

static void leave_taken(void)
{
    static unsigned char rest[TEXT_MOST];
    size_t length = text_length - gave.taken;
    memcpy(rest, text + gave.taken, length);
    set_text(rest, length);
}

#define REST(...) (leave_taken(), OFFER(__VA_ARGS__))

/* Every call is refused, and changes nothing. */
static void expect_over(int line, size_t last)
{
    for (int i = 0; i < 2; i++) {
        TEXT("");
        expect_given(line, call_stream(false, &gave), SQLLEX_CLOSED, 0, last, 0, last, 0);
        TEXT("a;");
        expect_given(line, call_stream(false, &gave), SQLLEX_CLOSED, 0, last, 0, last, 0);
        expect_given(line, call_stream(true, &gave), SQLLEX_CLOSED, 0, last, 0, last, 0);
    }
}

#define OVER_AT(last) expect_over(__LINE__, last)

static void try_stream(void)
{
    begin_stream();
    FINISHES(SQLLEX_END, 0, 0, 0, 0);
    OVER_AT(0);
    begin_stream();
    TEXT("");
    OFFER(SQLLEX_MORE, 0, 0, 0, 0, 0);
    TEXT("sel");
    OFFER(SQLLEX_MORE, 0, 0, 0, 0, 3);
    TEXT("ect 1");
    OFFER(SQLLEX_TOKEN, SQLLEX_TK_SELECT, 0, 6, 6, 4);
    REST(SQLLEX_TOKEN, SQLLEX_TK_NONE, 6, 1, 7, 1);
    REST(SQLLEX_MORE, 0, 0, 0, 0, 0);
    TEXT("2_");
    OFFER(SQLLEX_MORE, 0, 0, 0, 0, 2);
    TEXT("5;--");
    OFFER(SQLLEX_TOKEN, SQLLEX_TK_INTEGER, 7, 4, 11, 2);
    REST(SQLLEX_TOKEN, SQLLEX_TK_SEMI, 11, 1, 12, 0);
    REST(SQLLEX_MORE, 0, 0, 0, 0, 2);
    FINISHES(SQLLEX_TOKEN, SQLLEX_TK_NONE, 12, 2, 14);
    OFFER(SQLLEX_CLOSED, 0, 14, 0, 14, 0);
    FINISHES(SQLLEX_END, 0, 14, 0, 14);
    OVER_AT(14);
    /* after a finish call parts are refused, and finish calls go on */
    begin_stream();
    TEXT("$a:");
    OFFER(SQLLEX_MORE, 0, 0, 0, 0, 3);
    FINISHES(SQLLEX_TOKEN, SQLLEX_TK_VARIABLE, 0, 2, 2);
    TEXT(":b");
    OFFER(SQLLEX_CLOSED, 0, 2, 0, 2, 0);
    if (profile == SQLLEX_TURSO) {
        FINISHES(SQLLEX_TOKEN, SQLLEX_TK_COLON, 2, 1, 3);
        OFFER(SQLLEX_CLOSED, 0, 3, 0, 3, 0);
        FINISHES(SQLLEX_END, 0, 3, 0, 3);
        OVER_AT(3);
    } else {
        FINISHES(SQLLEX_UNRECOGNIZED_TOKEN, 0, 2, 1, 2);
        OVER_AT(2);
    }
    /* a part may be lent by a null pointer, where it is of no bytes */
    begin_stream();
    text = NULL;
    text_length = 0;
    OFFER(SQLLEX_MORE, 0, 0, 0, 0, 0);
}

/* Each refusal of a lexeme, behind a token, in one part with bytes behind it. */
static void expect_refused(int line, const char *part, uint32_t status, size_t start, size_t length, size_t next, size_t taken)
{
    begin_stream();
    set_text(part, strlen(part));
    OFFER(SQLLEX_TOKEN, SQLLEX_TK_SEMI, 0, 1, 1, 1);
    leave_taken();
    expect_given(line, call_stream(false, &gave), status, 0, start, length, next, taken);
    expect_over(line, 1);
}

#define REFUSES(...) expect_refused(__LINE__, __VA_ARGS__)

static void try_stream_refusals(void)
{
    REFUSES(";{b c", SQLLEX_UNRECOGNIZED_TOKEN, 1, 2, 3, 3);
    REFUSES(";x'1'1", SQLLEX_UNRECOGNIZED_TOKEN, 1, 4, 1, 4);
    REFUSES(";$(a", SQLLEX_UNRECOGNIZED_TOKEN, 1, 1, 1, 2);
    REFUSES(";x'1g'", SQLLEX_UNTERMINATED_LITERAL, 1, 3, 1, 4);
    REFUSES(";12_xy", SQLLEX_BAD_NUMBER, 2, 2, 1, 4);
    REFUSES(";1.5ab", SQLLEX_BAD_FRACTIONAL_PART, 2, 2, 1, 4);
    REFUSES(";1e+ab", SQLLEX_BAD_EXPONENT_PART, 2, 2, 1, 4);
    REFUSES(";0xgg", SQLLEX_MALFORMED_HEX_INTEGER, 1, 2, 1, 3);
    REFUSES(";!aa", SQLLEX_EXPECTED_EQUALS_SIGN, 1, 1, 1, 2);
    begin_stream();
    TEXT(";'a");
    OFFER(SQLLEX_TOKEN, SQLLEX_TK_SEMI, 0, 1, 1, 1);
    REST(SQLLEX_MORE, 0, 0, 0, 0, 2);
    FINISHES(SQLLEX_UNTERMINATED_LITERAL, 0, 1, 2, 1);
    OVER_AT(1);
}

/* Many equal bytes between others. */
static void set_long(const char *head, int byte, size_t count, const char *tail)
{
    static char bytes[TEXT_MOST];
    size_t before = strlen(head), behind = strlen(tail);
    memcpy(bytes, head, before);
    memset(bytes + before, byte, count);
    memcpy(bytes + before + count, tail, behind);
    set_text(bytes, before + count + behind);
}

/* A lexeme of the most bytes that a stream takes, settled by so many bytes behind it, and one of a byte more. */
static void expect_longest(int line, const char *head, int byte, const char *tail, size_t kind, size_t behind)
{
    size_t most = SQLLEX_LONGEST_LEXEME, count = most + behind - strlen(head) - strlen(tail);
    begin_stream();
    set_long(head, byte, count, tail);
    expect_given(line, call_stream(false, &gave), SQLLEX_TOKEN, kind, 0, most, most, most + behind);
    begin_stream();
    TEXT(";");
    OFFER(SQLLEX_TOKEN, SQLLEX_TK_SEMI, 0, 1, 1, 1);
    set_long(head, byte, count + 1, tail);
    expect_given(line, call_stream(false, &gave), SQLLEX_LEXEME_TOO_LONG, 0, 1, 0, 1, most + 1);
    expect_over(line, 1);
}

#define LONGEST(...) expect_longest(__LINE__, __VA_ARGS__)

static void try_longest(void)
{
    size_t most = SQLLEX_LONGEST_LEXEME;
    LONGEST("", 'a', ";", SQLLEX_TK_ID, 1);
    LONGEST("", ' ', "a", SQLLEX_TK_NONE, 1);
    LONGEST("/*", '*', "/", SQLLEX_TK_NONE, 0);
    LONGEST("--", '-', "\n", SQLLEX_TK_NONE, 0);
    LONGEST("'", 'a', "';", SQLLEX_TK_STRING, 1);
    LONGEST("", '1', ";", SQLLEX_TK_INTEGER, 1);
    LONGEST("$", 'a', ";", SQLLEX_TK_VARIABLE, 1);
    LONGEST("$", 'a', ":;", SQLLEX_TK_VARIABLE, 2);
    /* malformed ones: it is the lexeme that counts, not the span */
    begin_stream();
    set_long("", '1', most, "a");
    OFFER(SQLLEX_LEXEME_TOO_LONG, 0, 0, 0, 0, most + 1);
    OVER_AT(0);
    begin_stream();
    set_long("", '1', most - 1, "_x");
    OFFER(SQLLEX_BAD_NUMBER, 0, 1, most - 1, 0, most + 1);
    begin_stream();
    set_long("{", 'a', most - 1, " ");
    OFFER(SQLLEX_UNRECOGNIZED_TOKEN, 0, 0, most, most, most + 1);
    begin_stream();
    set_long("{", 'a', most, " ");
    OFFER(SQLLEX_LEXEME_TOO_LONG, 0, 0, 0, 0, most + 1);
    /* byte by byte too, and no byte of a full lexeme is refused before the one that is too many */
    begin_stream();
    TEXT("a");
    for (size_t i = 0; i < most; i++)
        OFFER(SQLLEX_MORE, 0, 0, 0, 0, 1);
    sqllex_stream full = *stream;
    OFFER(SQLLEX_LEXEME_TOO_LONG, 0, 0, 0, 0, 1);
    *stream = full;
    FINISHES(SQLLEX_TOKEN, SQLLEX_TK_ID, 0, most, most);
    FINISHES(SQLLEX_END, 0, most, 0, most);
}

/* A row that is full: a lexeme of the most bytes, and two more behind it. */
static void try_full(void)
{
    size_t most = SQLLEX_LONGEST_LEXEME;
    for (int whole = 0; whole < 2; whole++) {
        begin_stream();
        if (whole) {
            set_long("$", 'a', most - 1, ":(");
            OFFER(SQLLEX_TOKEN, SQLLEX_TK_VARIABLE, 0, most, most, ROW_LENGTH);
        } else {
            set_long("$", 'a', most - 1, ":");
            OFFER(SQLLEX_MORE, 0, 0, 0, 0, ROW_LENGTH - 1);
            TEXT("(;");
            OFFER(SQLLEX_TOKEN, SQLLEX_TK_VARIABLE, 0, most, most, 1);
        }
        require(stream->held == ROW_LENGTH, "the row is not full");
        TEXT("");
        if (profile == SQLLEX_SQLITE) {
            OFFER(SQLLEX_UNRECOGNIZED_TOKEN, 0, most, 1, most, 0);
            OVER_AT(most);
            continue;
        }
        OFFER(SQLLEX_TOKEN, SQLLEX_TK_COLON, most, 1, most + 1, 0);
        OFFER(SQLLEX_TOKEN, SQLLEX_TK_LP, most + 1, 1, most + 2, 0);
        OFFER(SQLLEX_MORE, 0, 0, 0, 0, 0);
        FINISHES(SQLLEX_END, 0, most + 2, 0, most + 2);
        OVER_AT(most + 2);
    }
}

/* A stream that has taken so many bytes, and given all of them. */
static void begin_behind(uint32_t total)
{
    begin_stream();
    stream->total = total;
}

static void try_total(void)
{
    const size_t most = 4294967295;
    begin_behind(4294967295 - 3);
    TEXT(";;;;");
    OFFER(SQLLEX_TOO_LONG, 0, most - 3, 0, most - 3, 0);
    OVER_AT(most - 3);
    begin_behind(4294967295 - 3);
    TEXT(";;;");
    OFFER(SQLLEX_TOKEN, SQLLEX_TK_SEMI, most - 3, 1, most - 2, 1);
    REST(SQLLEX_TOKEN, SQLLEX_TK_SEMI, most - 2, 1, most - 1, 1);
    REST(SQLLEX_TOKEN, SQLLEX_TK_SEMI, most - 1, 1, most, 1);
    REST(SQLLEX_MORE, 0, 0, 0, 0, 0);
    sqllex_stream full = *stream;
    TEXT(";");
    OFFER(SQLLEX_TOO_LONG, 0, most, 0, most, 0);
    OVER_AT(most);
    *stream = full;
    FINISHES(SQLLEX_END, 0, most, 0, most);
    OVER_AT(most);
    /* with bytes held: of a lexeme that is not settled, and of one that is */
    begin_behind(4294967295 - 3);
    TEXT("a");
    OFFER(SQLLEX_MORE, 0, 0, 0, 0, 1);
    full = *stream;
    TEXT("bcd");
    OFFER(SQLLEX_TOO_LONG, 0, most - 3, 0, most - 3, 0);
    OVER_AT(most - 3);
    *stream = full;
    TEXT("bc");
    OFFER(SQLLEX_MORE, 0, 0, 0, 0, 2);
    FINISHES(SQLLEX_TOKEN, SQLLEX_TK_ID, most - 3, 3, most);
    FINISHES(SQLLEX_END, 0, most, 0, most);
    begin_behind(4294967295 - 3);
    TEXT("a;");
    OFFER(SQLLEX_TOKEN, SQLLEX_TK_ID, most - 3, 1, most - 2, 2);
    TEXT("++");
    OFFER(SQLLEX_TOO_LONG, 0, most - 2, 0, most - 2, 0);
    OVER_AT(most - 2);
    /* a closed stream says so, however long the part */
    begin_behind(4294967295);
    FINISHES(SQLLEX_END, 0, most, 0, most);
    OVER_AT(most);
}

/* A text in parts of one length gives what sqllex_next gives of it, up to its first refusal. */
static void expect_walk(const uint8_t *bytes, size_t length, size_t part)
{
    sqllex_answer next = {0, 0, 0, 0, 0, 0};
    uint32_t status, wanted;
    size_t at = 0;
    follow_stream();
    do {
        wanted = sqllex_next(bytes, length, next.next, profile, &next);
        do {
            bool finish = at == length;
            set_text(bytes + at, length - at < part ? length - at : part);
            status = call_sent(finish, &gave);
            at += gave.taken;
        } while (status == SQLLEX_MORE);
        require(status == wanted && memcmp(&gave.answer, &next, sizeof next) == 0, "a stream gives another answer than sqllex_next");
    } while (status == SQLLEX_TOKEN);
}

static void expect_walks(const void *bytes, size_t length)
{
    for (size_t part = 1; part <= length + 1; part++)
        expect_walk(bytes, length, part);
}

#define WALKS(literal) expect_walks(literal, sizeof literal - 1)

static void try_walks(void)
{
    WALKS("");
    WALKS("SELECT a, 'it''s', \"b\"\"c\", `d` FROM t WHERE x>=1.5e+1_0 AND y!=0x1_F || x'0F'; -- end\n/* ; */");
    WALKS("->>->-<<>><><=<==&|&||~%*,()?12 #a $a::b(c) @1;");
    WALKS("$a::b:c $a:::d :");
    WALKS("[a b];[");
    WALKS("1e_5 1e5");
    WALKS("a\0b");
    WALKS("'\0\377' x'1g'");
    WALKS("/* never closed *");
    WALKS("\"never closed");
    WALKS("1.5e-");
    WALKS(".5_");
    WALKS("0x");
    WALKS("$a(b");
    WALKS("a !");
}

/* Numbers that are no stream's, with a row and a part of which nothing can be read: nothing is written. */
static void expect_no_stream(sqllex_stream numbers, size_t part_length)
{
    static const char what[] = "something was written of what is no stream";
    sqllex_given *given = lend(given_room, sizeof *given);
    stream = lend(stream_room, sizeof *stream);
    *stream = numbers;
    row = lend(row_room, ROW_LENGTH);
    mprotect(row_room.bytes, row_room.size, PROT_NONE);
    uint32_t offered = sqllex_stream_offer(stream, row, text, part_length, given);
    uint32_t finished = sqllex_stream_finish(stream, row, given);
    mprotect(row_room.bytes, row_room.size, PROT_READ | PROT_WRITE);
    require(offered == SQLLEX_UNKNOWN_STREAM && finished == SQLLEX_UNKNOWN_STREAM, "numbers that are no stream's are taken for one");
    require(memcmp(stream, &numbers, sizeof numbers) == 0, what);
    lend_again(stream, sizeof *stream);
    look_at_lent(stream, sizeof *stream, what);
    look_at_lent(given, sizeof *given, what);
    look_at_lent(row, ROW_LENGTH, what);
}

static void try_no_profile(void)
{
    static const uint32_t numbers[] = {2, 3, 98, 99, 0x80000000, 0xffffffff};
    for (size_t i = 0; i < sizeof numbers / sizeof *numbers; i++) {
        stream = lend(stream_room, sizeof *stream);
        require(sqllex_stream_begin(numbers[i], stream) == SQLLEX_UNKNOWN_PROFILE, "a stream under no profile");
        look_at_lent(stream, sizeof *stream, "a stream was written under no profile");
    }
}

static void try_no_stream(void)
{
    static const sqllex_stream bad[] = {
        {2, 0, 2, 0, 0, 0},          {0xffffffff, 0, 2, 0, 0, 0}, {0x80000000, 0, 2, 0, 0, 0}, {0, 3, 2, 0, 0, 0},
        {1, 0xffffffff, 2, 0, 0, 0}, {0, 0x80000000, 2, 0, 0, 0}, {0, 0, 47, 0, 0, 0},         {1, 0, 0xffffffff, 0, 0, 0},
        {0, 1, 47, 0, 0, 0},         {0, 2, 47, 0, 0, 0},         {2, 2, 0, 7, 9, 100},        {2, 3, 47, 1, 2, 0xffffffff},
        {256, 0, 2, 0, 0, 0},        {0, 256, 2, 0, 0, 0},        {0, 0, 258, 0, 0, 0},        {2, 0, 2, 0xffffffff, 0xffffffff, 0},
    };
    static const size_t lengths[] = {0, 1, TEXT_MOST};
    set_long("", ';', TEXT_MOST, "");
    mprotect(text_room.bytes, text_room.size, PROT_NONE);
    for (size_t i = 0; i < sizeof bad / sizeof *bad; i++)
        for (size_t n = 0; n < sizeof lengths / sizeof *lengths; n++)
            expect_no_stream(bad[i], lengths[n]);
}

/* Numbers by rule, the same in each run. */
static uint32_t drawn = 1;

static uint32_t draw(uint32_t below)
{
    drawn ^= drawn << 13;
    drawn ^= drawn >> 17;
    drawn ^= drawn << 5;
    return drawn % below;
}

static void draw_bytes(uint8_t *bytes, size_t length)
{
    static const char common[] = "aex10_.'\"`[]$@:(?)# \n-/*!<=>|&{;\v";
    bool runs = draw(2) == 0; /* a run of one byte now and then, so that lexemes become long */
    uint8_t byte = 'a';
    for (size_t i = 0; i < length; i++) {
        if (!runs || draw(600) == 0)
            byte = draw(50) == 0 ? (uint8_t)draw(256) : (uint8_t)common[draw(sizeof common - 1)];
        bytes[i] = byte;
    }
}

/* Lists and slices of texts that are drawn, with many lines, from any offset on. */
static void try_drawn_lists(void)
{
    static uint8_t bytes[3000];
    for (int round = 0; round < 4000; round++) {
        size_t length = draw(4) == 0 ? draw(sizeof bytes) : draw(60);
        draw_bytes(bytes, length);
        for (size_t i = draw(20); i < length; i += 1 + draw(20))
            bytes[i] = '\n';
        set_text(bytes, length);
        size_t offset = draw((uint32_t)length + 2);
        try_filled_again(offset, RECORD_WIDTH + draw(ROOM));
        uint32_t status = keep_list(offset, &said);
        sqllex_answer end = said;
        try_slices(offset, 1 + draw(draw(4) == 0 ? 600 : 9), RECORD_WIDTH + draw(ROOM), status, &end);
        (void)call_part(offset, draw(30), draw(ROOM), &list, &sliced);
    }
}

static uint32_t draw_number(void)
{
    static const uint32_t edges[] = {0,     1,          2,          2047,       2048,       2049,      2050, 2051,
                                     65536, 0x7fffffff, 0x80000000, 4294964000, 4294967294, 4294967295};
    switch (draw(4)) {
    case 0:
        return draw(2060);
    case 1:
        return draw(0xffffffff);
    default:
        return edges[draw(sizeof edges / sizeof *edges)];
    }
}

/* A stream and a row that no call has left so: each call answers, inside what is lent, and the next goes on from what it left. */
static void try_state(uint32_t phase, uint32_t reading)
{
    static uint8_t bytes[3000];
    row = unset(row_room, ROW_LENGTH);
    draw_bytes(row, ROW_LENGTH);
    stream = unset(stream_room, sizeof *stream);
    *stream = (sqllex_stream){profile, phase, reading, draw_number(), draw_number(), draw_number()};
    for (uint32_t status = SQLLEX_MORE, i = 0; i < 4 && status >= SQLLEX_TOKEN; i++) {
        size_t length = draw(3) == 0 ? draw(sizeof bytes) : draw(5);
        draw_bytes(bytes, length);
        set_text(bytes, length);
        status = call_stream(draw(4) == 0, &gave);
    }
}

static void try_any_stream(void)
{
    for (int round = 0; round < 30; round++)
        for (uint32_t reading = 0; reading < 47; reading++)
            for (uint32_t phase = TAKING; phase <= OVER; phase++)
                try_state(phase, reading);
}

/*
 * Literals. The value, and the number of bytes of a result, lie in rooms of their own, and are set before a call to what no call would
 * write by chance: with any status but SQLLEX_DONE they must be so afterwards.
 */
#define BUFFER_MOST 262144u
static struct room value_room, count_room, buffer_room;
static uint8_t *buffer;
static size_t buffer_length;

typedef uint32_t read_function(const uint8_t *text, size_t text_length, size_t start, size_t length, uint32_t profile, uint8_t *buffer,
                               size_t buffer_length, size_t *bytes);
typedef uint32_t write_function(const uint8_t *value, size_t value_length, uint8_t *buffer, size_t buffer_length, size_t *bytes);

static uint32_t call_read_integer(size_t start, size_t length, int64_t *said)
{
    int64_t *value = lend(value_room, sizeof *value);
    uint32_t status = sqllex_read_integer(text, text_length, start, length, profile, value);
    if (status == SQLLEX_DONE) {
        *said = *value;
        lend_again(value, sizeof *value);
    }
    look_at_lent(value, sizeof *value, "a value was written that was not read, or a byte beside it");
    require(status == SQLLEX_DONE || status == SQLLEX_NOT_THAT_LITERAL || status == SQLLEX_OUT_OF_RANGE, "no status of an integer");
    return status;
}

static uint32_t counted(uint32_t status, size_t *count, size_t *bytes)
{
    if (status == SQLLEX_DONE) {
        *bytes = *count;
        require(*bytes <= buffer_length, "more bytes than the buffer has");
        lend_again(count, sizeof *count);
    }
    look_at_lent(count, sizeof *count, "a count was written of what is refused, or a byte beside it");
    return status;
}

/* A span of the text is read into the buffer, which has been set. */
static uint32_t call_read(read_function *read, size_t start, size_t length, size_t *bytes)
{
    size_t *count = lend(count_room, sizeof *count);
    uint32_t status = counted(read(text, text_length, start, length, profile, buffer, buffer_length, count), count, bytes);
    require(status == SQLLEX_DONE || status == SQLLEX_NOT_THAT_LITERAL || status == SQLLEX_NO_ROOM, "no status of a read");
    return status;
}

/* The literal of the text's bytes. */
static uint32_t call_write(write_function *write, size_t *bytes)
{
    size_t *count = lend(count_room, sizeof *count);
    uint32_t status = counted(write(text, text_length, buffer, buffer_length, count), count, bytes);
    require(status == SQLLEX_DONE || status == SQLLEX_NO_ROOM, "no status of a write");
    return status;
}

static uint32_t call_write_integer(int64_t value, size_t *bytes)
{
    size_t *count = lend(count_room, sizeof *count);
    uint32_t status = counted(sqllex_write_integer(value, buffer, buffer_length, count), count, bytes);
    require(status == SQLLEX_DONE || status == SQLLEX_NO_ROOM, "no status of a write");
    return status;
}

/* The buffer that is printed, each byte set to the same. */
static void unset_buffer(size_t length)
{
    require(length <= BUFFER_MOST, "a bad record");
    buffer = unset(buffer_room, length);
    buffer_length = length;
}

static void print_buffer(const char *title, uint32_t status, size_t bytes)
{
    look_beside(buffer, buffer_length, "a byte beside the buffer was written");
    if (status == SQLLEX_DONE)
        printf("%s\t%zu\t", title, bytes);
    else
        printf("%s\t%s\t", title, refusal_names[status]);
    for (size_t i = 0; i < buffer_length; i++)
        printf("%02X", buffer[i]);
    printf("%s\n", buffer_length == 0 ? "-" : "");
}

static void print_read(const char *title, read_function *read, size_t start, size_t length, size_t room)
{
    size_t bytes = 0;
    unset_buffer(room);
    uint32_t status = call_read(read, start, length, &bytes);
    print_buffer(title, status, bytes);
}

static void print_written(const char *title, write_function *write, size_t room)
{
    size_t bytes = 0;
    unset_buffer(room);
    uint32_t status = call_write(write, &bytes);
    print_buffer(title, status, bytes);
}

/* `count` bytes, lowest first. */
static uint64_t number_at(const uint8_t *bytes, int count)
{
    uint64_t number = 0;
    while (count-- > 0)
        number = number * 256 + bytes[count];
    return number;
}

/* The span's length and the buffer's, 4 bytes each, and the text that the span is of. */
static void print_literal(size_t start)
{
    static uint8_t record[TEXT_MOST];
    size_t size = text_length;
    int64_t value = 0;
    require(size >= 8, "a bad record");
    memcpy(record, text, size);
    size_t length = number_at(record, 4), room = number_at(record + 4, 4);
    set_text(record + 8, size - 8);
    uint32_t status = call_read_integer(start, length, &value);
    if (status == SQLLEX_DONE)
        printf("INTEGER\t%lld\n", (long long)value);
    else
        printf("INTEGER\t%s\n", refusal_names[status]);
    print_read("STRING", sqllex_read_string, start, length, room);
    print_read("NAME", sqllex_read_name, start, length, room);
    print_read("BLOB", sqllex_read_blob, start, length, room);
    printf("\n");
}

static int64_t signed_number(uint64_t bits)
{
    return bits <= INT64_MAX ? (int64_t)bits : -1 - (int64_t)(UINT64_MAX - bits);
}

static void print_write(size_t room)
{
    size_t bytes = 0;
    print_written("STRING", sqllex_write_string, room);
    print_written("NAME", sqllex_write_name, room);
    print_written("BLOB", sqllex_write_blob, room);
    unset_buffer(room);
    uint32_t status = call_write_integer(text_length < 8 ? 0 : signed_number(number_at(text, 8)), &bytes);
    print_buffer("INTEGER", status, bytes);
    printf("\n");
}

/* A buffer of `edges`: what a call leaves of it must be as it was lent, all of it where the call is refused. */
static void lend_buffer(size_t length)
{
    buffer = lend(buffer_room, length);
    buffer_length = length;
}

static uint8_t result[BUFFER_MOST];

static void take_result(uint32_t status, size_t bytes)
{
    if (status == SQLLEX_DONE) {
        memcpy(result, buffer, bytes);
        lend_again(buffer, bytes);
    }
    look_at_lent(buffer, buffer_length, "a byte of a buffer was written that is none of the result");
}

/* A result that must be these bytes, for a buffer of each length that makes a difference; it is told by `call`. */
static void expect_result(int line, uint32_t (*call)(void *with, size_t *bytes), void *with, const void *wanted, size_t length)
{
    size_t lengths[] = {length, length + 1, length + 40, length > 0 ? length - 1 : 0, length / 2, 0};
    for (size_t i = 0; i < sizeof lengths / sizeof *lengths; i++) {
        size_t bytes = 0;
        lend_buffer(lengths[i]);
        uint32_t status = call(with, &bytes);
        take_result(status, bytes);
        if (length > lengths[i] ? status == SQLLEX_NO_ROOM
                                : status == SQLLEX_DONE && bytes == length && memcmp(result, wanted, length) == 0)
            continue;
        fprintf(stderr, "calls: line %d: the status is %u, the bytes are %zu, into %zu\n", line, (unsigned)status, bytes, lengths[i]);
        exit(1);
    }
    /* no buffer, by a null pointer */
    size_t bytes = 0;
    buffer = NULL;
    buffer_length = 0;
    require(call(with, &bytes) == (length > 0 ? SQLLEX_NO_ROOM : SQLLEX_DONE) && bytes == 0, "a result in no buffer");
}

/* A span to be read. */
struct span {
    read_function *read;
    size_t start, length;
};

static uint32_t read_span(void *with, size_t *bytes)
{
    const struct span *span = with;
    return call_read(span->read, span->start, span->length, bytes);
}

static void expect_bytes(int line, read_function *read, size_t start, size_t length, const void *wanted, size_t wanted_length)
{
    struct span span = {read, start, length};
    expect_result(line, read_span, &span, wanted, wanted_length);
}

static void expect_none(int line, read_function *read, size_t start, size_t length)
{
    static const size_t lengths[] = {0, 1, 5, 100};
    for (size_t i = 0; i < sizeof lengths / sizeof *lengths; i++) {
        size_t bytes = 0;
        lend_buffer(lengths[i]);
        uint32_t status = call_read(read, start, length, &bytes);
        take_result(status, bytes);
        if (status == SQLLEX_NOT_THAT_LITERAL)
            continue;
        fprintf(stderr, "calls: line %d: the status is %u, and not that of no such literal\n", line, (unsigned)status);
        exit(1);
    }
}

static void expect_integer(int line, size_t start, size_t length, uint32_t status, int64_t wanted)
{
    int64_t value = 0;
    uint32_t got = call_read_integer(start, length, &value);
    if (got == status && value == (status == SQLLEX_DONE ? wanted : 0))
        return;
    fprintf(stderr, "calls: line %d: the status is %u, the value %lld\n", line, (unsigned)got, (long long)value);
    exit(1);
}

/* A literal by itself, and between other tokens. */
static void set_between(const char *literal, size_t length)
{
    static char bytes[TEXT_MOST];
    bytes[0] = '(';
    memcpy(bytes + 1, literal, length);
    memcpy(bytes + 1 + length, ");", 2);
    set_text(bytes, length + 3);
}

static void expect_whole_integer(int line, const char *literal, uint32_t status, int64_t wanted)
{
    size_t length = strlen(literal);
    set_text(literal, length);
    expect_integer(line, 0, length, status, wanted);
    set_between(literal, length);
    expect_integer(line, 1, length, status, wanted);
    expect_integer(line, 0, length + 1, SQLLEX_NOT_THAT_LITERAL, 0);
    expect_integer(line, 1, length + 1, SQLLEX_NOT_THAT_LITERAL, 0);
    expect_integer(line, 1, length - 1, SQLLEX_NOT_THAT_LITERAL, 0);
    expect_none(line, sqllex_read_string, 1, length);
    expect_none(line, sqllex_read_name, 1, length);
    expect_none(line, sqllex_read_blob, 1, length);
}

#define INTEGER(literal, value) expect_whole_integer(__LINE__, literal, SQLLEX_DONE, value)
#define OUT_OF_RANGE(literal) expect_whole_integer(__LINE__, literal, SQLLEX_OUT_OF_RANGE, 0)
#define NO_INTEGER(literal) (TEXT(literal), expect_integer(__LINE__, 0, text_length, SQLLEX_NOT_THAT_LITERAL, 0))

static void try_integers(void)
{
    INTEGER("0", 0);
    INTEGER("7", 7);
    INTEGER("1_000", 1000);
    INTEGER("999999999999999999", 999999999999999999); /* 18 digits */
    INTEGER("1000000000000000000", 1000000000000000000);
    INTEGER("9223372036854775807", INT64_MAX);
    INTEGER("9_223_372_036_854_775_807", INT64_MAX);
    OUT_OF_RANGE("9223372036854775808");
    OUT_OF_RANGE("9_223372036854775_808");
    OUT_OF_RANGE("9223372036854775810");
    OUT_OF_RANGE("9999999999999999999");
    OUT_OF_RANGE("10000000000000000000"); /* 20 digits */
    OUT_OF_RANGE("18446744073709551615");
    OUT_OF_RANGE("18446744073709551616");
    OUT_OF_RANGE("92233720368547758070");
    INTEGER("0000000000000000000", 0);
    INTEGER("00000000000000000000009", 9);
    INTEGER("09223372036854775807", INT64_MAX);
    OUT_OF_RANGE("09223372036854775808");
    INTEGER("0x0", 0);
    INTEGER("0x10", 16);
    INTEGER("0Xa_B", 171);
    INTEGER("0x7FFFFFFFFFFFFFFF", INT64_MAX); /* 16 digits */
    INTEGER("0x8000000000000000", INT64_MIN);
    INTEGER("0xFFFFFFFFFFFFFFFF", -1);
    INTEGER("0xffff_ffff_ffff_fffe", -2);
    OUT_OF_RANGE("0x10000000000000000"); /* 17 digits */
    OUT_OF_RANGE("0x1FFFFFFFFFFFFFFFF");
    OUT_OF_RANGE("0x1_0000_0000_0000_0000");
    INTEGER("0x00000000000000001", 1);
    INTEGER("0x0FFFFFFFFFFFFFFFF", -1);
    INTEGER("0X0000000000000000000000008000000000000000", INT64_MIN);
    NO_INTEGER("");
    NO_INTEGER("1.5");
    NO_INTEGER("1.");
    NO_INTEGER("1e5");
    NO_INTEGER("-5");
    NO_INTEGER(" 5");
    NO_INTEGER("5 ");
    NO_INTEGER("a");
    NO_INTEGER("'1'");
    NO_INTEGER("x'31'");
    NO_INTEGER("?1");
    NO_INTEGER("12a");
    NO_INTEGER("1_");
    NO_INTEGER("0x");
    NO_INTEGER("0x_1");
    NO_INTEGER("{");
    TEXT("1.5");
    expect_integer(__LINE__, 0, 1, SQLLEX_NOT_THAT_LITERAL, 0);
}

/* What sqllex_next gives inside a token is read too; of any other span nothing is, also where it ends past the text, or its end wraps. */
static void try_spans(void)
{
    static const size_t no_spans[][2] = {
        {0, 0}, {0, 1}, {0, 3}, {1, 0}, {1, 1}, {1, 3}, {2, 0}, {2, 2}, {3, 0}, {3, 1}, {4, 0}, {4, 1}, {5, 0}, {5, 1},
        {SIZE_MAX, 0}, {SIZE_MAX, 1}, {SIZE_MAX, 2}, {SIZE_MAX, 3}, {SIZE_MAX, SIZE_MAX}, {SIZE_MAX - 1, 3}, {SIZE_MAX - 1, 4},
        {1, SIZE_MAX}, {1, SIZE_MAX - 1}, {2, SIZE_MAX}, {3, SIZE_MAX}, {4, SIZE_MAX}, {5, SIZE_MAX}, {0, SIZE_MAX}, {0, SIZE_MAX - 1},
        {SIZE_MAX / 2 + 2, SIZE_MAX / 2 + 2}, {1, SIZE_MAX / 2 + 1},
    };
    TEXT("(12)");
    expect_integer(__LINE__, 1, 2, SQLLEX_DONE, 12);
    expect_integer(__LINE__, 2, 1, SQLLEX_DONE, 2);
    for (size_t i = 0; i < sizeof no_spans / sizeof *no_spans; i++) {
        size_t start = no_spans[i][0], length = no_spans[i][1];
        TEXT("(12)");
        expect_integer(__LINE__, start, length, SQLLEX_NOT_THAT_LITERAL, 0);
        TEXT("(x'')");
        if (start != 1 || length != 3)
            expect_none(__LINE__, sqllex_read_blob, start, length);
        TEXT("('')");
        expect_none(__LINE__, sqllex_read_string, start, length);
        TEXT("(\"\")");
        expect_none(__LINE__, sqllex_read_name, start, length);
    }
    text = NULL;
    text_length = 0;
    for (size_t i = 0; i < sizeof no_spans / sizeof *no_spans; i++) {
        expect_integer(__LINE__, no_spans[i][0], no_spans[i][1], SQLLEX_NOT_THAT_LITERAL, 0);
        expect_none(__LINE__, sqllex_read_string, no_spans[i][0], no_spans[i][1]);
    }
}

/* The bytes of a literal, by the one call that reads it. */
static void expect_whole(int line, read_function *read, const char *literal, size_t length, const void *wanted, size_t wanted_length)
{
    set_text(literal, length);
    expect_bytes(line, read, 0, length, wanted, wanted_length);
    set_between(literal, length);
    expect_bytes(line, read, 1, length, wanted, wanted_length);
    expect_none(line, read, 1, length - 1);
    expect_none(line, read, 1, length + 1);
    expect_none(line, read, 0, length);
    expect_none(line, read, 0, length + 1);
    expect_integer(line, 1, length, SQLLEX_NOT_THAT_LITERAL, 0);
    if (read != sqllex_read_string)
        expect_none(line, sqllex_read_string, 1, length);
    if (read != sqllex_read_name)
        expect_none(line, sqllex_read_name, 1, length);
    if (read != sqllex_read_blob)
        expect_none(line, sqllex_read_blob, 1, length);
}

#define READS(call, literal, bytes) expect_whole(__LINE__, call, literal, sizeof literal - 1, bytes, sizeof bytes - 1)
#define STRING(...) READS(sqllex_read_string, __VA_ARGS__)
#define QUOTED(...) READS(sqllex_read_name, __VA_ARGS__)
#define BLOB(...) READS(sqllex_read_blob, __VA_ARGS__)
#define NONE(call, literal) (TEXT(literal), expect_none(__LINE__, call, 0, text_length))

static void try_bytes(void)
{
    STRING("''", "");
    STRING("'a'", "a");
    STRING("'it''s'", "it's");
    STRING("''''", "'");
    STRING("''''''", "''");
    STRING("'\"\"``'", "\"\"``");
    STRING("'\0\377\n'", "\0\377\n");
    QUOTED("\"\"", "");
    QUOTED("\"a\"\"b\"", "a\"b");
    QUOTED("`a``b\"\"''c`", "a`b\"\"''c");
    QUOTED("\"select\"", "select");
    BLOB("x''", "");
    BLOB("X'00'", "\0");
    BLOB("x'0aF9'", "\012\371");
    BLOB("x'27fFFf'", "'\377\377");
    NONE(sqllex_read_string, "");
    NONE(sqllex_read_string, "'a");
    NONE(sqllex_read_string, "'a' ");
    NONE(sqllex_read_string, "'a''");
    NONE(sqllex_read_string, "a");
    TEXT("'a''b'");
    expect_none(__LINE__, sqllex_read_string, 0, 3);
    expect_none(__LINE__, sqllex_read_string, 1, 1);
    expect_none(__LINE__, sqllex_read_string, 0, 7);
    expect_bytes(__LINE__, sqllex_read_string, 3, 3, "b", 1); /* what sqllex_next gives there */
    /* a bare word is no quoted name, whatever it begins with */
    NONE(sqllex_read_name, "a");
    NONE(sqllex_read_name, "a1");
    NONE(sqllex_read_name, "_");
    NONE(sqllex_read_name, "\302\261");
    NONE(sqllex_read_name, "select");
    NONE(sqllex_read_name, "\"a");
    NONE(sqllex_read_name, "a\"b\"");
    NONE(sqllex_read_name, "$a");
    NONE(sqllex_read_blob, "x'1'");
    NONE(sqllex_read_blob, "x'1g'");
    NONE(sqllex_read_blob, "x'12");
    NONE(sqllex_read_blob, "'12'");
    NONE(sqllex_read_blob, "x");
}

/* A name in brackets, which one profile has alone. */
static void try_brackets(void)
{
    if (profile == SQLLEX_TURSO) {
        NONE(sqllex_read_name, "[a]");
        NONE(sqllex_read_name, "[]");
        return;
    }
    QUOTED("[]", "");
    QUOTED("[a]", "a");
    QUOTED("[a[[b\"\"``'']", "a[[b\"\"``''");
    NONE(sqllex_read_name, "[a");
    NONE(sqllex_read_name, "[a]]");
}

/* Literals as long as a text is here: what is read is counted where the buffer might be too short. */
static void try_long_bytes(void)
{
    static char quotes[30000], bytes[TEXT_MOST];
    memset(quotes, '\'', sizeof quotes);
    set_long("'", '\'', 2 * sizeof quotes, "'");
    expect_bytes(__LINE__, sqllex_read_string, 0, text_length, quotes, sizeof quotes);
    memset(bytes, 'a', sizeof bytes);
    set_long("(\"", 'a', 60000, "\")");
    expect_bytes(__LINE__, sqllex_read_name, 1, text_length - 2, bytes, 60000);
    memset(bytes, 0xaa, sizeof bytes);
    set_long("x'", 'A', 60000, "'");
    expect_bytes(__LINE__, sqllex_read_blob, 0, text_length, bytes, 30000);
    set_long("x'", 'A', 60001, "'");
    expect_none(__LINE__, sqllex_read_blob, 0, text_length);
    set_long("0x", '0', 60000, "fF");
    expect_integer(__LINE__, 0, text_length, SQLLEX_DONE, 255);
    set_long("", '0', 60000, "9223372036854775808");
    expect_integer(__LINE__, 0, text_length, SQLLEX_OUT_OF_RANGE, 0);
    set_long("", '9', 60000, "");
    expect_integer(__LINE__, 0, text_length, SQLLEX_OUT_OF_RANGE, 0);
}

/* The kinds of literals that are bytes, by the calls that read and write them. */
enum { STRINGS, NAMES, BLOBS, KINDS_OF_BYTES };
static const struct kind_of_bytes {
    read_function *read;
    write_function *write;
} kinds_of_bytes[] = {
    {sqllex_read_string, sqllex_write_string},
    {sqllex_read_name, sqllex_write_name},
    {sqllex_read_blob, sqllex_write_blob},
};

static uint32_t write_text(void *with, size_t *bytes)
{
    const struct kind_of_bytes *kind = with;
    return call_write(kind->write, bytes);
}

static uint32_t write_value(void *with, size_t *bytes)
{
    const int64_t *value = with;
    return call_write_integer(*value, bytes);
}

/* Bytes are written as that literal, and it is read back to them. */
static void expect_written(int line, size_t kind, const void *bytes, size_t length, const void *literal, size_t literal_length)
{
    struct kind_of_bytes calls = kinds_of_bytes[kind];
    set_text(bytes, length);
    expect_result(line, write_text, &calls, literal, literal_length);
    expect_whole(line, calls.read, literal, literal_length, bytes, length);
}

static void expect_written_integer(int line, int64_t value, const char *literal)
{
    expect_result(line, write_value, &value, literal, strlen(literal));
    expect_whole_integer(line, literal, SQLLEX_DONE, value);
}

#define WRITES(kind, bytes, literal) expect_written(__LINE__, kind, bytes, sizeof bytes - 1, literal, sizeof literal - 1)
#define WRITES_INTEGER(...) expect_written_integer(__LINE__, __VA_ARGS__)

static void try_writes(void)
{
    WRITES(STRINGS, "", "''");
    WRITES(STRINGS, "it's", "'it''s'");
    WRITES(STRINGS, "'", "''''");
    WRITES(STRINGS, "a\"`\0\377", "'a\"`\0\377'");
    WRITES(NAMES, "", "\"\"");
    WRITES(NAMES, "a\"b'c", "\"a\"\"b'c\"");
    WRITES(NAMES, "[a]", "\"[a]\"");
    WRITES(NAMES, "select", "\"select\"");
    WRITES(BLOBS, "", "x''");
    WRITES(BLOBS, "\0", "x'00'");
    WRITES(BLOBS, "\012\371", "x'0AF9'");
    WRITES(BLOBS, "'\200\377", "x'2780FF'");
    WRITES_INTEGER(0, "0");
    WRITES_INTEGER(9, "9");
    WRITES_INTEGER(10, "10");
    WRITES_INTEGER(99, "99");
    WRITES_INTEGER(100, "100");
    WRITES_INTEGER(4294967296, "4294967296");
    WRITES_INTEGER(999999999999999999, "999999999999999999");
    WRITES_INTEGER(1000000000000000000, "1000000000000000000");
    WRITES_INTEGER(INT64_MAX, "9223372036854775807");
    WRITES_INTEGER(-1, "0xFFFFFFFFFFFFFFFF");
    WRITES_INTEGER(-171, "0xFFFFFFFFFFFFFF55");
    WRITES_INTEGER(INT64_MIN, "0x8000000000000000");
    /* bytes by a null pointer, where there are none */
    text = NULL;
    text_length = 0;
    for (size_t kind = STRINGS; kind < KINDS_OF_BYTES; kind++) {
        static const char *const literals[] = {"''", "\"\"", "x''"};
        struct kind_of_bytes calls = kinds_of_bytes[kind];
        expect_result(__LINE__, write_text, &calls, literals[kind], strlen(literals[kind]));
    }
}

/* Reads back what it writes of bytes by rule. */
static void expect_back(size_t kind, const uint8_t *bytes, size_t length)
{
    struct kind_of_bytes calls = kinds_of_bytes[kind];
    size_t written = 0;
    static uint8_t literal[BUFFER_MOST];
    set_text(bytes, length);
    lend_buffer(2 * length + 3);
    uint32_t status = call_write(calls.write, &written);
    take_result(status, written);
    require(status == SQLLEX_DONE, "no room for a literal");
    memcpy(literal, result, written);
    set_text(literal, written);
    expect_bytes(__LINE__, calls.read, 0, written, bytes, length);
}

static void expect_integer_back(int64_t value)
{
    size_t written = 0;
    lend_buffer(19);
    uint32_t status = call_write_integer(value, &written);
    take_result(status, written);
    require(status == SQLLEX_DONE, "no room for an integer");
    set_text(result, written);
    expect_integer(__LINE__, 0, written, SQLLEX_DONE, value);
}

static void try_back(void)
{
    static uint8_t bytes[300];
    for (int round = 0; round < 600; round++) {
        size_t length = draw(round % 4 == 0 ? sizeof bytes : 6);
        draw_bytes(bytes, length);
        expect_back((size_t)round % KINDS_OF_BYTES, bytes, length);
    }
    for (int round = 0; round < 3000; round++) {
        uint64_t bits = ((uint64_t)draw(0xffffffff) << 32 | draw(0xffffffff)) >> draw(64);
        expect_integer_back(signed_number(bits));
        expect_integer_back(-1 - signed_number(bits >> 1));
    }
    for (int64_t power = 10; power < INT64_MAX / 10; power *= 10) {
        expect_integer_back(power - 1);
        expect_integer_back(power);
        expect_integer_back(power + 1);
    }
}

/* Under no profile nothing is read, not even the text, and nothing written. */
static void expect_unread(uint32_t number, size_t start, size_t length)
{
    int64_t *value = lend(value_room, sizeof *value);
    size_t *count = lend(count_room, sizeof *count);
    require(sqllex_read_integer(text, text_length, start, length, number, value) == SQLLEX_UNKNOWN_PROFILE, "an integer under no profile");
    look_at_lent(value, sizeof *value, "a value was written under no profile");
    for (size_t kind = STRINGS; kind < KINDS_OF_BYTES; kind++)
        for (size_t room = 0; room < 20; room += 9) {
            lend_buffer(room);
            require(kinds_of_bytes[kind].read(text, text_length, start, length, number, buffer, room, count) == SQLLEX_UNKNOWN_PROFILE,
                    "bytes under no profile");
            look_at_lent(buffer, room, "a byte of a buffer was written under no profile");
        }
    look_at_lent(count, sizeof *count, "a count was written under no profile");
}

static void try_unread(void)
{
    static const uint32_t numbers[] = {2, 3, 98, 99, 0x80000000, 0xffffffff};
    TEXT("'a' x'00' \"b\" 12");
    mprotect(text_room.bytes, text_room.size, PROT_NONE);
    for (size_t i = 0; i < sizeof numbers / sizeof *numbers; i++) {
        expect_unread(numbers[i], 0, 3);
        expect_unread(numbers[i], 4, 5);
        expect_unread(numbers[i], 10, 3);
        expect_unread(numbers[i], 14, 2);
        expect_unread(numbers[i], SIZE_MAX, SIZE_MAX);
    }
}

/* The token of the last call, read from the row's front and from the bytes sent: by each call the same. */
static void expect_same(const sqllex_answer *token)
{
    static uint8_t row_bytes[ROW_LENGTH];
    int64_t in_row = 0, in_text = 0;
    set_text(sent, sent_length);
    uint32_t status = call_read_integer(token->start, token->length, &in_text);
    set_text(row, token->length);
    require(call_read_integer(0, token->length, &in_row) == status && in_row == in_text, "another value in the row");
    for (size_t kind = STRINGS; kind < KINDS_OF_BYTES; kind++) {
        size_t bytes = 0, again = 0;
        set_text(row, token->length);
        lend_buffer(sizeof row_bytes);
        status = call_read(kinds_of_bytes[kind].read, 0, token->length, &bytes);
        take_result(status, bytes);
        memcpy(row_bytes, result, bytes);
        set_text(sent, sent_length);
        lend_buffer(sizeof row_bytes);
        require(call_read(kinds_of_bytes[kind].read, token->start, token->length, &again) == status, "another status in the row");
        take_result(status, again);
        require(bytes == again && memcmp(row_bytes, result, bytes) == 0, "other bytes in the row");
    }
}

/* The tokens of a text in parts of one length, each read; blanks, words and operators are no literals, wherever they are read. */
static void read_parts(const uint8_t *bytes, size_t length, size_t part)
{
    size_t at = 0;
    uint32_t status;
    follow_stream();
    do {
        bool finish = at == length;
        set_text(bytes + at, length - at < part ? length - at : part);
        status = call_sent(finish, &gave);
        at += gave.taken;
        if (status == SQLLEX_TOKEN)
            expect_same(&gave.answer);
    } while (status == SQLLEX_TOKEN || status == SQLLEX_MORE);
    require(status == SQLLEX_END, "a text of literals is refused");
}

static void try_rows(void)
{
    static const char settings[] = "INSERT INTO s VALUES('it''s',0x1_F,x'0AFF',\"a\"\"b\",`c`,-9_9,1.5,$a::b(c),99999999999999999999);";
    for (size_t part = 1; part < sizeof settings; part++)
        read_parts((const uint8_t *)settings, sizeof settings - 1, part);
    /* byte by byte, a number that is settled by what follows it */
    begin_stream();
    TEXT("1");
    OFFER(SQLLEX_MORE, 0, 0, 0, 0, 1);
    TEXT("_");
    OFFER(SQLLEX_MORE, 0, 0, 0, 0, 1);
    TEXT("2");
    OFFER(SQLLEX_MORE, 0, 0, 0, 0, 1);
    TEXT(")");
    OFFER(SQLLEX_TOKEN, SQLLEX_TK_INTEGER, 0, 3, 3, 1);
    int64_t value = 0;
    require(sqllex_read_integer(row, gave.answer.length, 0, gave.answer.length, profile, &value) == SQLLEX_DONE && value == 12,
            "another number than came byte by byte");
    require(sqllex_read_integer(row, stream->held, 0, gave.answer.length, profile, &value) == SQLLEX_DONE && value == 12,
            "another number with what is held behind it");
}

static void try_literals(void)
{
    try_integers();
    try_spans();
    try_bytes();
    try_brackets();
    try_long_bytes();
    try_writes();
    try_back();
    try_rows();
}

/*
 * Lists made elsewhere, to be checked. They are lent where nothing can be written, and the index is set before a call to what no call would
 * write by chance: under no profile it must be so afterwards.
 */
#define MADE_MOST (SQLLEX_LONGEST_TEXT + 16u)
static struct room records_room, index_room;
static const sqllex_record *records;
static size_t records_count;

static void set_records(const sqllex_record *from, size_t count)
{
    records = put(records_room, from, count * sizeof *from);
    records_count = count;
}

static uint32_t call_check(uint32_t number, size_t *index)
{
    size_t *there = lend(index_room, sizeof *there);
    uint32_t status = sqllex_check_list(text, text_length, number, records, records_count, there);
    *index = *there;
    if (status != SQLLEX_UNKNOWN_PROFILE)
        lend_again(there, sizeof *there);
    look_at_lent(there, sizeof *there, "a byte beside the index was written, or the index under no profile");
    return status;
}

static void expect_check(int line, uint32_t status, size_t index)
{
    size_t got_index;
    uint32_t got = call_check(profile, &got_index);
    if (got == status && got_index == index)
        return;
    fprintf(stderr, "calls: line %d: of %zu records the status is %u, the index %zu, not %u and %zu\n", line, records_count, (unsigned)got,
            got_index, (unsigned)status, index);
    exit(1);
}

/* The text's own list by sqllex_list_from, the status with which it ends, and a list that is made of it. */
static sqllex_record own[SQLLEX_LONGEST_TEXT], made[MADE_MOST];
static size_t own_count;
static uint32_t own_status;

static void own_list(void)
{
    own_status = call_list(0, text_length * RECORD_WIDTH, &list, &said);
    own_count = said.value;
    memcpy(own, list, own_count * sizeof *own);
}

/* The text's own list is accepted, or all its records agree up to a refused lexeme. */
static void expect_own(int line)
{
    bool right = own_status == SQLLEX_END;
    set_records(own, own_count);
    expect_check(line, right ? SQLLEX_ACCEPTED : SQLLEX_LIST_DIFFERS, right ? 0 : own_count);
}

/* The first so many records of the text's own, and behind them its records from another on; how many that makes. */
static size_t make_list(size_t first, size_t from)
{
    memcpy(made, own, first * sizeof *made);
    memcpy(made + first, own + from, (own_count - from) * sizeof *made);
    return first + own_count - from;
}

static void expect_parts(int line, size_t count, size_t index)
{
    set_records(made, count);
    expect_check(line, SQLLEX_LIST_DIFFERS, index);
}

#define PARTS(count, index) expect_parts(__LINE__, count, index)

static uint32_t *number_in(sqllex_record *record, size_t field)
{
    uint32_t *const numbers[RECORD_WIDTH] = {&record->kind, &record->start, &record->length, &record->line, &record->column};
    return numbers[field];
}

/* One number is another: by one, by a bit that no narrower number has or with which a sum wraps, by all of them; 0, and all ones. */
static void try_damaged_numbers(void)
{
    for (size_t i = 0; i < own_count; i++)
        for (size_t field = 0; field < RECORD_WIDTH; field++) {
            uint32_t right = *number_in(own + i, field);
            const uint32_t wrong[] = {right + 1,     right - 1,       0,                  UINT32_MAX, right ^ 2,
                                      right ^ 0x100, right ^ 0x10000, right ^ 0x80000000, ~right,     (uint32_t)text_length};
            for (size_t n = 0; n < sizeof wrong / sizeof *wrong; n++)
                if (wrong[n] != right) {
                    size_t count = make_list(0, 0);
                    *number_in(made + i, field) = wrong[n];
                    PARTS(count, i);
                }
        }
}

/* Two numbers of a record that have the sum they had, by 32 bits at least; and a number of all records from one on. */
static void try_damaged_sums(size_t i, uint32_t step)
{
    for (size_t field = 0; field < RECORD_WIDTH; field++)
        for (size_t other = 0; other < RECORD_WIDTH; other++) {
            size_t count = make_list(0, 0);
            if (other != field) {
                *number_in(made + i, field) += step;
                *number_in(made + i, other) -= step;
            }
            for (size_t behind = i; other == field && behind < count; behind++)
                *number_in(made + behind, field) += step;
            PARTS(count, i);
        }
}

/* A list that ends early, lacks some records or has one twice, or in which two have changed places. */
static void try_damaged_order(size_t i)
{
    set_records(own, i);
    expect_check(__LINE__, SQLLEX_LIST_DIFFERS, i);
    PARTS(make_list(i + 1, i), i + 1);
    PARTS(make_list(i, i + 1), i);
    for (size_t other = i + 1; other < own_count; other++) {
        PARTS(make_list(i, other), i);
        size_t count = make_list(0, 0);
        made[i] = own[other];
        made[other] = own[i];
        PARTS(count, i);
    }
}

/* Records behind the last, one or two: such as might follow it, and others. */
static void try_surplus(void)
{
    static const sqllex_record blank = {SQLLEX_TK_NONE, 0, 0, 1, 1};
    const sqllex_record first = own_count > 0 ? own[0] : blank, last = own_count > 0 ? own[own_count - 1] : blank;
    const uint32_t end = last.start + last.length, column = last.column + last.length;
    const sqllex_record more[] = {{0, 0, 0, 0, 0},
                                  {SQLLEX_TK_NONE, end, 0, last.line, column},
                                  {SQLLEX_TK_NONE, end, 1, last.line, column},
                                  {SQLLEX_TK_ILLEGAL, end, (uint32_t)text_length - end, last.line, column},
                                  {UINT32_MAX, UINT32_MAX, UINT32_MAX, UINT32_MAX, UINT32_MAX},
                                  first,
                                  last};
    for (size_t n = 0; n < sizeof more / sizeof *more; n++) {
        size_t count = make_list(0, 0);
        made[count] = made[count + 1] = more[n];
        PARTS(count + 1, own_count);
        PARTS(count + 2, own_count);
    }
}

static void try_damaged(void)
{
    static const uint32_t steps[] = {1, 0x10000, 0x80000000, UINT32_MAX};
    own_list();
    expect_own(__LINE__);
    try_damaged_numbers();
    for (size_t i = 0; i < own_count; i++) {
        try_damaged_order(i);
        for (size_t n = 0; n < sizeof steps / sizeof *steps; n++)
            try_damaged_sums(i, steps[n]);
    }
    try_surplus();
}

/* Texts of all sorts of lexemes and with lines in them, such as both profiles take and one alone, and some for each refusal. */
static void try_damaged_texts(void)
{
    static const char *const texts[] = {
        "",
        "a",
        "\n",
        "a;b",
        "SELECT 1.e-1;\n",
        "'x\ny''\n' a \"b\n\"`\n`/*\n*/--c\n\r\n d",
        "x'0A' 0x1F .5 ?1 $a(b) @c #d \xc3\xa9 != <> ->> || types type",
        "\n-- a\r\nSELECT 'b\n''\nc', \"d\ne\"/* f\n\n */ ,\n`g\n`;[h\ni]\r\n1.5 x'0A'\n\n$a(b) @c\n\n!=\xc3\xa9\n ",
        "[a\n] :2 && b",
        "a @> b",
        "c 1e_5",
        "\n;\n;[b",
        "{",
        "a {b c",
        "\n'a' \n'''",
        "1 12_x",
        "1 1.5a",
        "a,1e+",
        "a;0x",
        "a\n !",
    };
    for (size_t n = 0; n < sizeof texts / sizeof *texts; n++) {
        set_text(texts[n], strlen(texts[n]));
        try_damaged();
    }
}

/* The text is checked against these records, each of kind, start, length, line and column. */
#define CHECK(status, index, ...) \
    (set_records((const sqllex_record[]){__VA_ARGS__}, sizeof((const sqllex_record[]){__VA_ARGS__}) / sizeof(sqllex_record)), \
     expect_check(__LINE__, status, index))
#define CHECK_NONE(status, index) (set_records(NULL, 0), expect_check(__LINE__, status, index))

static void try_check(void)
{
    TEXT("");
    CHECK_NONE(SQLLEX_ACCEPTED, 0);
    CHECK(SQLLEX_LIST_DIFFERS, 0, {SQLLEX_TK_NONE, 0, 0, 1, 1});
    TEXT("a;b");
    CHECK(SQLLEX_ACCEPTED, 0, {SQLLEX_TK_ID, 0, 1, 1, 1}, {SQLLEX_TK_SEMI, 1, 1, 1, 2}, {SQLLEX_TK_ID, 2, 1, 1, 3});
    CHECK(SQLLEX_LIST_DIFFERS, 2, {SQLLEX_TK_ID, 0, 1, 1, 1}, {SQLLEX_TK_SEMI, 1, 1, 1, 2}, {SQLLEX_TK_ID, 2, 1, 2, 3});
    CHECK(SQLLEX_LIST_DIFFERS, 2, {SQLLEX_TK_ID, 0, 1, 1, 1}, {SQLLEX_TK_SEMI, 1, 1, 1, 2});
    CHECK(SQLLEX_LIST_DIFFERS, 3, {SQLLEX_TK_ID, 0, 1, 1, 1}, {SQLLEX_TK_SEMI, 1, 1, 1, 2}, {SQLLEX_TK_ID, 2, 1, 1, 3},
          {SQLLEX_TK_NONE, 3, 1, 1, 4});
    CHECK(SQLLEX_LIST_DIFFERS, 1, {SQLLEX_TK_ID, 0, 1, 1, 1}, {SQLLEX_TK_ID, 2, 1, 1, 3});
    CHECK_NONE(SQLLEX_LIST_DIFFERS, 0);
    TEXT("a b"); /* blanks have a record too */
    CHECK(SQLLEX_ACCEPTED, 0, {SQLLEX_TK_ID, 0, 1, 1, 1}, {SQLLEX_TK_NONE, 1, 1, 1, 2}, {SQLLEX_TK_ID, 2, 1, 1, 3});
    CHECK(SQLLEX_LIST_DIFFERS, 1, {SQLLEX_TK_ID, 0, 1, 1, 1}, {SQLLEX_TK_ID, 2, 1, 1, 3});
    TEXT("'\n'a"); /* a line that ends inside a token */
    CHECK(SQLLEX_ACCEPTED, 0, {SQLLEX_TK_STRING, 0, 3, 1, 1}, {SQLLEX_TK_ID, 3, 1, 2, 2});
    CHECK(SQLLEX_LIST_DIFFERS, 1, {SQLLEX_TK_STRING, 0, 3, 1, 1}, {SQLLEX_TK_ID, 3, 1, 1, 4});
    CHECK(SQLLEX_LIST_DIFFERS, 1, {SQLLEX_TK_STRING, 0, 3, 1, 1}, {SQLLEX_TK_ID, 3, 1, 2, 1});
    /* up to a refused lexeme all agree */
    TEXT("a;!");
    CHECK(SQLLEX_LIST_DIFFERS, 2, {SQLLEX_TK_ID, 0, 1, 1, 1}, {SQLLEX_TK_SEMI, 1, 1, 1, 2});
    CHECK(SQLLEX_LIST_DIFFERS, 2, {SQLLEX_TK_ID, 0, 1, 1, 1}, {SQLLEX_TK_SEMI, 1, 1, 1, 2}, {SQLLEX_TK_NE, 2, 1, 1, 3});
    CHECK(SQLLEX_LIST_DIFFERS, 1, {SQLLEX_TK_ID, 0, 1, 1, 1});
    TEXT("{");
    CHECK_NONE(SQLLEX_LIST_DIFFERS, 0);
    CHECK(SQLLEX_LIST_DIFFERS, 0, {SQLLEX_TK_ILLEGAL, 0, 1, 1, 1});
}

/* No records and no text, by null pointers. */
static void try_null_check(void)
{
    records = NULL;
    records_count = 0;
    TEXT("{");
    expect_check(__LINE__, SQLLEX_LIST_DIFFERS, 0);
    TEXT("\n");
    expect_check(__LINE__, SQLLEX_LIST_DIFFERS, 0);
    TEXT("");
    expect_check(__LINE__, SQLLEX_ACCEPTED, 0);
    text = NULL;
    text_length = 0;
    expect_check(__LINE__, SQLLEX_ACCEPTED, 0);
    CHECK(SQLLEX_LIST_DIFFERS, 0, {SQLLEX_TK_SEMI, 0, 1, 1, 1});
}

/* The list of one text, checked against another. */
static void expect_other(int line, const char *listed, const char *checked, uint32_t status, size_t index)
{
    set_text(listed, strlen(listed));
    own_list();
    set_records(own, own_count);
    set_text(checked, strlen(checked));
    expect_check(line, status, index);
}

#define OTHER(...) expect_other(__LINE__, __VA_ARGS__)

static void try_other_texts(void)
{
    OTHER("a;b", "c+d", SQLLEX_LIST_DIFFERS, 1);
    OTHER("a;b", "c;d", SQLLEX_ACCEPTED, 0); /* no record says which name it is */
    OTHER("SELECT 1;", "SELECT 12;", SQLLEX_LIST_DIFFERS, 2);
    OTHER("SELECT 1;", "SELECT 1.", SQLLEX_LIST_DIFFERS, 2);
    OTHER("SELECT 1;", "selects 1;", SQLLEX_LIST_DIFFERS, 0);
    OTHER("a b c", "a\nb c", SQLLEX_LIST_DIFFERS, 2);
    OTHER("a\nb c", "a b c", SQLLEX_LIST_DIFFERS, 2);
    OTHER("a\nb\n c", "a\nb  c", SQLLEX_LIST_DIFFERS, 4);
    OTHER("'\n' a", "' ' a", SQLLEX_LIST_DIFFERS, 1);
    OTHER("a;b", "a;b;", SQLLEX_LIST_DIFFERS, 3);
    OTHER("a;b;", "a;b", SQLLEX_LIST_DIFFERS, 3);
    OTHER("", "a", SQLLEX_LIST_DIFFERS, 0);
    OTHER("a", "", SQLLEX_LIST_DIFFERS, 0);
    OTHER("a;1", "a;1_", SQLLEX_LIST_DIFFERS, 2);
    OTHER("a;1_", "a;", SQLLEX_ACCEPTED, 0); /* a list has what comes before a refusal */
    OTHER("a {", "a }", SQLLEX_LIST_DIFFERS, 2);
}

/* The list that the other profile gives of the text. */
static void expect_other_profile(int line, const char *both, uint32_t status, size_t index)
{
    set_text(both, strlen(both));
    profile = profile == SQLLEX_TURSO ? SQLLEX_SQLITE : SQLLEX_TURSO;
    own_list();
    profile = profile == SQLLEX_TURSO ? SQLLEX_SQLITE : SQLLEX_TURSO;
    set_records(own, own_count);
    expect_check(line, status, index);
}

#define OTHER_PROFILE(...) expect_other_profile(__LINE__, __VA_ARGS__)

static void try_other_profile(void)
{
    OTHER_PROFILE("", SQLLEX_ACCEPTED, 0);
    OTHER_PROFILE("SELECT 1;", SQLLEX_ACCEPTED, 0);
    OTHER_PROFILE("[a]", SQLLEX_LIST_DIFFERS, 0);
    OTHER_PROFILE("a;[b]", SQLLEX_LIST_DIFFERS, 2);
    OTHER_PROFILE("\n[\n]", SQLLEX_LIST_DIFFERS, 1);
    OTHER_PROFILE("a :2", SQLLEX_LIST_DIFFERS, 2);
    OTHER_PROFILE("a &&b", SQLLEX_LIST_DIFFERS, 2);
    OTHER_PROFILE("x @>", SQLLEX_LIST_DIFFERS, 2);
    OTHER_PROFILE("1e_5", SQLLEX_LIST_DIFFERS, 0);
    OTHER_PROFILE("a[b", SQLLEX_LIST_DIFFERS, 1);
}

/* Texts as long as a list takes, of as many records as bytes, and a byte longer. */
static void try_long_checks(void)
{
    static unsigned char bytes[SQLLEX_LONGEST_TEXT + 1];
    const sqllex_record next = {SQLLEX_TK_SEMI, 65535, 1, 1, 65536};
    memset(bytes, ';', sizeof bytes);
    set_text(bytes, SQLLEX_LONGEST_TEXT);
    own_list();
    require(own_count == SQLLEX_LONGEST_TEXT, "another number of records than of semicolons");
    expect_own(__LINE__);
    set_records(own, 65534);
    expect_check(__LINE__, SQLLEX_LIST_DIFFERS, 65534);
    make_list(0, 0);
    made[65535] = next;
    PARTS(65536, 65535);
    made[65534].column += 65536;
    PARTS(65535, 65534);
    made[32768].start -= 65536;
    PARTS(65535, 32768);
    CHECK_NONE(SQLLEX_LIST_DIFFERS, 0);
    /* too long, whatever the list, and where something is refused as well */
    set_text(bytes, sizeof bytes);
    make_list(0, 0);
    made[65535] = next;
    set_records(made, 65536);
    expect_check(__LINE__, SQLLEX_TOO_LONG, 0);
    CHECK(SQLLEX_TOO_LONG, 0, {SQLLEX_TK_SEMI, 0, 1, 1, 1});
    CHECK(SQLLEX_TOO_LONG, 0, {0, 0, 0, 0, 0});
    CHECK_NONE(SQLLEX_TOO_LONG, 0);
    bytes[0] = '{';
    set_text(bytes, sizeof bytes);
    CHECK_NONE(SQLLEX_TOO_LONG, 0);
    set_text(bytes, SQLLEX_LONGEST_TEXT);
    CHECK_NONE(SQLLEX_LIST_DIFFERS, 0);
}

/* As many lines as bytes, and as many as every other token. */
static void try_long_lines_checked(void)
{
    static unsigned char bytes[SQLLEX_LONGEST_TEXT];
    memset(bytes, '\n', sizeof bytes);
    set_text(bytes, sizeof bytes);
    CHECK(SQLLEX_ACCEPTED, 0, {SQLLEX_TK_NONE, 0, 65535, 1, 1});
    CHECK(SQLLEX_LIST_DIFFERS, 0, {SQLLEX_TK_NONE, 0, 65534, 1, 1}, {SQLLEX_TK_NONE, 65534, 1, 65535, 1});
    bytes[65534] = ';';
    set_text(bytes, sizeof bytes);
    CHECK(SQLLEX_ACCEPTED, 0, {SQLLEX_TK_NONE, 0, 65534, 1, 1}, {SQLLEX_TK_SEMI, 65534, 1, 65535, 1});
    CHECK(SQLLEX_LIST_DIFFERS, 1, {SQLLEX_TK_NONE, 0, 65534, 1, 1}, {SQLLEX_TK_SEMI, 65534, 1, 65535 + 65536, 1});
    CHECK(SQLLEX_LIST_DIFFERS, 1, {SQLLEX_TK_NONE, 0, 65534, 1, 1}, {SQLLEX_TK_SEMI, 65534, 1, 1, 65535});
    for (size_t i = 0; i < sizeof bytes; i++)
        bytes[i] = i % 2 == 0 ? '\n' : ';';
    set_text(bytes, sizeof bytes);
    own_list();
    expect_own(__LINE__);
    make_list(0, 0);
    made[65533].line++;
    PARTS(65535, 65533);
    made[40000].column = 1;
    PARTS(65535, 40000);
}

/* How many records of the list that is made agree with the text's own, from the first on. */
static size_t agreeing(size_t count)
{
    size_t i = 0;
    while (i < count && i < own_count && memcmp(made + i, own + i, sizeof *made) == 0)
        i++;
    return i;
}

/* A number of one record is made another. */
static void draw_wrong(sqllex_record *record)
{
    uint32_t *number = number_in(record, draw(RECORD_WIDTH));
    switch (draw(4)) {
    case 0:
        *number = draw_number();
        break;
    case 1:
        *number ^= (uint32_t)1 << draw(32);
        break;
    default:
        *number += 1 - 2 * draw(2);
    }
}

/* The list that is made ends early, lacks a record, has one more, or a number of one is another; how many it has then. */
static size_t draw_damage(size_t count)
{
    size_t i = draw((uint32_t)count + 1);
    uint32_t way = draw(6);
    if (way == 0)
        return i;
    if (way == 1) {
        memmove(made + i + 1, made + i, (count - i) * sizeof *made);
        if (i == count || draw(2) == 0)
            made[i] = (sqllex_record){draw(SQLLEX_KINDS_COUNT), draw(90), draw(9), draw(9), draw(90)};
        return count + 1;
    }
    if (i == count)
        return count;
    if (way > 2) {
        draw_wrong(made + i);
        return count;
    }
    memmove(made + i, made + i + 1, (count - i - 1) * sizeof *made);
    return count - 1;
}

/* Texts that are drawn, with many lines: each with its own list, and with that list damaged up to three times. */
static void try_drawn_checks(void)
{
    static uint8_t bytes[3000];
    for (int round = 0; round < 20000; round++) {
        size_t length = draw(40) == 0 ? draw(sizeof bytes) : draw(60);
        draw_bytes(bytes, length);
        for (size_t i = draw(20); i < length; i += 1 + draw(20))
            bytes[i] = '\n';
        set_text(bytes, length);
        own_list();
        expect_own(__LINE__);
        size_t count = make_list(0, 0);
        for (int damages = 0; damages < 3; damages++) {
            count = draw_damage(count);
            set_records(made, count);
            size_t index = agreeing(count);
            bool right = index == count && index == own_count && own_status == SQLLEX_END;
            expect_check(__LINE__, right ? SQLLEX_ACCEPTED : SQLLEX_LIST_DIFFERS, right ? 0 : index);
        }
    }
}

static void try_checks(void)
{
    try_check();
    try_null_check();
    try_other_texts();
    try_other_profile();
    try_damaged_texts();
    try_long_checks();
    try_long_lines_checked();
    try_drawn_checks();
}

/* Under no profile neither text nor records are read, and nothing is written. */
static void try_unchecked(void)
{
    static unsigned char bytes[SQLLEX_LONGEST_TEXT + 1];
    static const uint32_t numbers[] = {2, 3, 16, 99, 106, 0x80000000, 0xffffffff};
    static const size_t lengths[] = {0, 9, SQLLEX_LONGEST_TEXT, SQLLEX_LONGEST_TEXT + 1};
    size_t index;
    memset(bytes, ';', sizeof bytes);
    set_text(bytes, 9);
    own_list();
    for (size_t n = 0; n < sizeof lengths / sizeof *lengths; n++)
        for (size_t count = 0; count <= own_count; count++) {
            set_text(bytes, lengths[n]);
            set_records(own, count);
            mprotect(text_room.bytes, text_room.size, PROT_NONE);
            mprotect(records_room.bytes, records_room.size, PROT_NONE);
            for (size_t i = 0; i < sizeof numbers / sizeof *numbers; i++)
                require(call_check(numbers[i], &index) == SQLLEX_UNKNOWN_PROFILE, "a list under no profile");
        }
}

/*
 * Lists with their answers, as `oracle checks` writes them: profile, status, index, the text's length and the number of records, 4 bytes
 * each, lowest first; the text; the records, five such numbers each. How many had each status is printed at the end.
 */
enum { CHECK_PROFILE, CHECK_STATUS, CHECK_INDEX, CHECK_LENGTH, CHECK_COUNT, CHECK_NUMBERS };

static bool has_read(void *bytes, size_t size)
{
    return fread(bytes, 1, size, stdin) == size;
}

static void tell_check(const uint32_t *numbers, uint32_t got, size_t got_index)
{
    fprintf(stderr, "calls: under %lu the status is %lu, the index %zu, not %lu and %lu; the text, and the records:\n",
            (unsigned long)numbers[CHECK_PROFILE], (unsigned long)got, got_index, (unsigned long)numbers[CHECK_STATUS],
            (unsigned long)numbers[CHECK_INDEX]);
    for (size_t i = 0; i < text_length; i++)
        fprintf(stderr, "%02x", text[i]);
    for (size_t i = 0; i < records_count; i++)
        fprintf(stderr, "\n%lu %lu %lu %lu %lu", (unsigned long)records[i].kind, (unsigned long)records[i].start,
                (unsigned long)records[i].length, (unsigned long)records[i].line, (unsigned long)records[i].column);
    fprintf(stderr, "\n");
    fail("a list is checked otherwise");
}

/* Both lie in rooms that stay open, since to close them takes longer than a call: it is looked whether they are as they were. */
static uint32_t check_open(const unsigned char *bytes, const uint32_t *numbers, size_t *index)
{
    size_t size = numbers[CHECK_COUNT] * sizeof *made;
    text_length = numbers[CHECK_LENGTH];
    text = memcpy(place(text_room, text_length), bytes, text_length);
    records_count = numbers[CHECK_COUNT];
    records = memcpy(place(records_room, size), made, size);
    uint32_t status = call_check(numbers[CHECK_PROFILE], index);
    require(memcmp(text, bytes, text_length) == 0 && memcmp(records, made, size) == 0, "a text or a record was written");
    return status;
}

/* The library is code for x86-64, where a number lies lowest byte first in memory too. */
static void compare_checks(void)
{
    static unsigned char bytes[TEXT_MOST];
    static unsigned long compared[SQLLEX_ACCEPTED + 1];
    uint32_t numbers[CHECK_NUMBERS];
    size_t size, index;
    while ((size = fread(numbers, 1, sizeof numbers, stdin)) == sizeof numbers) {
        require(numbers[CHECK_STATUS] <= SQLLEX_ACCEPTED && numbers[CHECK_LENGTH] <= sizeof bytes && numbers[CHECK_COUNT] <= MADE_MOST,
                "a bad list");
        require(has_read(bytes, numbers[CHECK_LENGTH]) && has_read(made, numbers[CHECK_COUNT] * sizeof *made), "a list that is cut off");
        uint32_t got = check_open(bytes, numbers, &index);
        if (got != numbers[CHECK_STATUS] || (got != SQLLEX_UNKNOWN_PROFILE && index != numbers[CHECK_INDEX]))
            tell_check(numbers, got, index);
        compared[got]++;
    }
    require(size == 0 && !ferror(stdin), "a list that is cut off");
    for (size_t status = 0; status <= SQLLEX_ACCEPTED; status++)
        if (compared[status] > 0)
            printf("%zu\t%lu\n", status, compared[status]);
}

/*
 * Brackets to be paired. The records' numbers are lent where nothing can be written; the partners and the value are set before a call to
 * what no call would write by chance, and behind the partners, or with a refusal everywhere, they must be so afterwards.
 */
#define NUMBERS_MOST ((SQLLEX_LONGEST_TEXT + 2u) * RECORD_WIDTH)
#define PARTNERS_MOST (SQLLEX_LONGEST_TEXT + 128u)
static struct room numbers_room, partners_room, nesting_room;
static uint32_t made_numbers[NUMBERS_MOST], partners[PARTNERS_MOST];
static const uint32_t *numbers;
static size_t numbers_length;

static void set_numbers(size_t length)
{
    numbers = put(numbers_room, made_numbers, length * sizeof *made_numbers);
    numbers_length = length;
}

/* What was written of the partners is kept. */
static uint32_t call_pair(size_t partners_length, size_t *value)
{
    size_t size = partners_length * sizeof *partners, written = numbers_length / RECORD_WIDTH * sizeof *partners;
    size_t *there = lend(nesting_room, sizeof *there);
    uint32_t *lent = lend(partners_room, size);
    uint32_t status = sqllex_pair(numbers, numbers_length, lent, partners_length, there);
    *value = *there;
    lend_again(there, sizeof *there);
    look_at_lent(there, sizeof *there, "a byte beside the value was written");
    if (status == SQLLEX_DONE) {
        require(written <= size, "brackets paired without room");
        memcpy(partners, lent, written);
        lend_again(lent, written);
    }
    look_at_lent(lent, size, "a byte behind the partners was written, or beside them, or with a refusal one of them");
    return status;
}

static void expect_pair(int line, size_t partners_length, uint32_t status, size_t value)
{
    size_t got_value;
    uint32_t got = call_pair(partners_length, &got_value);
    if (got == status && got_value == value)
        return;
    fprintf(stderr, "calls: line %d: of %zu numbers the status is %u, the value %zu, not %u and %zu\n", line, numbers_length, (unsigned)got,
            got_value, (unsigned)status, value);
    exit(1);
}

static bool opens(uint32_t kind)
{
    return kind == SQLLEX_TK_LP || kind == SQLLEX_TK_LBRACKET;
}

static bool closes(uint32_t kind)
{
    return kind == SQLLEX_TK_RP || kind == SQLLEX_TK_RBRACKET;
}

/* The partner of an opener in a list that nests: the first closer behind it up to which as many close as open. */
static size_t closer_behind(size_t i)
{
    size_t open = 1;
    while (open > 0) {
        uint32_t kind = made_numbers[++i * RECORD_WIDTH];
        open = open + opens(kind) - closes(kind);
    }
    return i;
}

/* Each record's partner is where it should be. */
static void look_at_partners(void)
{
    size_t count = numbers_length / RECORD_WIDTH;
    for (size_t i = 0; i < count; i++) {
        uint32_t kind = made_numbers[i * RECORD_WIDTH];
        if (opens(kind)) {
            size_t closer = closer_behind(i);
            require(partners[i] == closer && partners[closer] == i, "another partner");
        }
        require(opens(kind) || closes(kind) || partners[i] == i, "a partner of what is no bracket");
    }
}

/* A record's kind, and four other numbers, whatever they are. */
static void make_record(size_t i, uint32_t kind)
{
    uint32_t *record = made_numbers + i * RECORD_WIDTH;
    *record = kind;
    for (size_t field = 1; field < RECORD_WIDTH; field++)
        record[field] = draw_number();
}

/* A letter stands for a kind that is no bracket. */
static uint32_t kind_of(char letter)
{
    static const char brackets[] = "()[]";
    static const uint32_t kinds[] = {SQLLEX_TK_LP, SQLLEX_TK_RP, SQLLEX_TK_LBRACKET, SQLLEX_TK_RBRACKET};
    const char *found = strchr(brackets, letter);
    return found != NULL ? kinds[found - brackets] : SQLLEX_TK_ID;
}

static void set_brackets(const char *letters)
{
    size_t count = strlen(letters);
    for (size_t i = 0; i < count; i++)
        make_record(i, kind_of(letters[i]));
    set_numbers(count * RECORD_WIDTH);
}

/* Room for just as many partners, and for more. */
static void expect_brackets(int line, const char *letters, uint32_t status, size_t value)
{
    set_brackets(letters);
    for (size_t more = 0; more < 3; more++) {
        expect_pair(line, strlen(letters) + more, status, value);
        if (status == SQLLEX_DONE)
            look_at_partners();
    }
}

#define PAIR(letters, status, value) expect_brackets(__LINE__, letters, status, value)
#define OPEN_16 "(([([([(([(((((["
#define CLOSE_16 "])))))]))])])]))"

static void try_pair(void)
{
    PAIR("", SQLLEX_DONE, 0);
    PAIR("a", SQLLEX_DONE, 0);
    PAIR("()", SQLLEX_DONE, 1);
    PAIR("()[]", SQLLEX_DONE, 1);
    PAIR("a(b[]c)d", SQLLEX_DONE, 2);
    PAIR("(()[()])()", SQLLEX_DONE, 3);
    PAIR(OPEN_16 CLOSE_16, SQLLEX_DONE, SQLLEX_DEEPEST_NESTING);
    PAIR("a" OPEN_16 "b" CLOSE_16 "[" CLOSE_16, SQLLEX_WRONG_CLOSER, 36);
    PAIR("(" OPEN_16, SQLLEX_TOO_DEEP, 16);
    PAIR("(" OPEN_16 CLOSE_16 ")", SQLLEX_TOO_DEEP, 16);
    PAIR("(]", SQLLEX_WRONG_CLOSER, 1);
    PAIR("[)", SQLLEX_WRONG_CLOSER, 1);
    PAIR("a)(", SQLLEX_WRONG_CLOSER, 1);
    PAIR("()]", SQLLEX_WRONG_CLOSER, 2);
    PAIR("(()[a", SQLLEX_LEFT_OPEN, 3);
    PAIR("(()", SQLLEX_LEFT_OPEN, 0);
    PAIR(OPEN_16, SQLLEX_LEFT_OPEN, 15);
    /* whichever record comes first */
    PAIR("((((((((((((((((](", SQLLEX_WRONG_CLOSER, 16);
    PAIR("(((((((((((((((((]", SQLLEX_TOO_DEEP, 16);
    PAIR(OPEN_16 ")[", SQLLEX_WRONG_CLOSER, 16);
    PAIR(OPEN_16 "[)", SQLLEX_TOO_DEEP, 16);
    PAIR("((]", SQLLEX_WRONG_CLOSER, 2);
}

/* The refusals that come before any record is looked at, in their order. */
static void try_pair_order(void)
{
    set_brackets(")))");
    expect_pair(__LINE__, 2, SQLLEX_NO_ROOM, 0);
    expect_pair(__LINE__, 0, SQLLEX_NO_ROOM, 0);
    expect_pair(__LINE__, 3, SQLLEX_WRONG_CLOSER, 0);
    for (size_t length = 1; length < 15; length++) {
        set_numbers(length);
        for (size_t room = 0; length % RECORD_WIDTH != 0 && room < 5; room++)
            expect_pair(__LINE__, room, SQLLEX_NOT_RECORDS, 0);
    }
}

/* As many records as there may be, the last of them brackets; one more; and numbers that are no whole records. */
static void try_many_pairs(void)
{
    const size_t most = SQLLEX_LONGEST_TEXT, over = (most + 1) * RECORD_WIDTH;
    for (size_t i = 0; i <= most; i++)
        make_record(i, kind_of("()[]a"[i % 5]));
    make_record(most - 1, SQLLEX_TK_ID);
    set_numbers(most * RECORD_WIDTH);
    expect_pair(__LINE__, most, SQLLEX_DONE, 1);
    look_at_partners();
    expect_pair(__LINE__, PARTNERS_MOST, SQLLEX_DONE, 1);
    expect_pair(__LINE__, most - 1, SQLLEX_NO_ROOM, 0);
    make_record(0, SQLLEX_TK_LBRACKET);
    make_record(1, SQLLEX_TK_ID);
    make_record(most - 1, SQLLEX_TK_RBRACKET);
    set_numbers(most * RECORD_WIDTH);
    expect_pair(__LINE__, most, SQLLEX_DONE, 2);
    require(partners[0] == most - 1 && partners[most - 1] == 0, "another partner at the far end");
    make_record(most - 1, SQLLEX_TK_RP);
    set_numbers(most * RECORD_WIDTH);
    expect_pair(__LINE__, most, SQLLEX_WRONG_CLOSER, most - 1);
    set_numbers(over);
    expect_pair(__LINE__, PARTNERS_MOST, SQLLEX_TOO_LONG, 0);
    expect_pair(__LINE__, 0, SQLLEX_TOO_LONG, 0);
    for (size_t more = 1; more < RECORD_WIDTH; more++) {
        set_numbers(over + more);
        expect_pair(__LINE__, PARTNERS_MOST, SQLLEX_NOT_RECORDS, 0);
    }
}

/* Numbers that have a bracket's in some of their bits, and all other kinds. */
static void try_other_kinds(void)
{
    for (uint32_t kind = 0; kind < 300; kind++)
        for (uint32_t bit = 0; bit < 32; bit++) {
            uint32_t number = bit < 8 ? kind : kind ^ ((uint32_t)1 << bit);
            make_record(0, SQLLEX_TK_LP);
            make_record(1, number);
            make_record(2, SQLLEX_TK_RP);
            set_numbers(3 * RECORD_WIDTH);
            if (opens(number))
                expect_pair(__LINE__, 3, number == SQLLEX_TK_LP ? SQLLEX_LEFT_OPEN : SQLLEX_WRONG_CLOSER, number == SQLLEX_TK_LP ? 0 : 2);
            else if (closes(number))
                expect_pair(__LINE__, 3, SQLLEX_WRONG_CLOSER, number == SQLLEX_TK_RP ? 2 : 1);
            else
                expect_pair(__LINE__, 3, SQLLEX_DONE, 1);
        }
}

/* What is said of a list, with those open kept in a row. */
static uint32_t plain_pairing(size_t *value)
{
    size_t open[SQLLEX_DEEPEST_NESTING], deep = 0, deepest = 0, count = numbers_length / RECORD_WIDTH;
    for (*value = 0; *value < count; ++*value) {
        uint32_t kind = made_numbers[*value * RECORD_WIDTH];
        if (opens(kind)) {
            if (deep == SQLLEX_DEEPEST_NESTING)
                return SQLLEX_TOO_DEEP;
            open[deep++] = *value;
            deepest = deep > deepest ? deep : deepest;
        } else if (closes(kind) && (deep == 0 || made_numbers[open[--deep] * RECORD_WIDTH] + 1 != kind)) {
            return SQLLEX_WRONG_CLOSER;
        }
    }
    *value = deep > 0 ? open[deep - 1] : deepest;
    return deep > 0 ? SQLLEX_LEFT_OPEN : SQLLEX_DONE;
}

static void expect_plain(int line)
{
    size_t value;
    uint32_t status = plain_pairing(&value);
    expect_pair(line, numbers_length / RECORD_WIDTH, status, value);
    if (status == SQLLEX_DONE)
        look_at_partners();
}

/* All lists of up to six records, of brackets and one other kind. */
static void try_short_pairs(void)
{
    for (size_t count = 0, lists = 1; count <= 6; count++, lists *= 5)
        for (size_t n = 0; n < lists; n++) {
            for (size_t i = 0, rest = n; i < count; i++, rest /= 5)
                make_record(i, kind_of("()[]a"[rest % 5]));
            set_numbers(count * RECORD_WIDTH);
            expect_plain(__LINE__);
        }
}

/* Lists that are drawn: mostly such as nest, some as deep as they may and deeper, and now and then a wrong closer. */
static void try_drawn_pairs(void)
{
    for (int round = 0; round < 20000; round++) {
        size_t count = draw(120), deep = 0, level = draw(19);
        uint32_t open[120];
        for (size_t i = 0; i < count; i++) {
            uint32_t kind = SQLLEX_TK_ID + draw(40);
            if (deep < level && draw(2) == 0)
                kind = open[deep++] = kind_of("(["[draw(2)]);
            else if (deep > 0 && (draw(3) == 0 || count - i <= deep))
                kind = open[--deep] + 1;
            make_record(i, draw(400) == 0 ? kind_of("()[]"[draw(4)]) : kind);
        }
        set_numbers(count * RECORD_WIDTH);
        expect_plain(__LINE__);
    }
}

/* No records and no partners, by null pointers. */
static void try_null_pair(void)
{
    size_t *value = lend(nesting_room, sizeof *value);
    require(sqllex_pair(NULL, 0, NULL, 0, value) == SQLLEX_DONE && *value == 0, "no records are not paired");
    set_brackets("()");
    require(sqllex_pair(numbers, numbers_length, NULL, 0, value) == SQLLEX_NO_ROOM && *value == 0, "no partners have room");
}

/* The brackets of a text by its list: which are any is the profile's. */
static void expect_paired_text(int line, uint32_t number, const char *letters, size_t deepest)
{
    sqllex_answer *answer = unset_answer();
    require(sqllex_list_from((const uint8_t *)letters, strlen(letters), 0, number, made_numbers, NUMBERS_MOST, answer) == SQLLEX_END,
            "a text to be paired is not listed");
    set_numbers(answer->value * RECORD_WIDTH);
    expect_pair(line, answer->value, SQLLEX_DONE, deepest);
    look_at_partners();
}

static void try_paired_texts(void)
{
    static const uint32_t stated[] = {0, 9, 2, 5, 4, 3, 6, 7, 8, 1};
    expect_paired_text(__LINE__, SQLLEX_TURSO, "f(a[1], 2)", 2);
    require(numbers_length == 10 * RECORD_WIDTH && memcmp(partners, stated, sizeof stated) == 0, "other partners than are stated");
    expect_paired_text(__LINE__, SQLLEX_TURSO, "SELECT f(a[1], (2)) -- )", 2);
    expect_paired_text(__LINE__, SQLLEX_SQLITE, "SELECT f(a[1], (2)) -- )", 2);
    expect_paired_text(__LINE__, SQLLEX_TURSO, "a[(1)] ')' \"(\" /*[*/", 2);
    expect_paired_text(__LINE__, SQLLEX_SQLITE, "a[(1)] ')' \"(\" /*[*/", 0);
}

static void try_pairs(void)
{
    try_pair();
    try_pair_order();
    try_many_pairs();
    try_other_kinds();
    try_short_pairs();
    try_drawn_pairs();
    try_null_pair();
    try_paired_texts();
}

/*
 * Lists with their answers, as `oracle pairs` writes them: status, value, how many numbers there are and how many partners are lent, 4 bytes
 * each, lowest first; the numbers; where they are paired, a partner for each record. How many had each status is printed at the end.
 */
enum { PAIR_STATUS, PAIR_VALUE, PAIR_LENGTH, PAIR_ROOM, PAIR_NUMBERS };

static void tell_pair(const uint32_t *head, uint32_t got, size_t got_value)
{
    fprintf(stderr, "calls: with %lu partners the status is %lu, the value %zu, not %lu and %lu, or a partner is another; the numbers:\n",
            (unsigned long)head[PAIR_ROOM], (unsigned long)got, got_value, (unsigned long)head[PAIR_STATUS],
            (unsigned long)head[PAIR_VALUE]);
    for (size_t i = 0; i < numbers_length; i++)
        fprintf(stderr, "%lu%c", (unsigned long)numbers[i], (i + 1) % RECORD_WIDTH == 0 ? '\n' : ' ');
    fprintf(stderr, "\n");
    fail("a list is paired otherwise");
}

/* The numbers lie in a room that stays open, as with the lists that are checked. */
static uint32_t pair_open(const uint32_t *head, size_t *value)
{
    size_t size = head[PAIR_LENGTH] * sizeof *made_numbers;
    numbers_length = head[PAIR_LENGTH];
    numbers = memcpy(place(numbers_room, size), made_numbers, size);
    uint32_t status = call_pair(head[PAIR_ROOM], value);
    require(memcmp(numbers, made_numbers, size) == 0, "a number of a record was written");
    return status;
}

static void compare_pairs(void)
{
    static uint32_t expected[PARTNERS_MOST];
    static unsigned long compared[SQLLEX_ACCEPTED + 1];
    uint32_t head[PAIR_NUMBERS];
    size_t size, value;
    while ((size = fread(head, 1, sizeof head, stdin)) == sizeof head) {
        require(head[PAIR_STATUS] <= SQLLEX_ACCEPTED && head[PAIR_LENGTH] <= NUMBERS_MOST && head[PAIR_ROOM] <= PARTNERS_MOST, "a bad list");
        size_t written = head[PAIR_STATUS] == SQLLEX_DONE ? head[PAIR_LENGTH] / RECORD_WIDTH * sizeof *expected : 0;
        require(written <= sizeof expected, "a bad list");
        require(has_read(made_numbers, head[PAIR_LENGTH] * sizeof *made_numbers) && has_read(expected, written), "a list that is cut off");
        uint32_t got = pair_open(head, &value);
        if (got != head[PAIR_STATUS] || value != head[PAIR_VALUE] || memcmp(partners, expected, written) != 0)
            tell_pair(head, got, value);
        compared[got]++;
    }
    require(size == 0 && !ferror(stdin), "a list that is cut off");
    for (size_t status = 0; status <= SQLLEX_ACCEPTED; status++)
        if (compared[status] > 0)
            printf("%zu\t%lu\n", status, compared[status]);
}

static void try_streams(void)
{
    try_stream();
    try_stream_refusals();
    try_longest();
    try_full();
    try_total();
    try_walks();
    try_any_stream();
}

/* What holds under each profile. */
static void try_both(void)
{
    try_statement();
    try_next();
    try_numbers();
    try_list();
    try_lines();
    try_lines_within();
    try_offsets();
    try_part();
    try_no_allowance();
    try_blanks();
    try_part_offsets();
    try_cut();
    try_long();
    try_long_lines();
    try_drawn_lists();
    try_null();
    try_streams();
    try_literals();
    try_checks();
}

static void try_edges(void)
{
    try_both();
    try_turso();
    profile = SQLLEX_SQLITE;
    try_both();
    try_sqlite();
    try_unknown_texts();
    try_no_profile();
    try_no_stream();
    try_unread();
    try_unchecked();
    try_pairs();
    try_words();
}

static const char usage[] =
    "calls front|back next|sums|list N|part N A|cut|stream|literal [turso|sqlite], or calls front|back word|write|replay|check|pair|edges";

/* The second argument, and which behind it: a list's length N, an allowance A, a profile. It prints each record, or runs by itself. */
struct mode {
    const char *name;
    bool has_length, has_allowance, has_profile;
    void (*print)(size_t offset);
    void (*run)(void);
};

static const struct mode *mode_named(const char *name)
{
    static const struct mode modes[] = {
        {"next", false, false, true, print_next, NULL},
        {"sums", false, false, true, print_sums, NULL},
        {"list", true, false, true, print_one_list, NULL},
        {"part", true, true, true, print_slice, NULL},
        {"cut", false, false, true, print_cut, NULL},
        {"stream", false, false, true, print_stream, NULL},
        {"literal", false, false, true, print_literal, NULL},
        {"write", false, false, false, print_write, NULL},
        {"word", false, false, false, print_word, NULL},
        {"replay", false, false, false, print_replay, NULL},
        {"check", false, false, false, NULL, compare_checks},
        {"pair", false, false, false, NULL, compare_pairs},
        {"edges", false, false, false, NULL, try_edges},
    };
    for (size_t i = 0; i < sizeof modes / sizeof *modes; i++)
        if (strcmp(modes[i].name, name) == 0)
            return &modes[i];
    fail(usage);
    return NULL;
}

static size_t length_named(const char *digits)
{
    char *end;
    unsigned long length = strtoul(digits, &end, 10);
    require(end > digits && *end == '\0' && length <= LIST_MOST, usage);
    return length;
}

static uint32_t allowance_named(const char *digits)
{
    char *end;
    unsigned long number = strtoul(digits, &end, 10);
    require(end > digits && *end == '\0' && number <= UINT32_MAX, usage);
    return (uint32_t)number;
}

static uint32_t profile_named(const char *name)
{
    bool sqlite = strcmp(name, "sqlite") == 0;
    require(sqlite || strcmp(name, "turso") == 0, usage);
    return sqlite ? SQLLEX_SQLITE : SQLLEX_TURSO;
}

int main(int argc, char **argv)
{
    require(argc >= 3, usage);
    at_back = strcmp(argv[1], "back") == 0;
    require(at_back || strcmp(argv[1], "front") == 0, usage);
    const struct mode *mode = mode_named(argv[2]);
    int at = 3;
    if (mode->has_length) {
        require(at < argc, usage);
        list_length = length_named(argv[at++]);
    }
    if (mode->has_allowance) {
        require(at < argc, usage);
        slice_allowance = allowance_named(argv[at++]);
    }
    if (mode->has_profile && at < argc)
        profile = profile_named(argv[at++]);
    require(at == argc, usage);
    text_room = make_room(TEXT_MOST);
    list_room = make_room(LIST_MOST * sizeof(uint32_t) + BESIDE);
    answer_room = make_room(sizeof(sqllex_answer));
    slice_room = make_room(sizeof(sqllex_slice));
    stream_room = make_room(sizeof(sqllex_stream));
    row_room = make_room(ROW_LENGTH);
    given_room = make_room(sizeof(sqllex_given));
    value_room = make_room(sizeof(int64_t));
    count_room = make_room(sizeof(size_t));
    buffer_room = make_room(BUFFER_MOST + BESIDE);
    records_room = make_room(MADE_MOST * sizeof(sqllex_record));
    index_room = make_room(sizeof(size_t));
    numbers_room = make_room(NUMBERS_MOST * sizeof(uint32_t));
    partners_room = make_room(PARTNERS_MOST * sizeof(uint32_t) + BESIDE);
    nesting_room = make_room(sizeof(size_t));
    if (mode->print != NULL)
        each_record(mode->print);
    else
        mode->run();
    return 0;
}
