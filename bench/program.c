/* The program that is measured, on x86-64 Linux and on the emulated Cortex-M4 alike. It is compiled once for each lexer, with -DLIST=..
 *   program FILE REPEATS   List of the text, so many times: instructions of one pass = (those of 3 passes - those of 1) / 2; with -DCUTS
 *                          the cut of all its statements; with -DSLICE=.. its tokens but TK_NONE, in slices of so many lexemes; with
 *                          -DREADS, or -DWRITES, its literals read, or read and written again; with -DCHECKS its list, checked; with
 *                          -DPAIRS that list's brackets, paired
 *   program FILE dump      the records, a line each; with -DPAIRS a record's partner stands in the place of its start
 *   program FILE stack     bytes of stack that calls really used; with -DALL_CALLS also those of next, the cut, the check of the list and
 *                          the pairing of its brackets
 * A length is 64 bits wide on both machines, since the library has it so. A lexer writes -DRECORD_WIDTH=.. numbers of a token. */
#include <stdint.h>
#include <stdio.h>
#include <stdlib.h>
#include <string.h>

#define NAME(symbol) QUOTED(symbol)
#define QUOTED(word) #word
enum { TEXT = 65535, NUMBERS = RECORD_WIDTH * TEXT, LANE = 65536 };
enum { KIND, START, LENGTH }; /* the first of a record's numbers */

typedef uint64_t list_function(const uint8_t *text, uint64_t length, uint32_t *list, uint64_t numbers);
typedef uint32_t place_function(const uint8_t *text, uint64_t length, uint64_t offset, uint32_t profile, uint64_t *answer);
place_function sqllex_next, sqllex_cut;
typedef uint32_t check_function(const uint8_t *text, uint64_t length, uint32_t profile, const uint32_t *records, uint64_t count, uint64_t *index);
check_function sqllex_check_list;
typedef uint32_t pair_function(const uint32_t *numbers, uint64_t n, uint32_t *partners, uint64_t m, uint64_t *value);
pair_function sqllex_pair;
enum { CUT = 101, DONE = 104, ACCEPTED = 106 };
static uint32_t partners[TEXT];
static uint64_t answer[6];
static uint32_t *record(uint32_t *l, uint64_t i) { return l + RECORD_WIDTH * i; }
#ifdef CUTS
/* In List's place the cut, from statement to statement. */
static uint64_t under_profile(const uint8_t *t, uint64_t n, uint32_t *l, uint64_t c)
{
    uint64_t count = 0;
    for (uint64_t at = 0; sqllex_cut(t, n, at, PROFILE, answer) == CUT; count++)
        at = answer[3];
    return count;
}
#elif defined SLICE
/* In List's place its slices, each with the rest of the list. */
uint32_t sqllex_list_part(const uint8_t *t, uint64_t n, uint64_t at, uint32_t profile, uint32_t allowance, uint32_t *l, uint64_t c,
                          uint64_t *slice);
enum { PAUSED = 105 };
static uint64_t under_profile(const uint8_t *t, uint64_t n, uint32_t *l, uint64_t c)
{
    uint64_t count = 0, slice[7] = {0};
    uint32_t status;
    do {
        status = sqllex_list_part(t, n, slice[3], PROFILE, SLICE, record(l, count), c - RECORD_WIDTH * count, slice);
        count += slice[0];
    } while (status == PAUSED);
    return count;
}
#elif defined CHECKS
/* In List's place the check of its records, which are made once, before the first of several passes, and so are no part of one. */
uint64_t sqllex_list(const uint8_t *text, uint64_t length, uint32_t profile, uint32_t *list, uint64_t numbers);
static uint64_t under_profile(const uint8_t *t, uint64_t n, uint32_t *l, uint64_t c)
{
    static uint64_t records, index;
    if (!records)
        records = sqllex_list(t, n, PROFILE, l, c);
    return sqllex_check_list(t, n, PROFILE, l, records, &index) == ACCEPTED ? records : 0;
}
#elif defined PAIRS
/* In List's place the pairing of its records' brackets; they are made as for the check. */
uint64_t sqllex_list(const uint8_t *text, uint64_t length, uint32_t profile, uint32_t *list, uint64_t numbers);
static uint64_t under_profile(const uint8_t *t, uint64_t n, uint32_t *l, uint64_t c)
{
    static uint64_t records, deepest;
    if (!records)
        records = sqllex_list(t, n, PROFILE, l, c);
    return sqllex_pair(l, RECORD_WIDTH * records, partners, TEXT, &deepest) == DONE ? records : 0;
}
#elif defined READS || defined WRITES
/* In List's place the literals of its records. The list is made once, before the first of several passes, and so is no part of one. */
uint64_t sqllex_list(const uint8_t *text, uint64_t length, uint32_t profile, uint32_t *list, uint64_t numbers);
uint32_t sqllex_read_integer(const uint8_t *t, uint64_t n, uint64_t start, uint64_t length, uint32_t profile, int64_t *value);
typedef uint32_t read_function(const uint8_t *t, uint64_t n, uint64_t start, uint64_t length, uint32_t p, uint8_t *b, uint64_t m, uint64_t *k);
read_function sqllex_read_string, sqllex_read_blob;
uint32_t sqllex_write_integer(int64_t value, uint8_t *b, uint64_t m, uint64_t *k);
typedef uint32_t write_function(const uint8_t *value, uint64_t length, uint8_t *b, uint64_t m, uint64_t *k);
write_function sqllex_write_string, sqllex_write_blob;
enum { STRING = 29, INTEGER = 31, BLOB = 33 };
static uint8_t buffer[TEXT], again[TEXT];
static int64_t value;
static uint64_t bytes;
static uint32_t read(const uint8_t *t, uint64_t n, uint64_t start, uint64_t size, uint32_t kind)
{
    if (kind == INTEGER)
        return sqllex_read_integer(t, n, start, size, PROFILE, &value);
    return (kind == STRING ? sqllex_read_string : sqllex_read_blob)(t, n, start, size, PROFILE, buffer, TEXT, &bytes);
}
static uint32_t write(uint32_t kind)
{
#ifdef READS
    return DONE;
#else
    if (kind == INTEGER)
        return sqllex_write_integer(value, again, TEXT, &bytes);
    return (kind == STRING ? sqllex_write_string : sqllex_write_blob)(buffer, bytes, again, TEXT, &bytes);
#endif
}
/* The records of literals come to the list's front. */
static uint64_t literals(const uint8_t *t, uint64_t n, uint32_t *l, uint64_t c)
{
    uint64_t records = sqllex_list(t, n, PROFILE, l, c), count = 0;
    for (uint64_t i = 0; i < records; i++)
        if (record(l, i)[KIND] == STRING || record(l, i)[KIND] == INTEGER || record(l, i)[KIND] == BLOB)
            memmove(record(l, count++), record(l, i), RECORD_WIDTH * sizeof *l);
    return count;
}
/* How many were read, and written. */
static uint64_t under_profile(const uint8_t *t, uint64_t n, uint32_t *l, uint64_t c)
{
    static uint64_t records;
    uint64_t count = 0;
    if (!records)
        records = literals(t, n, l, c);
    for (uint64_t i = 0; i < records; i++)
        if (read(t, n, record(l, i)[START], record(l, i)[LENGTH], record(l, i)[KIND]) == DONE && write(record(l, i)[KIND]) == DONE)
            count++;
    return count;
}
#elif defined PROFILE
uint64_t LIST(const uint8_t *text, uint64_t length, uint32_t profile, uint32_t *list, uint64_t numbers);
static uint64_t under_profile(const uint8_t *t, uint64_t n, uint32_t *l, uint64_t c) { return LIST(t, n, PROFILE, l, c); }
#else
list_function LIST;
#define under_profile LIST
#endif

static uint8_t text[TEXT + 1]; /* SQLite wants a 0 behind the text */
static uint64_t length;
static uint32_t list[NUMBERS];

/* A stack of its own for the calls that are measured, filled with a pattern. */
static uint8_t lane[LANE] __attribute__((aligned(64)));
#ifdef __x86_64__
enum { RETURN = 8 }; /* a call pushes its return address */
__attribute__((naked, noinline)) static void on_lane(void *top, void (*f)(void))
{
    __asm__("push %rbx\n mov %rsp, %rbx\n mov %rdi, %rsp\n call *%rsi\n mov %rbx, %rsp\n pop %rbx\n ret");
}
#else
enum { RETURN = 0 }; /* a function that keeps its return address has it in its frame */
__attribute__((naked, noinline)) static void on_lane(void *top, void (*f)(void))
{
    __asm__("push {r4, lr}\n mov r4, sp\n mov sp, r0\n blx r1\n mov sp, r4\n pop {r4, pc}");
}
#endif

/* How deep the lane was written to. */
static unsigned depth(void (*f)(void))
{
    unsigned i = 0;
    memset(lane, 0xA5, LANE);
    on_lane(lane + LANE, f);
    while (i < LANE && lane[i] == 0xA5)
        i++;
    return LANE - i;
}

/* Calls go through a pointer, so that one that does nothing can stand in: what its caller takes is no part of the call's stack. */
static uint64_t no_list(const uint8_t *t, uint64_t n, uint32_t *l, uint64_t c) { return 0; }
static list_function *volatile list_call;
static void list_once(void) { list_call(text, length, list, NUMBERS); }

static unsigned list_stack(list_function *call)
{
    list_call = call;
    unsigned deep = depth(list_once);
    list_call = no_list;
    return deep - depth(list_once) + RETURN;
}

#ifdef ALL_CALLS
static uint64_t places[TEXT + 1], place_count;
static uint32_t no_call(const uint8_t *t, uint64_t n, uint64_t at, uint32_t p, uint64_t *a) { return 0; }
static place_function *volatile place_call;
static void call_at_places(void)
{
    for (uint64_t i = 0; i < place_count; i++)
        place_call(text, length, places[i], PROFILE, answer);
}

static unsigned place_stack(place_function *call)
{
    place_call = call;
    unsigned deep = depth(call_at_places);
    place_call = no_call;
    return deep - depth(call_at_places) + RETURN;
}

static uint64_t records;
static uint32_t no_check(const uint8_t *t, uint64_t n, uint32_t p, const uint32_t *l, uint64_t c, uint64_t *i) { return 0; }
static check_function *volatile check_call;
static void check_once(void) { check_call(text, length, PROFILE, list, records, answer); }

static unsigned check_stack(check_function *call)
{
    check_call = call;
    unsigned deep = depth(check_once);
    check_call = no_check;
    return deep - depth(check_once) + RETURN;
}

static uint32_t no_pair(const uint32_t *l, uint64_t n, uint32_t *p, uint64_t m, uint64_t *v) { return 0; }
static pair_function *volatile pair_call;
static void pair_once(void) { pair_call(list, RECORD_WIDTH * records, partners, TEXT, answer); }

static unsigned pair_stack(pair_function *call)
{
    pair_call = call;
    unsigned deep = depth(pair_once);
    pair_call = no_pair;
    return deep - depth(pair_once) + RETURN;
}

static void other_stacks(void)
{
    records = under_profile(text, length, list, NUMBERS);
    printf("sqllex_check_list %u\n", check_stack(sqllex_check_list));
    printf("sqllex_pair %u\n", pair_stack(sqllex_pair));
    for (place_count = 0; place_count < records; place_count++)
        places[place_count] = record(list, place_count)[START];
    places[place_count++] = length;
    printf("sqllex_next %u\n", place_stack(sqllex_next)); /* at each token and at the end */
    place_count = 0;
    for (uint64_t at = 0; places[place_count++] = at, sqllex_cut(text, length, at, PROFILE, answer) == CUT;)
        at = answer[3];
    printf("sqllex_cut %u\n", place_stack(sqllex_cut)); /* at each statement */
}
#else
static void other_stacks(void) {}
#endif

int main(int argc, char **argv)
{
    FILE *file = argc == 3 ? fopen(argv[1], "rb") : 0;
    if (!file)
        return 2;
    length = fread(text, 1, TEXT, file);
    if (!strcmp(argv[2], "stack")) {
        printf(NAME(LIST) " %u\n", list_stack(under_profile));
        other_stacks();
    } else if (!strcmp(argv[2], "dump")) {
        uint64_t records = under_profile(text, length, list, NUMBERS);
#ifdef PAIRS
        for (uint64_t i = 0; i < records; i++)
            record(list, i)[START] = partners[i];
#endif
        for (uint64_t i = 0; i < RECORD_WIDTH * records; i++)
            printf("%u%c", (unsigned)list[i], (i + 1) % RECORD_WIDTH ? ' ' : '\n');
    } else {
        for (int i = atoi(argv[2]); i > 0; i--)
            under_profile(text, length, list, NUMBERS);
    }
    return 0;
}
