/* SQLite's own tokenizer with a list of RECORD_WIDTH numbers a record. With -DFROM_SOURCE it is compiled here, else linked. */
#ifdef FROM_SOURCE
#define SQLITE_OS_OTHER 1
#define SQLITE_THREADSAFE 0
#include "global.c"
#include "tokenize.c"
#else
int sqlite3GetToken(const unsigned char *, int *);
#endif
#include <stdint.h>

/* Kind (SQLite's number), start, length, line and column. It counts no lines itself, so each token's bytes are looked at for 0A. */
uint64_t sqlite_list(const uint8_t *text, uint64_t length, uint32_t *list, uint64_t numbers)
{
    uint64_t records = 0, at = 0, line_start = 0;
    uint32_t line = 1;
    while (at < length && numbers - RECORD_WIDTH * records >= RECORD_WIDTH) {
        int kind;
        int step = sqlite3GetToken(text + at, &kind);
        uint32_t *record = list + RECORD_WIDTH * records;
        record[0] = (uint32_t)kind;
        record[1] = (uint32_t)at;
        record[2] = (uint32_t)step;
        record[3] = line;
        record[4] = (uint32_t)(at - line_start + 1);
        records++;
        uint64_t end = at + (uint64_t)step;
        while (at < end)
            if (text[at++] == '\n') {
                line++;
                line_start = at;
            }
    }
    return records;
}
