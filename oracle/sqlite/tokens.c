/* tokens: what SQLite's own tokenizer says of the records of standard input (docs/SQLBATCH.md). For each record a line: the token's code
 * and its length at every place of the text, one place after the other, whatever the offset. `tokens complete`: for each record a line,
 * 1 where sqlite3_complete says that the text's last statement has ended, else 0. `tokens version` prints SQLite's version alone. It is
 * linked with libsqlite3.a, where the tokenizer can be called by its name; no header declares it, nor its codes. */
#include <stdio.h>
#include <string.h>

int sqlite3GetToken(const unsigned char *text, int *code);
int sqlite3_complete(const char *text);
const char *sqlite3_libversion(void);

enum { LONGEST = 65536 };

static unsigned long number(const unsigned char *bytes) {
    return bytes[0] | (unsigned long)bytes[1] << 8 | (unsigned long)bytes[2] << 16 | (unsigned long)bytes[3] << 24;
}

/* SQLite reads up to a zero byte, so one stands behind the text. */
static void answer(const unsigned char *text, unsigned long length) {
    for (unsigned long place = 0; place < length; place++) {
        int code;
        int bytes = sqlite3GetToken(text + place, &code);
        printf(place > 0 ? " %d %d" : "%d %d", code, bytes);
    }
    putchar('\n');
}

int main(int argc, char **argv) {
    static unsigned char text[LONGEST + 1];
    unsigned char head[8];
    int complete = argc == 2 && strcmp(argv[1], "complete") == 0;
    if (argc == 2 && strcmp(argv[1], "version") == 0) {
        puts(sqlite3_libversion());
        return 0;
    }
    size_t had;
    while ((had = fread(head, 1, sizeof head, stdin)) == sizeof head) {
        unsigned long length = number(head + 4);
        if (length > LONGEST || fread(text, 1, length, stdin) != length) {
            break;
        }
        text[length] = 0;
        if (complete) {
            puts(sqlite3_complete((const char *)text) ? "1" : "0");
        } else {
            answer(text, length);
        }
    }
    if (had != 0) {
        puts("BADRECORD");
        return 1;
    }
    return 0;
}
