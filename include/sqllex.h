/*
 * sqllex.h: a SQL lexer for C and C++. examples/tokens.c calls sqllex_list_from, examples/slices.c lists a text a slice at a time,
 * examples/checked.c checks a list that was made elsewhere, examples/pairs.c pairs the brackets of a list, examples/stream.c lexes a text in
 * small parts, examples/settings.c reads the literals of such a text as they arrive, and examples/tokens.rs calls sqllex_next from Rust.
 *
 * Declares the calls of libcapi.a, which `tools/archive FILE` proves, builds from crates/capi and puts at FILE. The archive is
 * code for x86-64 Linux, needs no other library, and follows that system's calling convention, SSE registers and the red zone
 * included. tests/header fails where this file and the code part ways.
 *
 * What every call does. It returns, whatever the bytes; a text may hold any bytes, zeros too, and needs no zero behind it. It reads
 * the text alone, and writes only the list's first numbers and the answer or the slice, as said below; one that checks a list reads the
 * text and the records alone, and writes only the index; the one that pairs brackets reads the records' numbers alone, and writes only the
 * first of the partners and the value; a call of a stream reads the stream, the row and the part alone, and writes only the stream, the
 * row and what is given; one that reads or writes a literal reads the text or the value alone, and writes only the buffer's first bytes
 * and where the value or the count goes. It uses no heap, no variable of its own outside the stack and no call of the system, so that any
 * number of threads may call at once, on one text and on the same records too, each with its own list and answer or slice, its own
 * index, its own partners and value, its own stream, row and place for what is given, or its own buffer and place for a value or a count.
 *
 * What a caller owes. Nothing tests these: a call that breaks one has no meaning.
 * - A text, a part of one, a word, a value's bytes or a buffer is two arguments, where its first byte is and how many bytes there are;
 *   a list as well, numbers of records and partners too, where the length is the number of its uint32_t (not of bytes, not of records),
 *   and so are records, where the count is that of records. So many must be there, in one object that lives until the call returns. With a
 *   length or a count of 0 nothing is read or written there, and the pointer may be null.
 * - A row has SQLLEX_ROW_LENGTH bytes.
 * - A list, numbers, partners, records and a stream are aligned as uint32_t is, an answer, a slice, an index, what is given, a count and
 *   `value` of sqllex_pair as size_t is, `value` of sqllex_read_integer as int64_t is; an answer, a slice, `index`, a stream, a row, what
 *   is given, both `value` and `bytes` are never null. None needs values beforehand, but that a stream is begun first and that records or
 *   their numbers are there to be checked or paired, whatever they hold.
 * - Text, list and answer or slice of one call do not overlap, nor do text, records and index, nor do numbers, partners and value, nor do
 *   stream, row, part and what is given, nor do text or value, buffer, and where the value or the count goes; and nobody else writes to
 *   them while it runs: no thread, interrupt or DMA.
 * - An offset may be any number, and so may an allowance, and a span's start and length. One past the end is refused and reads nothing.
 * - A profile may be any number. With one that is neither of the two below nothing is read or written.
 * - Stream and row are the caller's, who leaves both as they are between the calls of one text. A call that finds other numbers or
 *   bytes in them has a meaning still: it does what every call does, but its answer says nothing of a text.
 */
#ifndef SQLLEX_H
#define SQLLEX_H

#include <stddef.h>
#include <stdint.h>
#ifndef __cplusplus
#include <stdbool.h>
#endif

/*
 * What a call says beside its status. With SQLLEX_UNKNOWN_PROFILE and SQLLEX_UNKNOWN_STREAM a call writes none of the six, with any
 * other status all. `start` and `length` are a span of the text in bytes; places count from the text's first byte, wherever lexing
 * began, and of a stream from the first byte of all parts. `next` is the offset to go on from after a find, a full list or a pause;
 * after a refusal see each call. `digits` and `underscores` are those of a number that sqllex_next or a stream finds; else both are 0.
 */
typedef struct sqllex_answer {
    size_t value; /* the kind (next, a stream), the number of records (list_from, list_part), whether tokens came (cut) */
    size_t start;
    size_t length;
    size_t next;
    size_t digits;
    size_t underscores;
} sqllex_answer;

/* What sqllex_list_part says beside its status: an answer, and how many lexemes it passed, those without a record among them. */
typedef struct sqllex_slice {
    sqllex_answer answer;
    size_t spent;
} sqllex_slice;

/* What a call of a stream says beside its status: an answer, and how many bytes of the part it took, from the first on. */
typedef struct sqllex_given {
    sqllex_answer answer;
    size_t taken;
} sqllex_given;

/*
 * A stream between its calls; sqllex_stream_begin sets all six. They hold no address: stream and row may be copied, together, and gone
 * on with elsewhere.
 */
typedef struct sqllex_stream {
    uint32_t profile;
    uint32_t phase;   /* 0, parts are taken; 1, finish calls alone; 2, every call is refused */
    uint32_t reading; /* what was read of a lexeme, 0 to 46 */
    uint32_t given;   /* so many bytes at the row's front are the token given last */
    uint32_t held;    /* so many bytes at the row's front are in use */
    uint32_t total;   /* so many bytes were taken */
} sqllex_stream;

/*
 * A token of a list, which has these five numbers of each, in this order; sqllex_record_at reads them, and sqllex_check_list takes an
 * array of such records. Line and column say for people where the token starts. Both are counted from 1 and from the text's beginning,
 * also where the list starts later. A byte 0A ends a line, and is itself the last of it; no other byte does. A column counts bytes, not
 * characters.
 */
typedef struct sqllex_record {
    uint32_t kind;
    uint32_t start;
    uint32_t length;
    uint32_t line;   /* 1, and one more for each 0A before the start */
    uint32_t column; /* 1, and one more for each byte of its line before the start */
} sqllex_record;

#if defined(__cplusplus) && __cplusplus >= 201103L
static_assert(sizeof(sqllex_answer) == 48, "the library's answers are six words of 8 bytes");
static_assert(sizeof(sqllex_slice) == 56, "the library's slices are seven words of 8 bytes");
static_assert(sizeof(sqllex_given) == 56, "what a stream gives is seven words of 8 bytes");
static_assert(sizeof(sqllex_stream) == 24, "the library's streams are six words of 4 bytes");
static_assert(sizeof(sqllex_record) == 20, "the library's records are five words of 4 bytes");
#elif defined(__STDC_VERSION__) && __STDC_VERSION__ >= 201112L
_Static_assert(sizeof(sqllex_answer) == 48, "the library's answers are six words of 8 bytes");
_Static_assert(sizeof(sqllex_slice) == 56, "the library's slices are seven words of 8 bytes");
_Static_assert(sizeof(sqllex_given) == 56, "what a stream gives is seven words of 8 bytes");
_Static_assert(sizeof(sqllex_stream) == 24, "the library's streams are six words of 4 bytes");
_Static_assert(sizeof(sqllex_record) == 20, "the library's records are five words of 4 bytes");
#endif

/*
 * Profiles: whose SQL is lexed. Each call that lexes takes one; a stream keeps the one it was begun with. SQLLEX_TURSO lexes as
 * turso_parser does; SQLLEX_SQLITE is nearer SQLite, and differs in this alone:
 * - `[` up to the first `]` is a name: one token of kind SQLLEX_TK_ID. Without a `]` it is refused, to the text's end, as
 *   SQLLEX_UNTERMINATED_LITERAL.
 * - `:` begins a parameter as `@` does: `:2` is one, and a `:` without a name is refused as SQLLEX_UNRECOGNIZED_TOKEN.
 * - `&&` is two tokens of kind SQLLEX_TK_BITAND.
 * - `@>` begins with an `@` without a name, and is refused as SQLLEX_UNRECOGNIZED_TOKEN.
 * - `_` directly behind the `e` of an exponent or behind its sign counts as no digit: `1e_5` is refused as SQLLEX_BAD_EXPONENT_PART.
 * Under it no token is of kind SQLLEX_TK_LBRACKET, SQLLEX_TK_COLON, SQLLEX_TK_ARRAY_OVERLAP or SQLLEX_TK_ARRAY_CONTAINS. What the
 * comments of the calls say holds under both.
 *
 * With any other number a call has the status SQLLEX_UNKNOWN_PROFILE, whatever its other arguments, and writes nothing.
 */
#define SQLLEX_TURSO 0u
#define SQLLEX_SQLITE 1u

/*
 * Statuses: 0, nothing is left; 1 to 99, a refusal, 99 that of a number that is no profile's, 98 that of six numbers that are no
 * stream's; 100 to 102, a find; 103, a stream wants more bytes; 104, a literal was read or written, or brackets were paired; 105, a list
 * paused; 106, a list was accepted.
 */
#define SQLLEX_END 0u
#define SQLLEX_UNRECOGNIZED_TOKEN 1u
#define SQLLEX_UNTERMINATED_LITERAL 2u
#define SQLLEX_BAD_NUMBER 3u
#define SQLLEX_BAD_FRACTIONAL_PART 4u
#define SQLLEX_BAD_EXPONENT_PART 5u
#define SQLLEX_MALFORMED_HEX_INTEGER 6u
#define SQLLEX_EXPECTED_EQUALS_SIGN 7u
#define SQLLEX_OFFSET_PAST_END 8u
#define SQLLEX_TOO_LONG 9u
#define SQLLEX_LIST_FULL 10u
#define SQLLEX_NOT_THAT_LITERAL 11u
#define SQLLEX_OUT_OF_RANGE 12u
#define SQLLEX_NO_ROOM 13u
#define SQLLEX_LEXEME_TOO_LONG 14u
#define SQLLEX_CLOSED 15u
#define SQLLEX_LIST_DIFFERS 16u
#define SQLLEX_NOT_RECORDS 17u
#define SQLLEX_TOO_DEEP 18u
#define SQLLEX_WRONG_CLOSER 19u
#define SQLLEX_LEFT_OPEN 20u
#define SQLLEX_UNKNOWN_STREAM 98u
#define SQLLEX_UNKNOWN_PROFILE 99u
#define SQLLEX_TOKEN 100u
#define SQLLEX_CUT 101u
#define SQLLEX_OPEN 102u
#define SQLLEX_MORE 103u
#define SQLLEX_DONE 104u
#define SQLLEX_PAUSED 105u
#define SQLLEX_ACCEPTED 106u

/* The longest text that list, list_from, list_part and check_list take, in bytes. next and cut take any. */
#define SQLLEX_LONGEST_TEXT 65535u

/* How many numbers a record of a list has, those of sqllex_record. So many for each byte of the text are always enough. */
#define SQLLEX_RECORD_WIDTH 5u

/* How deep brackets may nest where sqllex_pair pairs them. */
#define SQLLEX_DEEPEST_NESTING 16u

/* The longest lexeme that a stream takes, and how long its row is, in bytes: such a lexeme and two more. */
#define SQLLEX_LONGEST_LEXEME 2048u
#define SQLLEX_ROW_LENGTH 2050u

/* How many kinds there are; they are numbered from 0. docs/KINDS.md has the words and forms of each. */
#define SQLLEX_KINDS_COUNT 176u

#define SQLLEX_TK_NONE 0u
#define SQLLEX_TK_LP 1u
#define SQLLEX_TK_RP 2u
#define SQLLEX_TK_SEMI 3u
#define SQLLEX_TK_PLUS 4u
#define SQLLEX_TK_STAR 5u
#define SQLLEX_TK_REM 6u
#define SQLLEX_TK_COMMA 7u
#define SQLLEX_TK_BITNOT 8u
#define SQLLEX_TK_LBRACKET 9u
#define SQLLEX_TK_RBRACKET 10u
#define SQLLEX_TK_MINUS 11u
#define SQLLEX_TK_SLASH 12u
#define SQLLEX_TK_LT 13u
#define SQLLEX_TK_GT 14u
#define SQLLEX_TK_BITOR 15u
#define SQLLEX_TK_BITAND 16u
#define SQLLEX_TK_DOT 17u
#define SQLLEX_TK_COLON 18u
#define SQLLEX_TK_EQ 19u
#define SQLLEX_TK_PTR 20u
#define SQLLEX_TK_LE 21u
#define SQLLEX_TK_LSHIFT 22u
#define SQLLEX_TK_NE 23u
#define SQLLEX_TK_GE 24u
#define SQLLEX_TK_RSHIFT 25u
#define SQLLEX_TK_CONCAT 26u
#define SQLLEX_TK_ARRAY_OVERLAP 27u
#define SQLLEX_TK_ARRAY_CONTAINS 28u
#define SQLLEX_TK_STRING 29u
#define SQLLEX_TK_ID 30u
#define SQLLEX_TK_INTEGER 31u
#define SQLLEX_TK_FLOAT 32u
#define SQLLEX_TK_BLOB 33u
#define SQLLEX_TK_VARIABLE 34u
#define SQLLEX_TK_ILLEGAL 35u
#define SQLLEX_TK_ABORT 36u
#define SQLLEX_TK_ACTION 37u
#define SQLLEX_TK_ADD 38u
#define SQLLEX_TK_AFTER 39u
#define SQLLEX_TK_ALL 40u
#define SQLLEX_TK_ALTER 41u
#define SQLLEX_TK_ALWAYS 42u
#define SQLLEX_TK_ANALYZE 43u
#define SQLLEX_TK_AND 44u
#define SQLLEX_TK_AS 45u
#define SQLLEX_TK_ASC 46u
#define SQLLEX_TK_ATTACH 47u
#define SQLLEX_TK_AUTOINCR 48u
#define SQLLEX_TK_BEFORE 49u
#define SQLLEX_TK_BEGIN 50u
#define SQLLEX_TK_BETWEEN 51u
#define SQLLEX_TK_BY 52u
#define SQLLEX_TK_CASCADE 53u
#define SQLLEX_TK_CASE 54u
#define SQLLEX_TK_CAST 55u
#define SQLLEX_TK_CHECK 56u
#define SQLLEX_TK_COLLATE 57u
#define SQLLEX_TK_COLUMNKW 58u
#define SQLLEX_TK_COMMIT 59u
#define SQLLEX_TK_CONCURRENT 60u
#define SQLLEX_TK_CONFLICT 61u
#define SQLLEX_TK_CONSTRAINT 62u
#define SQLLEX_TK_CREATE 63u
#define SQLLEX_TK_JOIN_KW 64u
#define SQLLEX_TK_CURRENT 65u
#define SQLLEX_TK_CTIME_KW 66u
#define SQLLEX_TK_DATABASE 67u
#define SQLLEX_TK_DEFAULT 68u
#define SQLLEX_TK_DEFERRABLE 69u
#define SQLLEX_TK_DEFERRED 70u
#define SQLLEX_TK_DELETE 71u
#define SQLLEX_TK_DESC 72u
#define SQLLEX_TK_DETACH 73u
#define SQLLEX_TK_DISTINCT 74u
#define SQLLEX_TK_DO 75u
#define SQLLEX_TK_DROP 76u
#define SQLLEX_TK_EACH 77u
#define SQLLEX_TK_ELSE 78u
#define SQLLEX_TK_END 79u
#define SQLLEX_TK_ESCAPE 80u
#define SQLLEX_TK_EXCEPT 81u
#define SQLLEX_TK_EXCLUDE 82u
#define SQLLEX_TK_EXCLUSIVE 83u
#define SQLLEX_TK_EXISTS 84u
#define SQLLEX_TK_EXPLAIN 85u
#define SQLLEX_TK_FAIL 86u
#define SQLLEX_TK_FILTER 87u
#define SQLLEX_TK_FIRST 88u
#define SQLLEX_TK_FOLLOWING 89u
#define SQLLEX_TK_FOR 90u
#define SQLLEX_TK_FOREIGN 91u
#define SQLLEX_TK_FROM 92u
#define SQLLEX_TK_GENERATED 93u
#define SQLLEX_TK_LIKE_KW 94u
#define SQLLEX_TK_GROUP 95u
#define SQLLEX_TK_GROUPS 96u
#define SQLLEX_TK_HAVING 97u
#define SQLLEX_TK_IF 98u
#define SQLLEX_TK_IGNORE 99u
#define SQLLEX_TK_IMMEDIATE 100u
#define SQLLEX_TK_IN 101u
#define SQLLEX_TK_INDEX 102u
#define SQLLEX_TK_INDEXED 103u
#define SQLLEX_TK_INITIALLY 104u
#define SQLLEX_TK_INSERT 105u
#define SQLLEX_TK_INSTEAD 106u
#define SQLLEX_TK_INTERSECT 107u
#define SQLLEX_TK_INTO 108u
#define SQLLEX_TK_IS 109u
#define SQLLEX_TK_ISNULL 110u
#define SQLLEX_TK_JOIN 111u
#define SQLLEX_TK_KEY 112u
#define SQLLEX_TK_LAST 113u
#define SQLLEX_TK_LIMIT 114u
#define SQLLEX_TK_MATCH 115u
#define SQLLEX_TK_MATERIALIZED 116u
#define SQLLEX_TK_NO 117u
#define SQLLEX_TK_NOT 118u
#define SQLLEX_TK_NOTHING 119u
#define SQLLEX_TK_NOTNULL 120u
#define SQLLEX_TK_NULL 121u
#define SQLLEX_TK_NULLS 122u
#define SQLLEX_TK_OF 123u
#define SQLLEX_TK_OFFSET 124u
#define SQLLEX_TK_ON 125u
#define SQLLEX_TK_OR 126u
#define SQLLEX_TK_ORDER 127u
#define SQLLEX_TK_OPTIMIZE 128u
#define SQLLEX_TK_OTHERS 129u
#define SQLLEX_TK_OVER 130u
#define SQLLEX_TK_PARTITION 131u
#define SQLLEX_TK_PLAN 132u
#define SQLLEX_TK_PRAGMA 133u
#define SQLLEX_TK_PRECEDING 134u
#define SQLLEX_TK_PRIMARY 135u
#define SQLLEX_TK_QUERY 136u
#define SQLLEX_TK_RAISE 137u
#define SQLLEX_TK_RANGE 138u
#define SQLLEX_TK_RECURSIVE 139u
#define SQLLEX_TK_REFERENCES 140u
#define SQLLEX_TK_REINDEX 141u
#define SQLLEX_TK_RELEASE 142u
#define SQLLEX_TK_RENAME 143u
#define SQLLEX_TK_REPLACE 144u
#define SQLLEX_TK_RETURNING 145u
#define SQLLEX_TK_RESTRICT 146u
#define SQLLEX_TK_ROLLBACK 147u
#define SQLLEX_TK_ROW 148u
#define SQLLEX_TK_ROWS 149u
#define SQLLEX_TK_SAVEPOINT 150u
#define SQLLEX_TK_SELECT 151u
#define SQLLEX_TK_SET 152u
#define SQLLEX_TK_TABLE 153u
#define SQLLEX_TK_TEMP 154u
#define SQLLEX_TK_THEN 155u
#define SQLLEX_TK_TIES 156u
#define SQLLEX_TK_TO 157u
#define SQLLEX_TK_TRANSACTION 158u
#define SQLLEX_TK_TRIGGER 159u
#define SQLLEX_TK_TYPE 160u
#define SQLLEX_TK_UNBOUNDED 161u
#define SQLLEX_TK_UNION 162u
#define SQLLEX_TK_UNIQUE 163u
#define SQLLEX_TK_UPDATE 164u
#define SQLLEX_TK_USING 165u
#define SQLLEX_TK_VACUUM 166u
#define SQLLEX_TK_VALUES 167u
#define SQLLEX_TK_VIEW 168u
#define SQLLEX_TK_VIRTUAL 169u
#define SQLLEX_TK_WHEN 170u
#define SQLLEX_TK_WHERE 171u
#define SQLLEX_TK_WINDOW 172u
#define SQLLEX_TK_WITH 173u
#define SQLLEX_TK_WITHIN 174u
#define SQLLEX_TK_WITHOUT 175u

/*
 * The kinds and the refusals once more, in the order of their numbers, for tables. X is a macro of yours that takes a kind as
 * TK_NONE, or a refusal as UNRECOGNIZED_TOKEN, UnrecognizedToken: the constant without SQLLEX_, and the name that sqllex prints.
 * Kinds leave no number out; the refusals have no 0.
 *
 *     #define NAME(kind) #kind,
 *     static const char *const kind_names[] = {SQLLEX_KINDS(NAME)};
 */
#define SQLLEX_KINDS(X) \
    X(TK_NONE) X(TK_LP) X(TK_RP) X(TK_SEMI) X(TK_PLUS) X(TK_STAR) X(TK_REM) X(TK_COMMA) X(TK_BITNOT) X(TK_LBRACKET) \
    X(TK_RBRACKET) X(TK_MINUS) X(TK_SLASH) X(TK_LT) X(TK_GT) X(TK_BITOR) X(TK_BITAND) X(TK_DOT) X(TK_COLON) X(TK_EQ) \
    X(TK_PTR) X(TK_LE) X(TK_LSHIFT) X(TK_NE) X(TK_GE) X(TK_RSHIFT) X(TK_CONCAT) X(TK_ARRAY_OVERLAP) \
    X(TK_ARRAY_CONTAINS) X(TK_STRING) X(TK_ID) X(TK_INTEGER) X(TK_FLOAT) X(TK_BLOB) X(TK_VARIABLE) X(TK_ILLEGAL) \
    X(TK_ABORT) X(TK_ACTION) X(TK_ADD) X(TK_AFTER) X(TK_ALL) X(TK_ALTER) X(TK_ALWAYS) X(TK_ANALYZE) X(TK_AND) \
    X(TK_AS) X(TK_ASC) X(TK_ATTACH) X(TK_AUTOINCR) X(TK_BEFORE) X(TK_BEGIN) X(TK_BETWEEN) X(TK_BY) X(TK_CASCADE) \
    X(TK_CASE) X(TK_CAST) X(TK_CHECK) X(TK_COLLATE) X(TK_COLUMNKW) X(TK_COMMIT) X(TK_CONCURRENT) X(TK_CONFLICT) \
    X(TK_CONSTRAINT) X(TK_CREATE) X(TK_JOIN_KW) X(TK_CURRENT) X(TK_CTIME_KW) X(TK_DATABASE) X(TK_DEFAULT) \
    X(TK_DEFERRABLE) X(TK_DEFERRED) X(TK_DELETE) X(TK_DESC) X(TK_DETACH) X(TK_DISTINCT) X(TK_DO) X(TK_DROP) \
    X(TK_EACH) X(TK_ELSE) X(TK_END) X(TK_ESCAPE) X(TK_EXCEPT) X(TK_EXCLUDE) X(TK_EXCLUSIVE) X(TK_EXISTS) \
    X(TK_EXPLAIN) X(TK_FAIL) X(TK_FILTER) X(TK_FIRST) X(TK_FOLLOWING) X(TK_FOR) X(TK_FOREIGN) X(TK_FROM) \
    X(TK_GENERATED) X(TK_LIKE_KW) X(TK_GROUP) X(TK_GROUPS) X(TK_HAVING) X(TK_IF) X(TK_IGNORE) X(TK_IMMEDIATE) \
    X(TK_IN) X(TK_INDEX) X(TK_INDEXED) X(TK_INITIALLY) X(TK_INSERT) X(TK_INSTEAD) X(TK_INTERSECT) X(TK_INTO) \
    X(TK_IS) X(TK_ISNULL) X(TK_JOIN) X(TK_KEY) X(TK_LAST) X(TK_LIMIT) X(TK_MATCH) X(TK_MATERIALIZED) X(TK_NO) \
    X(TK_NOT) X(TK_NOTHING) X(TK_NOTNULL) X(TK_NULL) X(TK_NULLS) X(TK_OF) X(TK_OFFSET) X(TK_ON) X(TK_OR) X(TK_ORDER) \
    X(TK_OPTIMIZE) X(TK_OTHERS) X(TK_OVER) X(TK_PARTITION) X(TK_PLAN) X(TK_PRAGMA) X(TK_PRECEDING) X(TK_PRIMARY) \
    X(TK_QUERY) X(TK_RAISE) X(TK_RANGE) X(TK_RECURSIVE) X(TK_REFERENCES) X(TK_REINDEX) X(TK_RELEASE) X(TK_RENAME) \
    X(TK_REPLACE) X(TK_RETURNING) X(TK_RESTRICT) X(TK_ROLLBACK) X(TK_ROW) X(TK_ROWS) X(TK_SAVEPOINT) X(TK_SELECT) \
    X(TK_SET) X(TK_TABLE) X(TK_TEMP) X(TK_THEN) X(TK_TIES) X(TK_TO) X(TK_TRANSACTION) X(TK_TRIGGER) X(TK_TYPE) \
    X(TK_UNBOUNDED) X(TK_UNION) X(TK_UNIQUE) X(TK_UPDATE) X(TK_USING) X(TK_VACUUM) X(TK_VALUES) X(TK_VIEW) \
    X(TK_VIRTUAL) X(TK_WHEN) X(TK_WHERE) X(TK_WINDOW) X(TK_WITH) X(TK_WITHIN) X(TK_WITHOUT)
#define SQLLEX_REFUSALS(X) \
    X(UNRECOGNIZED_TOKEN, UnrecognizedToken) \
    X(UNTERMINATED_LITERAL, UnterminatedLiteral) \
    X(BAD_NUMBER, BadNumber) \
    X(BAD_FRACTIONAL_PART, BadFractionalPart) \
    X(BAD_EXPONENT_PART, BadExponentPart) \
    X(MALFORMED_HEX_INTEGER, MalformedHexInteger) \
    X(EXPECTED_EQUALS_SIGN, ExpectedEqualsSign) \
    X(OFFSET_PAST_END, OffsetPastEnd) \
    X(TOO_LONG, TooLong) \
    X(LIST_FULL, ListFull) \
    X(NOT_THAT_LITERAL, NotThatLiteral) \
    X(OUT_OF_RANGE, OutOfRange) \
    X(NO_ROOM, NoRoom) \
    X(LEXEME_TOO_LONG, LexemeTooLong) \
    X(CLOSED, Closed) \
    X(LIST_DIFFERS, ListDiffers) \
    X(NOT_RECORDS, NotRecords) \
    X(TOO_DEEP, TooDeep) \
    X(WRONG_CLOSER, WrongCloser) \
    X(LEFT_OPEN, LeftOpen)

#ifdef __cplusplus
extern "C" {
#endif

/*
 * The lexeme at an offset of a text: a token, or a refusal. Blanks and comments are tokens of kind SQLLEX_TK_NONE.
 *
 *     status                   value  start        length       next
 *     SQLLEX_TOKEN             kind   offset       its length   start + length
 *     SQLLEX_END               0      text_length  0            text_length
 *     1 to 7                   0      of the span  of the span  offset, or start + length
 *     SQLLEX_OFFSET_PAST_END   0      0            0            offset
 *     SQLLEX_UNKNOWN_PROFILE   nothing is written
 *
 * A token of kind SQLLEX_TK_INTEGER or SQLLEX_TK_FLOAT has at least one digit. Of a hexadecimal integer the digits behind `0x` count,
 * of any other number all its decimal digits, and of each its underscores: `1.5e+1_0` has 4 and 1, `0x1_F` 2 and 1. Neither is ever
 * more than 4294967295, which stands for that many or more. Other tokens have 0 and 0, and so has every other answer.
 *
 * After a refusal of 1 to 7 `next` is the offset given, so that a call there refuses again; to go on behind the refused bytes, call
 * at start + length, which is greater than the offset. Only where the first byte begins no lexeme at all, as `{` does, is `next`
 * itself start + length; the status is then SQLLEX_UNRECOGNIZED_TOKEN. Past the end there is nothing to go on with.
 */
uint32_t sqllex_next(const uint8_t *text, size_t text_length, size_t offset, uint32_t profile, sqllex_answer *answer);

/*
 * The tokens of a text from an offset on, each as a record in a list: kind, start, length, line, column. The list has whole records
 * only, record i at list[i * SQLLEX_RECORD_WIDTH] and the four numbers behind it; those behind the last record stay as they were.
 *
 *     status                   value    start        length       next
 *     SQLLEX_END               records  text_length  0            text_length
 *     1 to 7                   records  of the span  of the span  as sqllex_next's there
 *     SQLLEX_OFFSET_PAST_END   0        0            0            offset
 *     SQLLEX_TOO_LONG          0        0            0            offset
 *     SQLLEX_LIST_FULL         records  next         0            of the token that has no place
 *     SQLLEX_UNKNOWN_PROFILE   nothing is written
 *
 * SQLLEX_TOO_LONG, for a text of more than SQLLEX_LONGEST_TEXT bytes, comes before any other but SQLLEX_UNKNOWN_PROFILE.
 * SQLLEX_LIST_FULL comes only where a token is left and fewer than SQLLEX_RECORD_WIDTH numbers are: take the records out, and call
 * again from `next` with the same list and profile. (A list of fewer numbers than that takes no token: with it this would not end.)
 *
 * What lies before the offset is gone through once, for its lines alone: nothing there is lexed or refused.
 */
uint32_t sqllex_list_from(const uint8_t *text, size_t text_length, size_t offset, uint32_t profile, uint32_t *list,
                          size_t list_length, sqllex_answer *answer);

/*
 * The tokens of a text from its beginning on, as sqllex_list_from writes them. Returns the number of records, and does not say
 * whether they are all: fewer where a lexeme is refused or the list is full, 0 for a text that is too long and for a number that is
 * no profile's.
 */
uint64_t sqllex_list(const uint8_t *text, size_t text_length, uint32_t profile, uint32_t *list, size_t list_length);

/*
 * The tokens of a text from an offset on but those of kind SQLLEX_TK_NONE, a slice at a time: for a caller with something else to do in
 * between. A call passes as many lexemes as `allowance` says and no more, blanks and comments counted; each that is no SQLLEX_TK_NONE
 * gets a record, the one that sqllex_list_from writes of it. `spent` says how many it passed.
 *
 *     status                   value    start        length       next                          spent
 *     SQLLEX_END               records  text_length  0            text_length                   lexemes passed
 *     1 to 7                   records  of the span  of the span  as sqllex_next's there        lexemes passed
 *     SQLLEX_OFFSET_PAST_END   0        0            0            offset                        0
 *     SQLLEX_TOO_LONG          0        0            0            offset                        0
 *     SQLLEX_PAUSED            records  next         0            of the lexeme that is next    allowance
 *     SQLLEX_LIST_FULL         records  next         0            of the token without a place  less than allowance
 *     SQLLEX_UNKNOWN_PROFILE   nothing is written
 *
 * SQLLEX_PAUSED comes exactly where the allowance is spent and another legal lexeme follows, which may be a blank: the end and a refusal
 * come before it, and it comes before SQLLEX_LIST_FULL. It is no refusal. Call again from `next` with the same profile, with the list's
 * records taken out, or with the rest of the list behind them: joined, the records are those of one call with a greater allowance. (An
 * allowance of 0 passes nothing and only asks what is there: with it this would not end.)
 *
 * SQLLEX_LIST_FULL comes only where a token that is no SQLLEX_TK_NONE is next and fewer than SQLLEX_RECORD_WIDTH numbers are left; blanks
 * and comments pass a full list. That token is not spent: take the records out, and call again from `next`, as after sqllex_list_from,
 * with a new allowance or with what is left of this one.
 *
 * SQLLEX_TOO_LONG, for a text of more than SQLLEX_LONGEST_TEXT bytes, comes before any other but SQLLEX_UNKNOWN_PROFILE.
 *
 * Lines are counted from the text's beginning in each call: what lies before the offset is gone through once for them, which costs some
 * instructions for each of its bytes (docs/PERFORMANCE.md has how many, where it speaks of a list from a later offset). So the slices of
 * a long text should not be tiny.
 */
uint32_t sqllex_list_part(const uint8_t *text, size_t text_length, size_t offset, uint32_t profile, uint32_t allowance, uint32_t *list,
                          size_t list_length, sqllex_slice *slice);

/* Record i of a list that has more than i of them. This is no call of the library. */
static inline sqllex_record sqllex_record_at(const uint32_t *list, size_t i)
{
    const uint32_t *numbers = list + i * SQLLEX_RECORD_WIDTH;
    sqllex_record record = {numbers[0], numbers[1], numbers[2], numbers[3], numbers[4]};
    return record;
}

/*
 * Whether a list that was made elsewhere, as on a phone that lexes before it sends, is a text's own: it is accepted exactly where it has
 * the records that sqllex_list_from writes from offset 0 on under this profile, all of them, blanks and comments too, and no other, and no
 * lexeme of the text is refused. An empty list is right for an empty text.
 *
 *     status                   *index
 *     SQLLEX_ACCEPTED          0
 *     SQLLEX_TOO_LONG          0
 *     SQLLEX_LIST_DIFFERS      of the first record that differs, is surplus or is missing
 *     SQLLEX_UNKNOWN_PROFILE   nothing is written
 *
 * Records may hold any numbers: each of the five is compared with the text's, and none is used for anything else, so that nothing has to
 * be known of who made them.
 *
 * With SQLLEX_LIST_DIFFERS `*index` is how many records agree, from the first on. It is less than records_count where a record is not
 * the text's, or stands where the text has ended or has a lexeme that is refused; it is records_count where all agree and the text has a
 * lexeme more, be it legal or refused. sqllex_list_from says which refusal that is.
 *
 * SQLLEX_TOO_LONG, for a text of more than SQLLEX_LONGEST_TEXT bytes, comes before SQLLEX_LIST_DIFFERS.
 *
 * What sqllex_list_from wrote into a list is checked as (const sqllex_record *)list, with the number of records that it told.
 */
uint32_t sqllex_check_list(const uint8_t *text, size_t text_length, uint32_t profile, const sqllex_record *records,
                           size_t records_count, size_t *index);

/*
 * The brackets of a list of records, paired before a parser with a small stack sees them: `(` with `)`, SQLLEX_TK_LP and SQLLEX_TK_RP,
 * and `[` with `]`, SQLLEX_TK_LBRACKET and SQLLEX_TK_RBRACKET. `numbers` is such a list as sqllex_list_from or sqllex_list_part writes, of
 * five numbers a record, or one that came from elsewhere: only kinds are looked at, and each may be any number; what is none of the four
 * is no bracket. No text is read and nothing is lexed, so that there is no profile.
 *
 *     status                   *value                                      partners
 *     SQLLEX_DONE              the deepest nesting, 0 where nothing nests  one for each record
 *     SQLLEX_NOT_RECORDS       0                                           as they were
 *     SQLLEX_TOO_LONG          0                                           as they were
 *     SQLLEX_NO_ROOM           0                                           as they were
 *     SQLLEX_TOO_DEEP          of the opener that is one too deep          as they were
 *     SQLLEX_WRONG_CLOSER      of the closer                               as they were
 *     SQLLEX_LEFT_OPEN         of the opener                               as they were
 *
 * With SQLLEX_DONE partners[i] is, for each record i, the index of the bracket that it is paired with, or i itself where it is no bracket;
 * what stands behind the last record's stays as it was. With a refusal of 18 to 20 `*value` is the index of a record.
 *
 * The refusals come in this order. SQLLEX_NOT_RECORDS: numbers_length is no multiple of SQLLEX_RECORD_WIDTH. SQLLEX_TOO_LONG: there are more
 * than 65535 records, which no list of a text has. SQLLEX_NO_ROOM: partners_length is less than the number of records. Then the first fault
 * in the records' order: SQLLEX_TOO_DEEP, an opener inside SQLLEX_DEEPEST_NESTING others; SQLLEX_WRONG_CLOSER, a closer where nothing is
 * open, or whose kind is not that of the innermost opener. SQLLEX_LEFT_OPEN: the records end before the innermost opener's closer.
 */
uint32_t sqllex_pair(const uint32_t *numbers, size_t numbers_length, uint32_t *partners, size_t partners_length, size_t *value);

/*
 * The statement from an offset on, up to and with the semicolon that ends it. Only a semicolon that is a token counts, none inside a
 * string, a quoted name (under SQLLEX_SQLITE also one in brackets), a comment or a parameter's `(..)`. A statement that begins with
 * CREATE TRIGGER, CREATE TEMP TRIGGER or CREATE TEMPORARY TRIGGER, or so behind EXPLAIN or EXPLAIN QUERY PLAN, ends only at a semicolon
 * that directly follows END which directly follows a semicolon; any other ends at its first. Blanks and comments do not count.
 *
 *     status                   value   start        length        next
 *     SQLLEX_CUT               0 or 1  offset       to behind ;   start + length
 *     SQLLEX_OPEN              1       offset       to the end    text_length
 *     SQLLEX_END               0       text_length  0             text_length
 *     1 to 7                   0       of the span  of the span   offset
 *     SQLLEX_OFFSET_PAST_END   0       0            0             offset
 *     SQLLEX_UNKNOWN_PROFILE   nothing is written
 *
 * `value` is 1 where a token that is no SQLLEX_TK_NONE came before that semicolon, or before the end where no semicolon ends the
 * statement. SQLLEX_OPEN: such a token came, and no semicolon that ends it. SQLLEX_END: neither came. A refusal is that of the first
 * lexeme which sqllex_next refuses before that semicolon.
 */
uint32_t sqllex_cut(const uint8_t *text, size_t text_length, size_t offset, uint32_t profile, sqllex_answer *answer);

/*
 * The kind of a word, under either profile: its keyword's, ASCII letters in capitals or not; SQLLEX_TK_ID for any other bytes, and
 * for none.
 */
uint32_t sqllex_word_kind(const uint8_t *word, size_t word_length);

/* Whether the word is a keyword other than TYPE, ASCII letters in capitals or not. */
bool sqllex_is_quotable_keyword(const uint8_t *word, size_t word_length);

/*
 * A stream lexes a text that comes in parts of any lengths, and need never be whole in memory. It is begun; each part is offered, and
 * what was not taken of it offered again; when no part comes any more, finish calls give what is left. `receive` and `use` are yours:
 *
 *     sqllex_stream stream;
 *     uint8_t row[SQLLEX_ROW_LENGTH];
 *     sqllex_given given;
 *     uint32_t status = sqllex_stream_begin(SQLLEX_TURSO, &stream);
 *     while (status == SQLLEX_MORE && receive(&part, &part_length))
 *         while ((status = sqllex_stream_offer(&stream, row, part, part_length, &given)) == SQLLEX_TOKEN) {
 *             use(&given.answer, row);
 *             part += given.taken;
 *             part_length -= given.taken;
 *         }
 *     if (status == SQLLEX_MORE)
 *         while ((status = sqllex_stream_finish(&stream, row, &given)) == SQLLEX_TOKEN)
 *             use(&given.answer, row);
 *
 * However a text is parted, the tokens, their places and the first refusal are those that sqllex_next gives of all the bytes taken,
 * called from token to token; but a stream refuses a lexeme of more than SQLLEX_LONGEST_LEXEME bytes, and a text of more than
 * 4294967295.
 *
 *     status                   value  start        length       next                 taken
 *     SQLLEX_TOKEN             kind   its start    its length   start + length       what settles it
 *     SQLLEX_MORE              0      0            0            0                    part_length
 *     SQLLEX_END               0      the total    0            the total            0
 *     1 to 7                   0      of the span  of the span  as sqllex_next's     what settles it
 *     SQLLEX_LEXEME_TOO_LONG   0      last         0            last                 what settles it
 *     SQLLEX_TOO_LONG          0      last         0            last                 0
 *     SQLLEX_CLOSED            0      last         0            last                 0
 *     SQLLEX_UNKNOWN_STREAM    nothing is written
 *
 * `last` is the end of the token given last, 0 before any. No more of a part is taken than settles the answer, so that no byte to come
 * can alter it: the lexeme and at most two bytes behind it. Those two are held in the row for the next call, so that `taken` may be 0,
 * and a token may come from a part of no bytes.
 *
 * Where a token is given its bytes are row[0] to row[length - 1], until the next call with that row: a caller can read a number, a name
 * or a string there, wherever the parts began and ended.
 *
 * SQLLEX_MORE: the whole part was taken, and bytes to come could alter the next answer. Offer the next part, or finish.
 *
 * SQLLEX_LEXEME_TOO_LONG: the longest lexeme at `last`, legal or malformed, has more than SQLLEX_LONGEST_LEXEME bytes. Blanks and
 * comments are lexemes too. A finish call never has this status.
 *
 * SQLLEX_TOO_LONG: the bytes taken before and this part are more than 4294967295 together. None of the part is taken, and what is held
 * gives no token any more.
 *
 * SQLLEX_CLOSED: the stream takes no part any more, or no call at all. After a finish call every part is refused so, and finish calls
 * go on; after SQLLEX_END or a refusal other than SQLLEX_CLOSED every call is. It changes neither stream nor row, and comes before any
 * other status but SQLLEX_UNKNOWN_STREAM. To lex another text, begin again.
 *
 * SQLLEX_UNKNOWN_STREAM: six numbers that are no stream's, its profile being greater than 1, its phase greater than 2 or its reading
 * greater than 46.
 */

/*
 * Begins a stream under a profile. Its status is SQLLEX_MORE: the stream wants its first part. With a number that is no profile's it is
 * SQLLEX_UNKNOWN_PROFILE, and nothing is written.
 */
uint32_t sqllex_stream_begin(uint32_t profile, sqllex_stream *stream);

/*
 * Offers a part, which may be of no bytes. While a token comes, offer the rest again, what was not taken, also where that is nothing;
 * until the status is SQLLEX_MORE, or a refusal. Of a stream that was begun it is never SQLLEX_END.
 */
uint32_t sqllex_stream_offer(sqllex_stream *stream, uint8_t *row, const uint8_t *part, size_t part_length, sqllex_given *given);

/*
 * No part comes any more: the next token of the bytes that are held. Call it until the status is SQLLEX_END, or a refusal. It takes
 * nothing, and its status is never SQLLEX_MORE.
 */
uint32_t sqllex_stream_finish(sqllex_stream *stream, uint8_t *row, sqllex_given *given);

/*
 * Literals: read from a span of a text, which is a start and a length, and written from a value.
 *
 *     status                    when
 *     SQLLEX_DONE               the value was read, the literal was written
 *     SQLLEX_UNKNOWN_PROFILE    the number is no profile's; only the calls that read take one
 *     SQLLEX_NOT_THAT_LITERAL   the span is no literal that the call reads
 *     SQLLEX_OUT_OF_RANGE       sqllex_read_integer: the number is no int64_t
 *     SQLLEX_NO_ROOM            the bytes, or the literal's, are more than buffer_length
 *
 * Where several refusals are due, the first in this table comes. With SQLLEX_DONE the value is written; by a call with a buffer the bytes
 * are, from the buffer's first on, and to `*bytes` how many they are; the buffer's bytes behind them stay as they were. With any other
 * status nothing is written: neither value nor count nor a byte of the buffer.
 *
 * A span is read that is exactly the token which sqllex_next gives at its start under that profile, of the kind that the call reads; so it
 * is best that of an answer or of a record. Any other is SQLLEX_NOT_THAT_LITERAL: one that ends before that token's end or behind it, one
 * of no bytes, and one that ends past the text, also where its end is greater than any size_t.
 *
 * A token of a stream is read from the row's front, where its bytes are until the next call with that row, as a text of its own, under the
 * stream's profile:
 *
 *     sqllex_read_integer(row, given.answer.length, 0, given.answer.length, profile, &value)
 *
 * By themselves its bytes are one token of the same kind, whatever followed them.
 *
 * A literal that was written is read back to the value, for every value and under both profiles. Of a literal that is read and written
 * again the text may be another, with the same value: underscores and zeros before a number are gone, and hexadecimal where the value is
 * not negative; digits from A to F are capitals, and the x of a blob or a number is small; a name in backticks or brackets has double
 * quotes.
 */

/*
 * The value of a token of kind SQLLEX_TK_INTEGER, to `*value`: a decimal number up to 9223372036854775807, or a hexadecimal one of up to
 * 64 bits, zeros before it not counted, which is taken as two's complement: 0xFFFFFFFFFFFFFFFF is -1. Underscores do not count. A minus
 * is a token of its own, so that no literal is the decimal -9223372036854775808.
 */
uint32_t sqllex_read_integer(const uint8_t *text, size_t text_length, size_t start, size_t length, uint32_t profile, int64_t *value);

/*
 * The bytes of a token of kind SQLLEX_TK_STRING, to the buffer's front, and to `*bytes` how many they are: what stands between its
 * quotes, each doubled quote made one. They are never more than length - 2.
 */
uint32_t sqllex_read_string(const uint8_t *text, size_t text_length, size_t start, size_t length, uint32_t profile, uint8_t *buffer,
                            size_t buffer_length, size_t *bytes);

/*
 * The same of a quoted name, a token of kind SQLLEX_TK_ID that begins with `"` or a backtick, under SQLLEX_SQLITE also with `[`, whose
 * bytes are those up to the first `]`. A bare word is of that kind too, and is SQLLEX_NOT_THAT_LITERAL: its bytes are the token's.
 */
uint32_t sqllex_read_name(const uint8_t *text, size_t text_length, size_t start, size_t length, uint32_t profile, uint8_t *buffer,
                          size_t buffer_length, size_t *bytes);

/* The same of a token of kind SQLLEX_TK_BLOB: a byte for each two hexadecimal digits, (length - 3) / 2 of them. */
uint32_t sqllex_read_blob(const uint8_t *text, size_t text_length, size_t start, size_t length, uint32_t profile, uint8_t *buffer,
                          size_t buffer_length, size_t *bytes);

/*
 * The literal of a value, to the buffer's front, and to `*bytes` how many bytes it has: in decimal, 1 to 19 bytes; of a negative value
 * `0x` and sixteen hexadecimal digits in capitals, 18 bytes. So a buffer of 19 has room for each.
 */
uint32_t sqllex_write_integer(int64_t value, uint8_t *buffer, size_t buffer_length, size_t *bytes);

/* The string literal of bytes: each `'` doubled, between two of them. Its length is value_length + 2 and one for each `'`. */
uint32_t sqllex_write_string(const uint8_t *value, size_t value_length, uint8_t *buffer, size_t buffer_length, size_t *bytes);

/* The quoted name of bytes: the same with `"`. */
uint32_t sqllex_write_name(const uint8_t *value, size_t value_length, uint8_t *buffer, size_t buffer_length, size_t *bytes);

/* The blob of bytes: `x'`, two hexadecimal digits in capitals for each byte, `'`. Its length is 2 * value_length + 3. */
uint32_t sqllex_write_blob(const uint8_t *value, size_t value_length, uint8_t *buffer, size_t buffer_length, size_t *bytes);

#ifdef __cplusplus
}
#endif

#endif
