/* The exported calls of libposition_book.a, for C. A call asks one thing of its caller: room on the stack, of
   POSITION_BOOK_COMPILE_STACK bytes (compile) or POSITION_BOOK_CALL_STACK (every other). Beside that nothing: whatever the
   bytes and numbers are, it ends within its buffers with the documents' number (0: done), and a refusal changes no byte.
   Buffers that one call is lent must not overlap.
   tests/declarations.rs holds these declarations to the exported signatures, tests/stack.rs the figures to the archive. */
#ifndef POSITION_BOOK_H
#define POSITION_BOOK_H

#include <stddef.h>
#include <stdint.h>

#ifdef __cplusplus
extern "C" {
#endif

/* The bytes of a table, the least length of a row buffer, the most bytes of an event's name, and the bytes of a book for c bars. */
#define POSITION_BOOK_TABLE_LENGTH 32768
#define POSITION_BOOK_ROW_BUFFER 2048
#define POSITION_BOOK_NAME_LIMIT 256
#define POSITION_BOOK_LENGTH(c) (96 + 64 * (size_t)(c))

/* The bytes of the stack that compile needs, and those that any other call needs. */
#define POSITION_BOOK_COMPILE_STACK 65536
#define POSITION_BOOK_CALL_STACK 16384

/* The length of a name. */
typedef struct {
    uint32_t number;
    size_t length;
} NameAnswer;

/* What a feed says: the position after the bar (-1, 0 or 1), whether it changed, and what decided the bar: 0 nothing, 1 an event, 2 the
   stop, 3 the timeout; the event's index where it is 1. */
typedef struct {
    uint32_t number;
    int32_t pos;
    uint32_t changed;
    uint32_t decision;
    uint32_t event;
} FeedAnswer;

/* A pair row: 1 for L or -1 for S, both local times, both prices, the id difference, days, the yield where it is present, the lengths
   of symbol, mark and sequence, and the lots that were opened. */
typedef struct {
    uint32_t number;
    int32_t side;
    int64_t opened;
    int64_t closed;
    double from;
    double to;
    int64_t ids;
    double days;
    uint32_t present;
    double bp;
    size_t symbol;
    size_t mark;
    size_t sequence;
    uint32_t lots;
} PairAnswer;

/* A hold row: its local time, -1, 0 or 1, its price, and the yield where it is present. */
typedef struct {
    uint32_t number;
    int64_t local;
    int32_t pos;
    double price;
    uint32_t present;
    double bp;
} HoldAnswer;

/* A block of rows: how many, and the length of their bytes. */
typedef struct {
    uint32_t number;
    size_t rows;
    size_t length;
} BlockAnswer;

/* How many rows a book has. */
typedef struct {
    uint32_t number;
    size_t holds;
    size_t pairs;
} CountsAnswer;

/* What a signal alone says: its score, and the lengths of its key and its three values. */
typedef struct {
    uint32_t number;
    uint64_t score;
    size_t key;
    size_t v1;
    size_t v2;
    size_t v3;
} SignalAnswer;

/* The code of an operate alone. */
typedef struct {
    uint32_t number;
    uint32_t code;
} OperateAnswer;

/* Compiles the sheet of a text into the table. */
uint32_t position_book_compile(const uint8_t *text, size_t text_length, uint8_t *table, size_t table_length);

/* Makes the book one with no bars. */
uint32_t position_book_fresh(uint8_t *book, size_t book_length);

/* Feeds a bar and its signals into the book, by the table. */
FeedAnswer position_book_feed(const uint8_t *table, size_t table_length, uint8_t *book, size_t book_length, int64_t id, int64_t instant, int64_t offset, double price, const uint8_t *signals, size_t signals_length);

/* Feeds the bar of one line of the exchange's comma file, id,YYYY-MM-DD HH:MM:SS+HH:MM,price, without its LF, and its
   signals into the book, by the table. */
FeedAnswer position_book_feed_line(const uint8_t *table, size_t table_length, uint8_t *book, size_t book_length, const uint8_t *line, size_t line_length, const uint8_t *signals, size_t signals_length);

/* Copies the book to the image. */
uint32_t position_book_save(const uint8_t *table, size_t table_length, const uint8_t *book, size_t book_length, uint8_t *image, size_t image_length);

/* Copies the image back to the book. */
uint32_t position_book_restore(const uint8_t *table, size_t table_length, uint8_t *book, size_t book_length, const uint8_t *image, size_t image_length);

/* A pair row of the book by its index; its symbol, mark and sequence go one after another to the start of the buffer, which
   must have 2,048 bytes or more. */
PairAnswer position_book_pair_row(const uint8_t *table, size_t table_length, const uint8_t *book, size_t book_length, int64_t index, uint8_t *buffer, size_t buffer_length);

/* A hold row of the book by its index. */
HoldAnswer position_book_hold_row(const uint8_t *table, size_t table_length, const uint8_t *book, size_t book_length, int64_t index);

/* The pair rows from number first on, one after another from the start of rows on: as many as fit. A row is 96 bytes and its texts, all
   little-endian: i32 side, u32 yield present, i64 opened, i64 closed, double from, double to, i64 ids, double days, double bp, u64 lengths of
   symbol, mark and sequence, u64 lots; then symbol, mark and sequence. The buffer must have room for a longest row, 2,144 bytes. */
BlockAnswer position_book_pair_rows(const uint8_t *table, size_t table_length, const uint8_t *book, size_t book_length, int64_t first, uint8_t *rows, size_t rows_length);

/* The hold rows from number first on, in the same way. A row is 32 bytes: i64 local, i32 pos, u32 yield present, double price, double bp. */
BlockAnswer position_book_hold_rows(const uint8_t *table, size_t table_length, const uint8_t *book, size_t book_length, int64_t first, uint8_t *rows, size_t rows_length);

/* How many hold rows and pair rows the book has. */
CountsAnswer position_book_counts(const uint8_t *table, size_t table_length, const uint8_t *book, size_t book_length);

/* The name of an event of the table by its index, to the start of the buffer, which must have 256 bytes or more. */
NameAnswer position_book_event_name(const uint8_t *table, size_t table_length, int64_t index, uint8_t *buffer, size_t buffer_length);

/* Reads a signal alone. Its key and values go one after another to the start of out, which must not be shorter than the text. */
SignalAnswer position_book_signal(const uint8_t *text, size_t text_length, uint8_t *out, size_t out_length);

/* Reads an operate alone, in either spelling. */
OperateAnswer position_book_operate(const uint8_t *text, size_t text_length);

/* Writes the Chinese name of an operate's code to the start of out, which must have 6 bytes or more. */
NameAnswer position_book_operate_name(uint32_t code, uint8_t *out, size_t out_length);

#ifdef __cplusplus
}
#endif

#endif
