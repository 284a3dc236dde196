/* A season through the C calls: compiles a sheet, feeds two bars, saves, restores, and prints what the run program prints for document 01's
   case *1. tests/c_program.rs compiles it, runs it, and compares what it prints. */
#include "position_book.h"

#include <inttypes.h>
#include <stdio.h>
#include <stdlib.h>
#include <string.h>

enum { BARS = 900 };

static uint8_t table[POSITION_BOOK_TABLE_LENGTH];
static uint8_t book[POSITION_BOOK_LENGTH(BARS)];
static uint8_t image[POSITION_BOOK_LENGTH(BARS)];

/* Ends the program where a call was refused. */
static void done(const char *call, uint32_t number)
{
    if (number != 0) {
        fprintf(stderr, "%s: refused with %" PRIu32 "\n", call, number);
        exit(1);
    }
}

/* The bits of a double. */
static uint64_t bits(double x)
{
    uint64_t b;
    memcpy(&b, &x, sizeof b);
    return b;
}

/* A yield as 16 hexadecimal digits, or `-`. */
static void print_yield(uint32_t present, double bp)
{
    if (present)
        printf("%016" PRIx64, bits(bp));
    else
        printf("-");
}

/* Feeds a bar, and prints its line. */
static void feed(int64_t id, int64_t instant, double price, const char *signals)
{
    FeedAnswer a = position_book_feed(table, sizeof table, book, sizeof book, id, instant, 0, price, (const uint8_t *)signals, strlen(signals));
    done("feed", a.number);
    printf("F|%" PRIu32 "|%" PRId32 "|%" PRIu32 "\n", a.number, a.pos, a.changed);
}

/* Prints every pair row. */
static void print_pairs(void)
{
    uint8_t text[POSITION_BOOK_ROW_BUFFER];
    for (int64_t i = 0;; i++) {
        PairAnswer p = position_book_pair_row(table, sizeof table, book, sizeof book, i, text, sizeof text);
        if (p.number == 15)
            return;
        done("pair_row", p.number);
        const char *mark = (const char *)text + p.symbol;
        const char *sequence = mark + p.mark;
        printf("R|%.*s|%.*s|%c|%" PRId64 "|%" PRId64, (int)p.symbol, (const char *)text, (int)p.mark, mark, p.side == 1 ? 'L' : 'S', p.opened, p.closed);
        printf("|%016" PRIx64 "|%016" PRIx64 "|%" PRId64, bits(p.from), bits(p.to), p.ids);
        printf("|%.*s|%016" PRIx64 "|", (int)p.sequence, sequence, bits(p.days));
        print_yield(p.present, p.bp);
        printf("|%" PRIu32 "\n", p.lots);
    }
}

/* Prints every hold row. */
static void print_holds(void)
{
    for (int64_t i = 0;; i++) {
        HoldAnswer h = position_book_hold_row(table, sizeof table, book, sizeof book, i);
        if (h.number == 15)
            return;
        done("hold_row", h.number);
        printf("H|%" PRId64 "|%" PRId32 "|%016" PRIx64 "|", h.local, h.pos, bits(h.price));
        print_yield(h.present, h.bp);
        printf("\n");
    }
}

int main(void)
{
    const char *sheet = "P|soy|M1|0|5|100|0\n"
                        "O|LO|go\nA|d1_u_w_up_任意_任意_10\n"
                        "X|LE|out\nA|d1_u_w_down_任意_任意_0\n";
    done("compile", position_book_compile((const uint8_t *)sheet, strlen(sheet), table, sizeof table));
    done("fresh", position_book_fresh(book, sizeof book));
    feed(1, 0, 100.0, "d1_u_w|up_a_b_10\n");
    done("save", position_book_save(table, sizeof table, book, sizeof book, image, sizeof image));
    done("fresh", position_book_fresh(book, sizeof book));
    done("restore", position_book_restore(table, sizeof table, book, sizeof book, image, sizeof image));
    feed(2, 86400000000, 125.0, "d1_u_w|down_a_b_5\n");
    print_pairs();
    print_holds();
    return 0;
}
