/* Every date around the years 1970 to 2099, as a line of the exchange's comma file. Those that the C library's calendar
   has in these years are read as it has them, and every other one is refused with 16. tests/c_program.rs compiles it,
   runs it, and compares what it prints. */
#define _DEFAULT_SOURCE
#include "position_book.h"

#include <inttypes.h>
#include <stdio.h>
#include <stdlib.h>
#include <string.h>
#include <time.h>

enum { DAYS = 47482, HOLD_ROW = 32 };

static uint8_t table[POSITION_BOOK_TABLE_LENGTH];
static uint8_t book[POSITION_BOOK_LENGTH(DAYS)];
static uint8_t before[POSITION_BOOK_LENGTH(DAYS)];
static uint8_t rows[HOLD_ROW * DAYS];

/* The local time of each day's midnight by the C library, in microseconds. */
static int64_t local[DAYS];

/* Ends the program where something of a date, or of all, is not as it must be. */
static void must(int holds, const char *what, const char *date)
{
    if (!holds) {
        fprintf(stderr, "days: %s: %s\n", date, what);
        exit(1);
    }
}

/* Whether the C library has a date, for it makes another of one that there is not; and its seconds from 1970. */
static int is_date(int year, int month, int day, time_t *seconds)
{
    struct tm tm = {.tm_year = year - 1900, .tm_mon = month - 1, .tm_mday = day};
    *seconds = timegm(&tm);
    return tm.tm_year == year - 1900 && tm.tm_mon == month - 1 && tm.tm_mday == day;
}

/* Feeds a bar at the midnight of a date: the number that is answered. */
static uint32_t feed(int id, const char *date)
{
    char line[96];
    int length = snprintf(line, sizeof line, "%d,%s 00:00:00+00:00,1", id, date);
    const uint8_t *bytes = (const uint8_t *)line, *signals = (const uint8_t *)"";
    FeedAnswer a = position_book_feed_line(table, sizeof table, book, sizeof book, bytes, (size_t)length, signals, 0);
    return a.number;
}

/* Feeds each date that is in the calendar and in the years, or each that is not: how many they are. */
static int feed_dates(int in)
{
    int count = 0;
    for (int year = 1969; year <= 2100; year++)
        for (int month = 0; month <= 13; month++)
            for (int day = 0; day <= 32; day++) {
                time_t seconds;
                int is_in = is_date(year, month, day, &seconds) && 1970 <= year && year <= 2099;
                if (is_in != in)
                    continue;
                char date[40];
                snprintf(date, sizeof date, "%04d-%02d-%02d", year, month, day);
                uint32_t number = feed(count, date);
                char answered[40];
                snprintf(answered, sizeof answered, "answered with %" PRIu32, number);
                must(number == (in ? 0 : 16), answered, date);
                if (in)
                    local[count] = (int64_t)seconds * 1000000;
                count++;
            }
    return count;
}

/* The local time of hold row i: its first 8 bytes, the lowest first. */
static int64_t row_local(int i)
{
    uint64_t micros = 0;
    for (int byte = 7; byte >= 0; byte--)
        micros = micros << 8 | rows[HOLD_ROW * i + byte];
    return (int64_t)micros;
}

int main(void)
{
    const char *sheet = "P|soy|M1|0|5|100|0\n";
    must(!position_book_compile((const uint8_t *)sheet, strlen(sheet), table, sizeof table), "refused", "the sheet");
    must(!position_book_fresh(book, sizeof book), "refused", "a fresh book");

    int days = feed_dates(1);
    must(days == DAYS, "not so many", "the days");
    BlockAnswer block = position_book_hold_rows(table, sizeof table, book, sizeof book, 0, rows, sizeof rows);
    must(block.number == 0 && block.rows == DAYS, "not a row for each day", "the holds");
    for (int i = 0; i < DAYS; i++) {
        char hold[40];
        snprintf(hold, sizeof hold, "hold %d", i);
        must(row_local(i) == local[i], "another local time than the C library's", hold);
    }

    memcpy(before, book, sizeof book);
    int others = feed_dates(0);
    must(memcmp(before, book, sizeof book) == 0, "changed by a line that was refused", "the book");
    printf("days: %d read as glibc has them, %d others refused with 16\n", days, others);
    return 0;
}
