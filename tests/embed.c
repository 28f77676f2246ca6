/* The book inside a C program: the whole example of the rules document, first call by call and then as one call file, with
 * the same book and the same sheet; and each other function once, accepted and refused. Prints the sheet of the example;
 * a difference is said on standard error, and the exit status is 1.
 *
 *     tools/archive wickdamson
 *     gcc -O2 -Iinclude tests/embed.c target/staticlib/libwickdamson.a -o target/embed && target/embed
 */
#include "wickdamson.h"

#include <stdio.h>
#include <string.h>

static int faults = 0;

static void same(const char *what, long long got, long long wanted)
{
    if (got != wanted) {
        fprintf(stderr, "%s: %lld, and not %lld\n", what, got, wanted);
        faults++;
    }
}

static uint8_t book[WICK_BOOK_BYTES], other[WICK_BOOK_BYTES];
static uint8_t answers[WICK_ANSWERS_BYTES], sheet[WICK_SHEET_BYTES], text[WICK_SHEET_BYTES];

/* The 104 bytes of the example. */
static uint8_t file[104];

static size_t put(size_t at, const char *hex)
{
    for (; *hex; hex++) {
        unsigned byte;
        if (*hex == ' ')
            continue;
        sscanf(hex, "%2x", &byte);
        file[at++] = (uint8_t)byte;
        hex++;
    }
    return at;
}

static void make_file(void)
{
    size_t at = put(0, "01 0021 00 00");
    memset(file + at, 255, 31);
    at = put(at + 31, "000e 01 0001 01 02 00 000003e8 00002904");
    at = put(at, "000e 01 0002 02 03 00 00000190 00002968");
    at = put(at, "000b 05 02 00 00000000000000fa");
    at = put(at, "000b 05 03 00 0000000000000190");
    at = put(at, "0001 04 0001 04 0002 07 00");
    same("bytes of the file", (long long)at, 104);
}

static const char expected[] =
    "DAY 2\n"
    "P 4128 1 0 350 3675000\n"
    "P 4160 2 0 -350 -3651667\n"
    "C 1 0 6825000\n"
    "C 2 0 -2608333\n"
    "C 3 0 -4240000\n"
    "E 6\n";

/* The example call by call. */
static void by_calls(void)
{
    uint8_t codes[32];
    uint64_t moved = 7;
    memset(codes, 255, sizeof codes);
    codes[0] = 0;
    same("version", wick_version(), WICK_VERSION);
    same("book bytes", (long long)wick_book_bytes(), WICK_BOOK_BYTES);
    same("create", wick_create(book, sizeof book, codes, sizeof codes), WICK_OK);
    same("enter 1", wick_enter(book, sizeof book, 1, 1, 2, 0, 1000, 10500), WICK_OK);
    same("enter 2", wick_enter(book, sizeof book, 2, 2, 3, 0, 400, 10600), WICK_OK);
    same("deposit to 2", wick_deposit(book, sizeof book, 2, 0, 250), WICK_OK);
    same("deposit to 3", wick_deposit(book, sizeof book, 3, 0, 400), WICK_OK);
    same("roll", wick_roll(book, sizeof book), WICK_OK);
    same("roll", wick_roll(book, sizeof book), WICK_OK);
    same("run", wick_run(book, sizeof book, 0, &moved), WICK_OK);
    same("shares moved", (long long)moved, 650);
    same("a sound book", wick_sound(book, sizeof book), 1);
    same("a short book", wick_sound(book, sizeof book - 1), 0);
}

/* The example as a file: whole, record by record, and as a sheet. The three leave the same book. */
static void by_file(void)
{
    size_t size = 7;
    uint64_t figure = 7;
    uint32_t place = 1, next = 7;
    int records = 0;
    memset(other, 9, sizeof other);
    same("play", wick_play(other, sizeof other, file, sizeof file, answers, sizeof answers, &size), WICK_OK);
    same("bytes of the answers", (long long)size, 8 * 9);
    same("the run's answer", answers[7 * 9], 0);
    same("the run's figure", answers[7 * 9 + 7] * 256 + answers[7 * 9 + 8], 650);
    same("book of the file", memcmp(book, other, sizeof book), 0);
    memset(other, 9, sizeof other);
    for (;;) {
        same("record", wick_record(other, sizeof other, file, sizeof file, place, &figure, &next), WICK_OK);
        if (next == 0)
            break;
        same("figure", (long long)figure, records == 7 ? 650 : 0);
        place = next;
        records++;
    }
    same("records", records, 8);
    same("end of the file", place, 104);
    same("book of the records", memcmp(book, other, sizeof book), 0);
    memset(other, 9, sizeof other);
    same("sheet", wick_sheet(other, sizeof other, file, sizeof file, sheet, sizeof sheet, &size), WICK_OK);
    same("bytes of the sheet", (long long)size, (long long)strlen(expected));
    same("the sheet", memcmp(sheet, expected, strlen(expected)), 0);
    same("book of the sheet", memcmp(book, other, sizeof book), 0);
    fwrite(sheet, 1, size, stdout);
}

/* The same sheet line by line, with a tally. */
static void by_lines(void)
{
    uint32_t lines = 0, bytes = 0, end;
    size_t at = 0, size = 7;
    same("DAY", wick_line_day(text, sizeof text, 2, &lines, &bytes, &size), WICK_OK);
    at += size;
    same("P", wick_line_open(text + at, sizeof text - at, 4128, 1, 0, 350, 3675000, &lines, &bytes, &size), WICK_OK);
    at += size;
    same("P", wick_line_open(text + at, sizeof text - at, 4160, 2, 0, -350, -3651667, &lines, &bytes, &size), WICK_OK);
    at += size;
    same("C", wick_line_charge(text + at, sizeof text - at, 1, 0, 6825000, &lines, &bytes, &size), WICK_OK);
    at += size;
    same("C", wick_line_charge(text + at, sizeof text - at, 2, 0, -2608333, &lines, &bytes, &size), WICK_OK);
    at += size;
    same("C", wick_line_charge(text + at, sizeof text - at, 3, 0, -4240000, &lines, &bytes, &size), WICK_OK);
    at += size;
    end = lines;
    same("E", wick_line_end(text + at, sizeof text - at, end, &lines, &bytes, &size), WICK_OK);
    at += size;
    same("bytes of the lines", (long long)at, (long long)strlen(expected));
    same("the lines", memcmp(text, expected, at), 0);
    same("tally of lines", lines, 7);
    same("tally of bytes", bytes, (long long)at);
    same("R", wick_line_refusal(text, sizeof text, 21845, 19, &lines, &bytes, &size), WICK_OK);
    same("the R line", memcmp(text, "R 21845 19\n", size), 0);
    same("X that does not fit", wick_line_place(text, 5, 100, &lines, &bytes, &size), WICK_WRONG_LENGTH);
    same("size of a refused line", (long long)size, 0);
    same("bytes of a refused line", memcmp(text, "R 21845 19\n", 11), 0);
    same("X", wick_line_place(text, 6, 100, &lines, &bytes, &size), WICK_OK);
    same("the X line", memcmp(text, "X 100\n", size), 0);
    same("tally of lines", lines, 9);
    same("C of account 258", wick_line_charge(text, sizeof text, 258, 0, 1, &lines, &bytes, &size), WICK_WRONG_LENGTH);
    same("tally of lines", lines, 9);
    same("the X line stands", memcmp(text, "X 100\n", 6), 0);
    lines = 1000000;
    same("a line past a million", wick_line_day(text, sizeof text, 3, &lines, &bytes, &size), WICK_WRONG_LENGTH);
    same("tally of lines", lines, 1000000);
}

/* Prices and marks on the example's book: account 1 receives 350 shares for 3,675,000 mils. */
static void asked(void)
{
    uint8_t intraday[128], closing[128];
    uint32_t rates[4] = {1000000, 7800000, 1000000, 1000000}, haircuts[4] = {0, 50, 0, 0}, price = 7;
    int64_t due = 7, sums[4] = {7, 7, 7, 7};
    memset(intraday, 0, sizeof intraday);
    memset(closing, 0, sizeof closing);
    closing[2] = 9900 / 256;
    closing[3] = 9900 % 256;
    same("price", wick_price(intraday, 128, closing, 128, 0, &price), WICK_OK);
    same("the price", price, 9900);
    same("marks",
         wick_marks(book, sizeof book, 1, intraday, 128, closing, 128, rates, 4, haircuts, 4, &due, &sums[0], &sums[1],
                    &sums[2], &sums[3]),
         WICK_OK);
    same("due", due, 210000);
    same("sum in the base", sums[0], -210000);
    same("other sums", sums[1] != 0 || sums[2] != 0 || sums[3] != 0, 0);
    same("price of 256", wick_price(intraday, 128, closing, 128, 256, &price), WICK_NO_SECURITY);
    same("no price", wick_price(intraday, 128, closing, 128, 1, &price), WICK_NO_PRICE);
    same("the price of a refusal", price, 0);
    same("haircuts of the wrong length",
         wick_marks(book, sizeof book, 1, intraday, 128, closing, 128, rates, 4, haircuts, 3, &due, &sums[0], &sums[1],
                    &sums[2], &sums[3]),
         WICK_WRONG_LENGTH);
    same("figures of a refusal", due != 0 || sums[0] != 0 || sums[1] != 0 || sums[2] != 0 || sums[3] != 0, 0);
}

/* Refused calls, which leave the book as it was, and what amends and excludes. */
static void refused(void)
{
    uint64_t moved = 7, figure = 7;
    uint32_t next = 7;
    size_t size = 7;
    memcpy(other, book, sizeof book);
    same("enter by account 64", wick_enter(other, sizeof other, 1, 64, 2, 0, 1000, 10500), WICK_NO_ACCOUNT);
    same("enter of one account", wick_enter(other, sizeof other, 1, 2, 2, 0, 1000, 10500), WICK_SAME_ACCOUNT);
    same("amend of nothing", wick_amend(other, sizeof other, 9, 1, 2, 0, 1000, 10500), WICK_NO_TRADE);
    same("exclude of nothing", wick_exclude(other, sizeof other, 9), WICK_NO_TRADE);
    same("deposit to 258", wick_deposit(other, sizeof other, 258, 0, 1), WICK_NO_ACCOUNT);
    same("withdraw by 258", wick_withdraw(other, sizeof other, 258, 0, 1), WICK_NO_ACCOUNT);
    same("deposit of 256", wick_deposit(other, sizeof other, 2, 256, 1), WICK_NO_SECURITY);
    same("run of 256", wick_run(other, sizeof other, 256, &moved), WICK_NO_SECURITY);
    same("enter of 65,539", wick_enter(other, sizeof other, 65539, 1, 2, 0, 1000, 10500), WICK_BAD_NUMBER);
    same("enter by 257 and 258", wick_enter(other, sizeof other, 1, 257, 258, 0, 1000, 10500), WICK_NO_ACCOUNT);
    same("withdraw too much", wick_withdraw(other, sizeof other, 1, 0, 651), WICK_NOT_HELD);
    same("deposit of 0", wick_deposit(other, sizeof other, 1, 0, 0), WICK_BAD_QUANTITY);
    same("run of 1", wick_run(other, sizeof other, 1, &moved), WICK_NO_SECURITY);
    same("shares moved by a refusal", (long long)moved, 0);
    same("a short book", wick_roll(other, sizeof other - 1), WICK_NOT_SOUND);
    same("a short book of a file", wick_play(other, 5, file, sizeof file, answers, sizeof answers, &size),
         WICK_WRONG_LENGTH);
    same("size of a refusal", (long long)size, 0);
    same("an unreadable record", wick_record(other, sizeof other, file, sizeof file, 2, &figure, &next), WICK_UNREADABLE);
    same("place of a 19", (long long)figure, 2);
    same("what follows a 19", next, 0);
    same("book after refusals", memcmp(book, other, sizeof book), 0);
    same("withdraw", wick_withdraw(other, sizeof other, 1, 0, 650), WICK_OK);
    same("enter", wick_enter(other, sizeof other, 9, 1, 2, 0, 1000, 10500), WICK_OK);
    same("amend", wick_amend(other, sizeof other, 9, 2, 1, 0, 7, 8), WICK_OK);
    same("amend of 65,545", wick_amend(other, sizeof other, 65545, 2, 1, 0, 7, 8), WICK_NO_TRADE);
    same("exclude of 65,545", wick_exclude(other, sizeof other, 65545), WICK_NO_TRADE);
    same("exclude", wick_exclude(other, sizeof other, 9), WICK_OK);
    same("the number stays used", wick_enter(other, sizeof other, 9, 1, 2, 0, 1000, 10500), WICK_BAD_NUMBER);
}

int main(void)
{
    make_file();
    by_calls();
    by_file();
    by_lines();
    asked();
    refused();
    if (faults == 0)
        fprintf(stderr, "embed: all as it should be\n");
    return faults != 0;
}
