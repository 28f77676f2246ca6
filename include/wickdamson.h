/* Wickdamson: the book of a clearing house, for programs in other languages (C, C++, and whatever calls C).
 *
 * The functions stand in the archive that `tools/archive wickdamson` writes (target/staticlib/libwickdamson.a), for x86-64 Linux.
 * Each is proved: its answer, every figure that it writes through a pointer and every byte of every buffer that it is lent are
 * what the rules of the house say (crates/rules/specs), for all inputs. What a function looks like on this side is not proved:
 * it is this file. A program may ask at its start whether wick_version() is the WICK_VERSION that it was compiled with.
 *
 * Answers
 *   A function returns 0 (WICK_OK) or the number of the refusal, one of those below. A refused call alters no byte of a
 *   book, of an answer, sheet or line buffer or of a tally, and writes zero through each pointer to a figure (but
 *   wick_record the byte place of a 19; its *next is no figure, and is told also where the record's own call is refused).
 *
 * Numbers
 *   Accounts 0 to 63, securities 0 to 31, currencies 0 to 3 (0 is the base), trade numbers 1 to 65,535. They are taken as 32-bit
 *   numbers, so that one that is too large is refused and not cut: account 258 is no account (2), security 256 no security (3),
 *   trade number 65,539 no number (7 at entry, 8 elsewhere). Quantities are whole shares, above zero to be received. Prices are
 *   mils per share. Money is whole mils, thousandths of a currency unit: above zero the account is to pay it, below zero it is
 *   to receive it. Only the sums of wick_marks count the other way: above zero they are gains.
 *
 * Pointers
 *   - A buffer is a pointer and then its length: in bytes, or in numbers where it points at numbers (rates, haircuts).
 *   - No pointer may be null, also where the length is 0 and where the figure is not wanted.
 *   - A pointer to numbers is aligned as the type asks (that is so for any variable or array of that type).
 *   - What one call is lent must not overlap, except buffers that are both `const`. During the call nobody may write what is
 *     lent as `const`, nor read or write the rest. A call keeps nothing: no memory is allocated, no file opened, no state is
 *     held between calls, and different threads can work on different books at the same time.
 *   - The caller's stack needs room: 1 MiB is enough for every call (wick_sheet takes some 551,000 bytes, the others no
 *     more than 200,000). The main thread has that; a thread of a pool, or any thread under musl, may have 128 or 256 KiB and
 *     faults: make it with a larger stack.
 *   - A book is WICK_BOOK_BYTES bytes, which the caller keeps where it likes: in memory, in a file (docs/BOOK.md says
 *     what stands in it). Bytes of any origin may be lent: every call on a book but wick_create, wick_play and wick_sheet,
 *     which begin a new history, tests before anything else whether they are a sound book, and refuses by WICK_NOT_SOUND
 *     if not. (wick_record: 18 and 19 come first, then the record's own call, which tests.) Sound is not undamaged: many a
 *     changed byte, and a short file that was filled up with zeros, leave a book that is sound and wrong. Keep a hash, look at
 *     the length, and never pad.
 */
#ifndef WICKDAMSON_H
#define WICKDAMSON_H

#include <stddef.h>
#include <stdint.h>

/* The version of this interface. It goes up with every change that a program which was compiled before would not survive. */
#define WICK_VERSION 1

/* The length of a book. */
#define WICK_BOOK_BYTES 42278

/* The longest file, and what is enough for the answers of any file (21,846 of 9 bytes), for any sheet, and for any line. */
#define WICK_FILE_BYTES 65535
#define WICK_ANSWERS_BYTES 196614
#define WICK_SHEET_BYTES 295620
#define WICK_LINE_BYTES 114

/* Refusal numbers. */
#define WICK_OK 0
#define WICK_NOT_SOUND 1           /* the book is not sound, or has another length */
#define WICK_NO_ACCOUNT 2          /* account above 63 */
#define WICK_NO_SECURITY 3         /* security above 31 or unlisted; at creation, a currency code other than 0 to 3 or 255 */
#define WICK_BAD_QUANTITY 4        /* trade quantity outside 1 to 1,000,000; deposit or withdrawal outside 1 to 10^12 */
#define WICK_BAD_PRICE 5           /* price outside 1 to 9,999,999; in a price table, an entry above 9,999,999 */
#define WICK_SAME_ACCOUNT 6        /* buyer and seller the same account */
#define WICK_BAD_NUMBER 7          /* enter: trade number 0 or above 65,535, or used today, excluded ones too */
#define WICK_NO_TRADE 8            /* amend or exclude: number not in today's list, or excluded */
#define WICK_LIST_FULL 9           /* enter: today's list already has 256 numbers */
#define WICK_TABLE_FULL 10         /* roll: open positions plus today's nets pass 1,024 */
#define WICK_NOT_HELD 11           /* withdrawal above what the account holds */
#define WICK_TOO_MUCH_HELD 12      /* deposit takes the security's total over all accounts past 10^12 */
#define WICK_TOO_MUCH_DELIVERED 13 /* run: deliverable shares exceed the receivers' total (no sound book gives it) */
#define WICK_LAST_DAY 14           /* roll on day 60,000 */
#define WICK_BAD_RATE 15           /* rate outside 1 to 100,000,000; haircut above 10,000; base not rate 1,000,000 with haircut 0 */
#define WICK_TOTAL_TOO_LARGE 16    /* either converted mark total passes 9*10^18 */
#define WICK_NO_PRICE 17           /* neither price table has a price (0 means none) */
#define WICK_WRONG_LENGTH 18       /* a buffer or table has the wrong length, or the line (or a field of it) doesn't fit, or the file exceeds 65,535 bytes */
#define WICK_UNREADABLE 19         /* file record unreadable */

#ifdef __cplusplus
extern "C" {
#endif

/* ---- The book ---- */

/* WICK_VERSION and WICK_BOOK_BYTES, as the archive has them. */
uint32_t wick_version(void);
size_t wick_book_bytes(void);

/* Whether the bytes are a sound book: 1 or 0. (A book that is not sound, or has another length, is refused by 1 in every call.) */
uint8_t wick_sound(const uint8_t *book, size_t book_len);

/* Makes an empty book of whatever stood there: day 0, and the currency of each security, 0 to 3, or 255 for unlisted
 * (codes_len is 32).
 * Alters: the book, all of it. Refusals: 18 (either length), 3. */
uint8_t wick_create(uint8_t *book, size_t book_len, const uint8_t *codes, size_t codes_len);

/* ---- Trades of the day ---- */

/* Enters a trade at the end of today's list.
 * Alters: the list. Refusals: 1, 2, 3, 4, 5, 6, 7, 9. */
uint8_t wick_enter(uint8_t *book, size_t book_len, uint32_t number, uint32_t buyer, uint32_t seller, uint32_t security,
                   uint32_t quantity, uint32_t price);

/* Replaces every field of today's trade of that number; it keeps its place.
 * Alters: the list. Refusals: 1, 2, 3, 4, 5, 6, 8. */
uint8_t wick_amend(uint8_t *book, size_t book_len, uint32_t number, uint32_t buyer, uint32_t seller, uint32_t security,
                   uint32_t quantity, uint32_t price);

/* Excludes today's trade of that number; the number stays used today.
 * Alters: the list. Refusals: 1, 8. */
uint8_t wick_exclude(uint8_t *book, size_t book_len, uint32_t number);

/* ---- Holdings ---- */

/* Adds shares to what an account holds.
 * Alters: the holding. Refusals: 1, 2, 3, 4, 12. */
uint8_t wick_deposit(uint8_t *book, size_t book_len, uint32_t account, uint32_t security, uint64_t quantity);

/* Takes shares from what an account holds.
 * Alters: the holding. Refusals: 1, 2, 3, 4, 11. */
uint8_t wick_withdraw(uint8_t *book, size_t book_len, uint32_t account, uint32_t security, uint64_t quantity);

/* ---- The day ---- */

/* The day roll: charges are set to zero (so note them first), today's nets become positions due two days later, the list is
 * emptied, the day goes up by one, due positions are offset.
 * Alters: the book. Refusals: 1, 10, 14. */
uint8_t wick_roll(uint8_t *book, size_t book_len);

/* The settlement run for one security.
 * Alters: positions, holdings and charges. *moved: the shares moved, 0 included; 0 when refused. Refusals: 1, 3, 13. */
uint8_t wick_run(uint8_t *book, size_t book_len, uint32_t security, uint64_t *moved);

/* ---- Prices and marks ---- */

/* The price of a security: the intraday table's entry, or, if that is 0, the closing table's. A table is 128 bytes, 32 entries
 * of 4 bytes, big-endian.
 * Alters: nothing. *price: the entry; 0 when refused. Refusals, in this order: 18, 3 (above 31 only), 5, 17. */
uint8_t wick_price(const uint8_t *intraday, size_t intraday_len, const uint8_t *closing, size_t closing_len,
                   uint32_t security, uint32_t *price);

/* The marks of an account: what it would lose if its positions were priced now.
 * rates[c] is the worth of one unit of currency c in millionths of a base unit: 7,800,000 is 7.8. haircuts[c] is in basis points:
 * 150 is 1.5 percent. Four of each, one for each currency, used or not (rates_len and haircuts_len are 4; rates 1 to 100,000,000,
 * haircuts 0 to 10,000, the base has 1,000,000 and 0). A rate of 7 where 7,800,000 is meant is legal, and wrong.
 * What counts: every record of the account in the position table, due or not, and no trade of today's list. A record's mark is
 * shares * price - money, the price as wick_price finds it (a record of 0 shares needs none). Marks are added up by currency; a sum
 * above zero counts sum * (10,000 - haircut) * rate / 10^10, rounded down, a sum below zero |sum| * (10,000 + haircut) * rate / 10^10,
 * rounded up.
 * Alters: nothing. *due: the net loss in the base currency, what counts of the losses less what counts of the gains; 0 if the net
 * is a gain. *sum0 to *sum3: the sum of marks in each currency, not converted, above zero a gain. All zero when refused.
 * Refusals, in this order: 1, 2, 18, 5, 15, 17, 16. */
uint8_t wick_marks(const uint8_t *book, size_t book_len, uint32_t account, const uint8_t *intraday, size_t intraday_len,
                   const uint8_t *closing, size_t closing_len, const uint32_t *rates, size_t rates_len,
                   const uint32_t *haircuts, size_t haircuts_len, int64_t *due, int64_t *sum0, int64_t *sum1,
                   int64_t *sum2, int64_t *sum3);

/* ---- The call file (docs/FILES.md) ---- */

/* The record that begins at a place of a call file, as a call of its own. The first is at place 1, and *next is the place of
 * the next: begin with 1, and go on while *next is not 0. (The call at the file's end answers 0 with *next 0: it is no record.)
 * Any place is played as it stands: a place inside a record may read as another record, so take none but 1, 36 and *next. The
 * record at place 1 is the create, which makes the book a new one; 36 is the place behind it, from where the rest of a file is
 * played on a book that there is. Nothing tells a file that was played before: its calls are made once more.
 * Alters: the book, as the record's own call does. *figure: the shares moved, if it was a run; the byte place of a 19; else 0.
 * *next: the place behind the record, also where its call is refused; 0 where nothing is to follow: at the file's end (answer 0), by 18
 * and by 19.
 * Refusals: 18 (the file is too long, or the book has another length), 19, and those of the record's call. */
uint8_t wick_record(uint8_t *book, size_t book_len, const uint8_t *file, size_t file_len, uint32_t place,
                    uint64_t *figure, uint32_t *next);

/* A whole call file. answers gets 9 bytes for each record: its answer, 1 byte, and its figure, 8 bytes big-endian (the shares
 * moved, or the byte place of a 19, which is the last); bytes beyond them stay. WICK_ANSWERS_BYTES are enough for any file.
 * Alters: the book, if the file begins with a good create (it looks at no old byte), and answers. *size: how many bytes
 * the answers take; 0 when refused. A file that ends with a 19 is accepted: look at the last answer. Where the first answer is
 * a 19 no book was made, and the old bytes stand.
 * Refusals: 18 (the file is too long, the book has another length, the answers do not fit). */
uint8_t wick_play(uint8_t *book, size_t book_len, const uint8_t *file, size_t file_len, uint8_t *answers,
                  size_t answers_len, size_t *size);

/* The sheet of a whole call file, as text, into buffer; bytes beyond it stay. WICK_SHEET_BYTES are enough for any file. A file past
 * 65,535 bytes has a sheet too, R 0 18 and E 1, and leaves the book as it was.
 * Alters: the book, if the file begins with a good create (it looks at no old byte), and buffer. *size: how long the sheet is;
 * 0 when refused. Refusals: 18 (the book has another length, the sheet does not fit). */
uint8_t wick_sheet(uint8_t *book, size_t book_len, const uint8_t *file, size_t file_len, uint8_t *buffer,
                   size_t buffer_len, size_t *size);

/* ---- Lines of the sheet, one by one ----
 *
 * Each writes its line, with the newline, at the front of buffer; bytes beyond it stay. WICK_LINE_BYTES are enough for any line.
 * *lines and *bytes are a tally of what was written so far, which the caller begins at 0 and 0 and lends along.
 * Alters: buffer and the tally (one line more, and the bytes of this line). *size: how many bytes the line has; 0 when
 * refused. Refusals: 18 (the line does not fit, or would take the tally's lines or bytes past 1,000,000; or an account, security,
 * currency or refusal is above 255, or a day above 65,535: these are not looked at otherwise). */

/* R index refusal */
uint8_t wick_line_refusal(uint8_t *buffer, size_t buffer_len, uint32_t index, uint32_t refusal, uint32_t *lines,
                          uint32_t *bytes, size_t *size);

/* X place */
uint8_t wick_line_place(uint8_t *buffer, size_t buffer_len, uint32_t place, uint32_t *lines, uint32_t *bytes,
                        size_t *size);

/* DAY day */
uint8_t wick_line_day(uint8_t *buffer, size_t buffer_len, uint32_t day, uint32_t *lines, uint32_t *bytes, size_t *size);

/* P number account security quantity money */
uint8_t wick_line_open(uint8_t *buffer, size_t buffer_len, uint32_t number, uint32_t account, uint32_t security,
                       int64_t quantity, int64_t money, uint32_t *lines, uint32_t *bytes, size_t *size);

/* C account currency charge */
uint8_t wick_line_charge(uint8_t *buffer, size_t buffer_len, uint32_t account, uint32_t currency, int64_t charge,
                         uint32_t *lines, uint32_t *bytes, size_t *size);

/* E lines_above */
uint8_t wick_line_end(uint8_t *buffer, size_t buffer_len, uint32_t lines_above, uint32_t *lines, uint32_t *bytes,
                      size_t *size);

#ifdef __cplusplus
}
#endif

#endif
