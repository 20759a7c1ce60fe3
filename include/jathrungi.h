/* What a C program may call of Jathrungi. Link the static library libexports.a, and C functions of Rattle's toolchain beside it
   (liblibc_c.a), which take memory by the program's malloc, realloc and free.

   What each call gives and leaves is proved, for every listing, relation and page. What the program owes: a pointer with a length is to so
   many bytes, which stay as they are during the call, or are no others' if they are to be written; a pointer may be anything where its length
   is 0; a page overlaps with nothing else that is handed over; malloc, realloc and free are one allocator's, and malloc and realloc align a
   block to each power of two up to 16 that divides its size. Nothing is kept after a call. Calls may run in several threads at once, if malloc may, but in no signal handler and in no
   forked child of a process with threads. */
#ifndef JATHRUNGI_H
#define JATHRUNGI_H

#include <stddef.h>
#include <stdint.h>

/* What comes of a call. What a status does not use is 0.

   JATHRUNGI_GIVEN: value is the number that the call gives.
   JATHRUNGI_REFUSED: question and place tell the first question whose answer is no. 1 to 9 are those to a listing, and place is its line, from
     1, or 0 for the whole text: 1 is the text 1 to 32,768 bytes; 2 has each line its form and LF; 3 are the counts of cells in range; 4 is the
     number of statements in range; 5 is the last statement ret; 6 is there no 61st ret; 7 is every cell one of the program's; 8 does each goto
     and test stay in its procedure; 9 does each called procedure exist. 10, at 0: is facts 1 to 64, and has the relation its length? 17, at 0:
     does what is to be written fit the page?
   JATHRUNGI_OUT_OF_MEMORY: malloc gave none. It is answered only where the listing is read and the relation fits. */
enum { JATHRUNGI_GIVEN = 0, JATHRUNGI_REFUSED = 1, JATHRUNGI_OUT_OF_MEMORY = 2 };

typedef struct {
    uint8_t status;
    uint8_t question;
    size_t place;
    size_t value;
} jathrungi_answer;

/* A page of so many bytes holds the sheet of every listing. */
enum { JATHRUNGI_SHEET_BYTES = 32984 };

/* Writes the sheet of a listing at the front of a page, and gives how many bytes it took; the bytes behind them stay. Of a listing that is read
   it is `problem 1`, the report of problem 1 from its default starts, `problem 2`, and that of problem 2, each report with up to 3,000 records
   and 16,384 bytes, or `refused 11 at 0` or `refused 17 at 0` where these do not do; of one that is refused, `refused K at J` alone. So a refused
   listing is told on the page, and the call itself is refused with 17 alone. On any other status than JATHRUNGI_GIVEN the page is as it was. */
jathrungi_answer jathrungi_sheet(const uint8_t *listing, size_t listing_len, uint8_t *page, size_t page_len);

/* Settles every cell of problem 1 from its default starts, and gives how many there are. */
jathrungi_answer jathrungi_settle_unset(const uint8_t *listing, size_t listing_len);

/* Settles every cell from procedure 0 with each of so many facts F, and gives how many there are. The relation is bytes: for each point n from 0
   to N - 1, for each kind in the order step, past, call, return, F rows of 8 bytes, an unsigned number, the lowest byte first; bit e of row d says
   that fact e follows from fact d. A return is asked at its call's point. Bits of a kind that the statement lacks, and bits from F on, do not
   count. There are N * 4 * F * 8 bytes. */
jathrungi_answer jathrungi_settle_all(const uint8_t *listing, size_t listing_len, const uint8_t *relation, size_t relation_len, uint8_t facts);

#endif
