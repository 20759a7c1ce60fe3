/* Prints the sheet of the listing on standard input, as the program `sheet` does. */
#include <stdio.h>

#include "jathrungi.h"

/* One byte more than a listing may have: enough to see that it is too long. */
enum { LISTING_BYTES = 32769 };

int main(void) {
    static uint8_t listing[LISTING_BYTES];
    static uint8_t page[JATHRUNGI_SHEET_BYTES];
    size_t length = fread(listing, 1, sizeof listing, stdin);
    if (ferror(stdin)) {
        fputs("the listing cannot be read\n", stderr);
        return 1;
    }
    jathrungi_answer answer = jathrungi_sheet(listing, length, page, sizeof page);
    switch (answer.status) {
    case JATHRUNGI_GIVEN:
        return fwrite(page, 1, answer.value, stdout) == answer.value && fflush(stdout) == 0 ? 0 : 1;
    case JATHRUNGI_REFUSED:
        fprintf(stderr, "refused %d at %zu\n", answer.question, answer.place);
        return 1;
    default:
        fputs("out of memory\n", stderr);
        return 1;
    }
}
