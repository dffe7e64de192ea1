/* EAK_PAGE_BYTES beside eak_page: for each number of rows up to 1,024, and the most rows of a job, the page fits into so many bytes and
 * into none fewer, and is answered with that length. Prints the first number of rows where it is not so; the exit status is 0 only if
 * there is none. C++ too. */
#include "eak_capacity.h"
#include <stdio.h>

static int64_t rows[EAK_MOST_ROWS * EAK_ROW_WORDS];
static uint8_t page[EAK_PAGE_BYTES(EAK_MOST_ROWS)];

static int differs(size_t n) {
    size_t bytes = EAK_PAGE_BYTES(n);
    struct eak_page_answer answer = eak_page(rows, EAK_ROW_WORDS * n, n, page, bytes);
    if (answer.number || answer.bytes != bytes) return 1;
    return n && eak_page(rows, EAK_ROW_WORDS * n, n, page, bytes - 1).number != 11;
}

int main(void) {
    for (size_t n = 0; n <= 1024; n++)
        if (differs(n)) return printf("%zu rows\n", n), 1;
    return differs(EAK_MOST_ROWS) ? printf("%d rows\n", EAK_MOST_ROWS), 1 : 0;
}
