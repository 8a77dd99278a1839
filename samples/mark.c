/* Prints the count of rules of a book on standard input, the mark of each rule, as number and in words, and the score;
   for a refused book the number of the refusal, its place and its words. From the root of the repository:

   cc -Wall -Wextra -Iinclude samples/mark.c crates/ackbo/out/libackbo.a -o target/mark
   target/mark < samples/listing.book | diff - samples/mark.out

   and where the library is installed:

   cc -Wall -Wextra samples/mark.c $(pkg-config --cflags --libs ackbo) -o target/mark */
#include <inttypes.h>
#include <stdio.h>

#include "ackbo.h"
#include "ackbo_text.h"

int main(void) {
    /* A byte more than the longest book has tells it from longer ones. */
    static uint8_t book[ACKBO_MAX_BYTES + 1];
    static uint8_t marks[ACKBO_MAX_RULES];
    int64_t reply[3];

    size_t book_len = fread(book, 1, sizeof book, stdin);
    if (ferror(stdin)) {
        perror("mark");
        return 2;
    }
    uint8_t refusal = ackbo_mark(book, book_len, marks, sizeof marks, reply);
    if (refusal != 0) {
        printf("refusal %d %" PRId64 " %s\n", refusal, reply[1], ackbo_refusal_text(refusal));
        return 1;
    }
    printf("rules %" PRId64 "\n", reply[0]);
    for (int64_t rule = 0; rule < reply[0]; rule++) {
        printf("%" PRId64 " %d %s\n", rule, marks[rule], ackbo_mark_text(marks[rule]));
    }
    printf("score %" PRId64 "\n", reply[2]);
    return 0;
}
