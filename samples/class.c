/* Marks the books of a class in turns, one rule a turn: each file that is named has a desk. Prints for each turn the
   desk and the rule that it served with the mark, as number and in words, then the count of rules of each desk; for a
   refused turn the number of the refusal, its place, which is a desk, and its words. From the root of the repository:

   cc -Wall -Wextra -Iinclude samples/class.c crates/ackbo/out/libackbo.a -o target/class
   target/class samples/sample.book samples/listing.book samples/wrapper.book | diff - samples/class.out

   and where the library is installed:

   cc -Wall -Wextra samples/class.c $(pkg-config --cflags --libs ackbo) -o target/class */
#include <inttypes.h>
#include <stdio.h>

#include "ackbo.h"
#include "ackbo_text.h"

/* A byte more than the longest book has tells it from longer ones. */
enum { ROOM = ACKBO_MAX_BYTES + 1 };

static uint8_t buffer[ACKBO_MAX_DESKS * ROOM];
static uint8_t marks[ACKBO_MAX_DESKS * ACKBO_DESK_MARKS];
static struct ackbo_desk desks[ACKBO_MAX_DESKS];

/* A desk for the book in a file, whose bytes follow those of the desk before; 0 where it cannot be read. */
static int hand_in(struct ackbo_desk *desk, const char *name, size_t start) {
    FILE *file = fopen(name, "rb");
    if (file == NULL) {
        perror(name);
        return 0;
    }
    desk->start = start;
    desk->length = fread(buffer + start, 1, ROOM, file);
    desk->marked = 0;
    int failed = ferror(file);
    fclose(file);
    if (failed) {
        perror(name);
    }
    return !failed;
}

int main(int count, char **names) {
    if (count - 1 > ACKBO_MAX_DESKS) {
        fprintf(stderr, "class: at most %d books\n", ACKBO_MAX_DESKS);
        return 2;
    }
    size_t n = 0, used = 0;
    for (; (int)n + 1 < count; n++) {
        if (!hand_in(&desks[n], names[n + 1], used)) {
            return 2;
        }
        used += desks[n].length;
    }

    /* The place of the last desk begins with desk 0; afterwards the place that was served is passed on. */
    int64_t reply[3] = {0, (int64_t)n - 1, 0};
    for (;;) {
        uint8_t refusal = ackbo_turn(desks, n, buffer, used, marks, n * ACKBO_DESK_MARKS, (size_t)reply[1], reply);
        if (refusal != 0) {
            printf("refusal %d %" PRId64 " %s\n", refusal, reply[1], ackbo_refusal_text(refusal));
            return 1;
        }
        if (reply[0] == ACKBO_IDLE) {
            break;
        }
        size_t place = (size_t)reply[1], rule = desks[place].marked - 1;
        uint8_t mark = marks[ACKBO_DESK_MARKS * place + rule];
        printf("desk %zu rule %zu %d %s\n", place, rule, mark, ackbo_mark_text(mark));
    }
    for (size_t place = 0; place < n; place++) {
        printf("desk %zu rules %zu\n", place, desks[place].marked);
    }
    return 0;
}
