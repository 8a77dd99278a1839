/* The twelve operations of libackbo.a, for C. Each is proved, for every input, to reply and to leave the lent memory as
   its definition says (crates/operations/specs: Boundary, over Coding, Converting, Comparing, Picking, Variables,
   Hashing, Enumerating, Marking, Paging and Turns).

   The caller owes this, and nothing else: each pointer is valid for its length, aligned, and not NULL even where the
   length is 0; reply has room for three numbers; what is written to overlaps nothing else that is lent. A length counts
   elements: bytes of a book or a page, marks of a byte each, words of 16 bits of a sheet or a term, desks. To pass an
   empty buffer, pass any pointer that is not NULL, such as one to a variable, with length 0: the data() of an empty
   std::vector may be NULL, so it takes v.empty() ? &none : v.data(). Nothing is allocated, kept or freed.

   The result is 0, or the number of the refusal, 1 to 19 or 22 to 25. Of a refusal reply holds the input at fault (0
   the first), the place (a bit of a book, a word of a sheet or a term, a desk, from 0), and 0. A refused call changes
   no other buffer. The first fault in reading order is given, one input after another.

   A book is of form 2: within a rule, left side first, a variable's first appearance takes the lowest unused number. A
   book, input 0 but in ackbo_encode, is refused with 1 over 32,768 bytes, 2 a field does not fit, 3 its form is neither
   1 nor 2, 4 it has no symbol, 5 w0 is 0, 6 an AC symbol's arity is not 2, 7 a weight is inadmissible (of a symbol of
   arity 1 that weighs 0 and is not ranked above every other, tested after the last symbol), 8 an earlier symbol has the
   rank, 9 a symbol number is too great, 10 a 129th node is called for, 11 more than padding follows the
   last rule, 17 its form is 1, which ackbo_convert turns into 2, 18 a variable is out of turn, its number above the
   count of different variables before it in its rule.

   The variables of a term have any numbers, 0 to 15. A term is refused, at the word of a node, with 10 a 129th node is
   called for, 2 the word is missing, 14 it is above 271, 9 it is a symbol number too great for the book; or, at the
   first word after the term, 15 words are left over.

   Each call reads its whole book, which takes about 0.1 ms for the longest (docs/BENCHMARKS.md has times; all times,
   also those below, were taken with the older kit), and keeps nothing for the next one. The functions hold no state:
   any number of threads may call them at once, as long as what one call writes to is used by no other.

   ackbo_text.h has names and words for refusals and marks, and the limits; docs/MARKS.md says what each means.
   ackbo_sheet.h finds the terms of an opened book, and the margins of its rules.

   Stack, in KB of 1,000 bytes, at most, as tests/stack measures it: ackbo_decode 110, ackbo_encode 2, ackbo_convert
   217, ackbo_compare 57, ackbo_pick 57, ackbo_fingerprint 8, ackbo_oftener 13, ackbo_count 6, ackbo_list 7, ackbo_mark
   61, ackbo_page 70, ackbo_turn 60; that of ackbo_decode and ackbo_convert for every book, that of comparing where AC
   symbols nest 63 deep, the deepest that 128 nodes allow. */
#ifndef ACKBO_H
#define ACKBO_H

#include <stddef.h>
#include <stdint.h>

#ifdef __cplusplus
extern "C" {
#endif

/* The relations that ackbo_compare replies. */
enum { ACKBO_GREATER = 1, ACKBO_LESS = 2, ACKBO_EQUIVALENT = 3, ACKBO_UNRELATED = 4 };

/* The sides that ackbo_pick replies, beside ACKBO_EQUIVALENT and ACKBO_UNRELATED. */
enum { ACKBO_LEFT = 1, ACKBO_RIGHT = 2 };

/* What ackbo_oftener replies where no variable occurs oftener on the right: the count of variables. */
enum { ACKBO_NONE_OFTENER = 16 };

/* What ackbo_count replies first: the number comes second, or there are more terms than are counted. */
enum { ACKBO_NUMBER = 1, ACKBO_MORE = 2 };

/* The most nodes that ackbo_count and ackbo_list take, and the most terms that they count and list. */
enum { ACKBO_MAX_SIZE = 7, ACKBO_MAX_TERMS = 65535 };

/* The bytes of a line that ackbo_page writes. */
enum { ACKBO_LINE_BYTES = 65 };

/* What ackbo_turn replies first: the place of the desk that was served comes second, or no desk has rules left. */
enum { ACKBO_SERVED = 1, ACKBO_IDLE = 2 };

/* The most desks of ackbo_turn, and the bytes of marks for each. */
enum { ACKBO_MAX_DESKS = 32, ACKBO_DESK_MARKS = 1023 };

/* A desk: a book in a buffer, by its start and length there, and how many of its rules are marked. */
struct ackbo_desk {
    size_t start;
    size_t length;
    size_t marked;
};

/* ackbo_turn takes the three numbers of a desk for 64 bits each, one after another. */
#if defined(__cplusplus) && __cplusplus >= 201103L
static_assert(sizeof(struct ackbo_desk) == 24, "a desk has three numbers of 64 bits");
#elif defined(__STDC_VERSION__) && __STDC_VERSION__ >= 201112L
_Static_assert(sizeof(struct ackbo_desk) == 24, "a desk has three numbers of 64 bits");
#endif

/* Opens a book to a sheet: writes its words at the front of words. reply: how many, 0, 0. */
uint8_t ackbo_decode(const uint8_t *book, size_t book_len, uint16_t *words, size_t words_len, int64_t reply[3]);

/* Closes a sheet to a book: writes its bytes at the front of book. reply: how many, 0, 0. */
uint8_t ackbo_encode(const uint16_t *words, size_t words_len, uint8_t *book, size_t book_len, int64_t reply[3]);

/* Converts a stored book of form 1 to form 2: writes its bytes, as many as it has, at the front of converted. reply:
   how many, 0, 0. In each rule a variable gets the number of its first appearance, left side first; no other bit
   changes but the form, and the marks are what they were. Refused are the book, with 1 to 11, where 3 is for every form
   but 1, and then, with 16, a converted that is shorter than the book (input 1). */
uint8_t ackbo_convert(const uint8_t *book, size_t book_len, uint8_t *converted, size_t converted_len,
                      int64_t reply[3]);

/* Compares two terms under a book. reply: the relation, the weight of the left less that of the right, 0. */
uint8_t ackbo_compare(const uint8_t *book, size_t book_len, const uint16_t *left, size_t left_len,
                      const uint16_t *right, size_t right_len, int64_t reply[3]);

/* Picks the greater of two terms under a book, each at the front of its words; what follows a term is never looked
   at. reply: ACKBO_LEFT or ACKBO_RIGHT, and how many words the greater term has, the first ones of left or of right;
   or, if neither is greater, ACKBO_EQUIVALENT or ACKBO_UNRELATED, and 0; then 0. The part that is picked is the left
   side of a rule that falls, the other term the right one. Refused are the book, left (input 1) and right (input 2),
   never with 15. A call costs what ackbo_compare costs of the two terms. */
uint8_t ackbo_pick(const uint8_t *book, size_t book_len, const uint16_t *left, size_t left_len,
                   const uint16_t *right, size_t right_len, int64_t reply[3]);

/* The fingerprint of a term under a book, 32 bits that AC-equal terms share. reply: the fingerprint, 0 to 4294967295,
   0, 0. A leaf's is its word plus 1. A symbol q that is not AC starts at q + 1, and for each argument the value becomes
   31 times itself plus the argument's; an AC symbol q gives 65,599 times (q + 1) plus the fingerprints of its bag; all
   of it wraps at 32 bits. Terms that are not AC-equal may share one: ackbo_compare tells. Refused are the book and the
   term (input 1). Past the book, the cost grows with the nodes, however bags nest. */
uint8_t ackbo_fingerprint(const uint8_t *book, size_t book_len, const uint16_t *term, size_t term_len,
                          int64_t reply[3]);

/* The variable test on two terms under a book. reply: the lowest variable number, 0 to 15, that occurs oftener in right
   than in left, or ACKBO_NONE_OFTENER; 0, 0. A rule from left to right gets mark 7 exactly if there is such a variable,
   whatever its sides weigh; to fall, it needs fewer of it on the right or more on the left. Refused are the book, left
   (input 1) and right (input 2). Past the book, the cost grows with the nodes; the terms are not compared. */
uint8_t ackbo_oftener(const uint8_t *book, size_t book_len, const uint16_t *left, size_t left_len,
                      const uint16_t *right, size_t right_len, int64_t reply[3]);

/* Counts the variable-free terms of n nodes under a book, without listing them. reply: ACKBO_NUMBER, their number, 0;
   or ACKBO_MORE, 0, 0 where there are more than ACKBO_MAX_TERMS. Terms whose words differ are different ones, AC-equal
   or not; their weight plays no part. Refused are the book and, with 22, an n that is not 1 to 7 (input 0, place 0).
   Past the book, the cost grows with the symbols, not with the terms. */
uint8_t ackbo_count(const uint8_t *book, size_t book_len, size_t n, int64_t reply[3]);

/* Lists the variable-free terms of n nodes under a book: writes their words at the front of words, n for each term, one
   term after another, ordered by their words from the first on. reply: the count of words written, n times the number
   of terms, 0, 0. Refused are the book, with 22 an n that is not 1 to 7 (input 0, place 0), and with 23 words (input 1)
   that are fewer than that, or, however many words there are, a number of more than ACKBO_MAX_TERMS. Past the book, the
   cost grows with the words written. */
uint8_t ackbo_list(const uint8_t *book, size_t book_len, uint16_t *words, size_t words_len, size_t n,
                   int64_t reply[3]);

/* Marks the rules of a book: writes a mark, 1 to 11, for each. reply: the rules, those that fall, the score: the
   percentage of rules that fall, rounded to the nearest whole number, an exact half to the even one; 100 without
   rules. All rules fall exactly if the first two are equal: 1,022 of 1,023 score 100 too. */
uint8_t ackbo_mark(const uint8_t *book, size_t book_len, uint8_t *marks, size_t marks_len, int64_t reply[3]);

/* Puts the marks and margins of a book's rules on a page: writes a line of ACKBO_LINE_BYTES for each at its front.
   reply: the count of bytes written, 65 times the count of rules, 0, 0. A line has 64 characters and byte 10: columns 1
   to 4 hold the number of the rule, from 0, and 47 to 58 the margin, both right-set; 6 to 45 hold words for the mark,
   left-set; the rest are spaces. Books whose marks or margins differ never have the same page. Refused are the book
   and, with 19, a page (input 1) shorter than 65 times the count of rules. A call costs what ackbo_mark costs, and the
   writing. */
uint8_t ackbo_page(const uint8_t *book, size_t book_len, uint8_t *page, size_t page_len, int64_t reply[3]);

/* A turn over 1 to ACKBO_MAX_DESKS desks, whose books lie in one buffer and may overlap: marks one rule, the one that
   its count numbers, of the next desk after last, going round, that has rules left, and adds one to that count. reply:
   ACKBO_SERVED, the place of that desk, 0; or ACKBO_IDLE, 0, 0, where none has rules left, and nothing changes. Rule r
   of desk d is marked at byte ACKBO_DESK_MARKS times d plus r; no other byte changes, and no other count. last is the
   place of the desk that was served last; for the first turn any desk's will do, and that of the last desk begins with
   desk 0. If each turn passes on the place that the one before replied, a desk with rules left is served within as many
   turns as there are desks, whatever is done to the others in between. A desk begun at count 0, whose record, marks and
   book nobody else changes, has the marks that ackbo_mark writes for its book once its count is that of the rules.
   Refused are, first, with 24 (input 0), other counts of desks and a last that is no desk; then, with 25 (input 0,
   place the lowest such desk), a desk whose book does not lie in the buffer, is refused, or has fewer rules than the
   count; then, with 12 (input 2), marks shorter than ACKBO_DESK_MARKS times the desks.

   A turn reads the book of every desk, and compares the sides of one rule: as measured, about 0.1 ms for one book of
   the longest, 0.9 ms for 8 and 3.5 ms for 32, whichever rule it is, and 1.3, 6 and 28 microseconds for books of up to
   24 rules. A class thus costs a reading of all its books for each rule, where ackbo_mark reads a book once for all its
   rules, in 0.2 to 0.3 ms for the longest. A caller who minds lends fewer desks at once, gives a finished desk a short
   book without rules, so that the others keep their places, and leaves the last book with rules to ackbo_mark. */
uint8_t ackbo_turn(struct ackbo_desk *desks, size_t desks_len, const uint8_t *buffer, size_t buffer_len,
                   uint8_t *marks, size_t marks_len, size_t last, int64_t reply[3]);

#ifdef __cplusplus
}
#endif

#endif
