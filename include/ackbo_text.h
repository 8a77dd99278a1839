/* Names and words for the numbers of ackbo.h, the limits of books, and the version. Nothing here needs the archive.

   Each table has a row a number: ROW(number, name, words). bindings/rust/src/words.rs has the same rows for Rust, and
   docs/MARKS.md an entry for each, with what to change; a test holds the three to one another. */
#ifndef ACKBO_TEXT_H
#define ACKBO_TEXT_H

#define ACKBO_VERSION "0.8.0"

/* The marks of rules. A rule falls exactly if the words of its mark begin with "falls". */
#define ACKBO_MARKS(ROW)                               \
    ROW(1, FALLS_BY_WEIGHT, "falls by weight")         \
    ROW(2, FALLS_BY_RANK, "falls by rank")             \
    ROW(3, FALLS_BY_ARGUMENTS, "falls by arguments")   \
    ROW(4, FALLS_BY_HIGH_TERMS, "falls by high terms") \
    ROW(5, FALLS_BY_COUNT, "falls by count")           \
    ROW(6, FALLS_BY_LOW_TERMS, "falls by low terms")   \
    ROW(7, VARIABLE_ADDED, "variable added")           \
    ROW(8, LEFT_LIGHTER, "left lighter")               \
    ROW(9, SIDES_EQUAL, "sides equal")                 \
    ROW(10, NO_CASE, "no case")                        \
    ROW(11, FALLS_BY_WRAPPING, "falls by wrapping")

/* The refusals. */
#define ACKBO_REFUSALS(ROW)                                                                         \
    ROW(1, FILE_TOO_LONG, "the book is longer than 32,768 bytes")                                   \
    ROW(2, FIELD_MISSING, "a field is missing or cut off")                                          \
    ROW(3, WRONG_FORM, "the form is none that is read here")                                        \
    ROW(4, NO_SYMBOLS, "there is no symbol")                                                        \
    ROW(5, VARIABLE_WEIGHTLESS, "w0, the weight of a variable, is 0")                               \
    ROW(6, AC_NOT_BINARY, "an AC symbol has an arity other than 2")                                 \
    ROW(7, WEIGHT_INADMISSIBLE, "the weight is too small for the arity and the rank")               \
    ROW(8, RANK_TAKEN, "an earlier symbol has this rank")                                           \
    ROW(9, NO_SUCH_SYMBOL, "no symbol has this number")                                             \
    ROW(10, TOO_MANY_NODES, "a 129th node is called for")                                           \
    ROW(11, BAD_PADDING, "more than padding follows the last rule")                                 \
    ROW(12, MARKS_TOO_SHORT, "the room for marks is shorter than the count of rules")               \
    ROW(13, WORDS_TOO_SHORT, "the room for words is shorter than the sheet")                        \
    ROW(14, WORD_TOO_WIDE, "the word is too great for its field")                                   \
    ROW(15, WORDS_LEFT_OVER, "words are left over")                                                 \
    ROW(16, BYTES_TOO_SHORT, "the room for bytes is shorter than the book")                         \
    ROW(17, OLD_FORM, "the form is 1, which the converter alone reads")                             \
    ROW(18, VARIABLE_OUT_OF_TURN, "a variable is out of turn in its rule")                          \
    ROW(19, PAGE_TOO_SHORT, "the page is shorter than 65 times the count of rules")                 \
    ROW(22, SIZE_OUT_OF_RANGE, "the count of nodes is not 1 to 7")                                  \
    ROW(23, NO_ROOM_FOR_TERMS, "the terms are too many, or have more words than there is room for") \
    ROW(24, NO_SUCH_JOB, "there are not 1 to 32 desks, or the last served is none")                 \
    ROW(25, BAD_JOB, "the desk's book is outside, refused, or shorter than its count")

/* ACKBO_FALLS_BY_WEIGHT is 1, and so on. */
#define ACKBO_ROW(number, name, words) ACKBO_##name = number,
enum ackbo_mark_number { ACKBO_MARKS(ACKBO_ROW) ACKBO_NO_MARK = 0 };
enum ackbo_refusal_number { ACKBO_REFUSALS(ACKBO_ROW) ACKBO_NO_REFUSAL = 0 };
#undef ACKBO_ROW

#define ACKBO_ROW(number, name, words) \
    case number:                       \
        return words;

/* The words for a mark; those for a number that is none say so. */
static inline const char *ackbo_mark_text(int mark) {
    switch (mark) { ACKBO_MARKS(ACKBO_ROW) }
    return "no such mark";
}

/* Whether a rule with this mark falls. */
static inline int ackbo_mark_falls(int mark) {
    return (ACKBO_FALLS_BY_WEIGHT <= mark && mark <= ACKBO_FALLS_BY_LOW_TERMS) || mark == ACKBO_FALLS_BY_WRAPPING;
}

/* The words for a refusal; those for 0, and for a number that is none, say so. */
static inline const char *ackbo_refusal_text(int refusal) {
    switch (refusal) { ACKBO_REFUSALS(ACKBO_ROW) }
    return refusal == 0 ? "not refused" : "no such refusal";
}

#undef ACKBO_ROW

/* The most bytes of a book, words of a sheet, symbols and rules of a book, and nodes of a side or a term; the count of
   variables, and the node word of variable 0. A sheet is longest for one symbol, of arity 7, and 1,021 rules whose
   other nodes are variables. */
enum {
    ACKBO_MAX_BYTES = 32768,
    ACKBO_MAX_WORDS = 47256,
    ACKBO_MAX_SYMBOLS = 255,
    ACKBO_MAX_RULES = 1023,
    ACKBO_MAX_NODES = 128,
    ACKBO_VARIABLES = 16,
    ACKBO_FIRST_VARIABLE = 256
};

#endif
