/* What a caller finds in an opened book: where a term ends, and the margin of each rule. ackbo_decode writes the sheet;
   docs/FORMAT.md has its layout. These functions are plain C over those of ackbo.h, and are not themselves proved.

   A length counts words, of 16 bits. */
#ifndef ACKBO_SHEET_H
#define ACKBO_SHEET_H

#include "ackbo.h"
#include "ackbo_text.h"

/* The words before the first symbol, and of a symbol; the most words before the rules, and the most bytes of a book
   that has no rules. */
enum {
    ACKBO_HEADER_WORDS = 4,
    ACKBO_SYMBOL_WORDS = 4,
    ACKBO_MAX_HEAD_WORDS = ACKBO_HEADER_WORDS + ACKBO_SYMBOL_WORDS * ACKBO_MAX_SYMBOLS,
    ACKBO_MAX_HEAD_BYTES = 898
};

/* The count of words before the rules of a sheet, at most as many as it has. */
static inline size_t ackbo_head_length(const uint16_t *sheet, size_t sheet_len) {
    size_t symbols = sheet_len > 1 ? sheet[1] : 0;
    size_t length = ACKBO_HEADER_WORDS + ACKBO_SYMBOL_WORDS * symbols;
    return length < sheet_len ? length : sheet_len;
}

/* The count of words of the term at the front of words, under the symbols of a sheet: of a side of a rule, if the words
   are those of the sheet from there on. 0 where the term does not end, or has a symbol that is not there. */
static inline size_t ackbo_term_length(const uint16_t *sheet, size_t sheet_len, const uint16_t *words,
                                       size_t words_len) {
    size_t head = ackbo_head_length(sheet, sheet_len), owed = 1, length = 0;
    for (; owed > 0; length++) {
        size_t symbol;
        if (length == words_len) return 0;
        owed--;
        if (words[length] >= ACKBO_FIRST_VARIABLE) continue;
        symbol = ACKBO_HEADER_WORDS + (size_t)ACKBO_SYMBOL_WORDS * words[length];
        if (symbol >= head) return 0;
        owed += sheet[symbol];
    }
    return length;
}

/* The margin of each rule of a sheet that ackbo_decode wrote: the weight of its left side less that of its right one,
   as ackbo_compare replies it, at the front of margins. The result is 0, or the first refusal with its reply: of a
   sheet that no book opens to, that of ackbo_encode or of ackbo_compare, and where margins are fewer than the rules,
   ACKBO_MARKS_TOO_SHORT. The calls of ackbo_compare read a book of the same symbols without rules. */
static inline uint8_t ackbo_margins(const uint16_t *sheet, size_t sheet_len, int64_t *margins, size_t margins_len,
                                    int64_t reply[3]) {
    uint16_t head[ACKBO_MAX_HEAD_WORDS];
    uint8_t book[ACKBO_MAX_HEAD_BYTES], refusal;
    size_t length = ackbo_head_length(sheet, sheet_len), rules, rule, i;
    if (length > ACKBO_MAX_HEAD_WORDS) length = ACKBO_MAX_HEAD_WORDS;
    for (i = 0; i < length; i++) head[i] = sheet[i];
    rules = length > 3 ? head[3] : 0;
    if (length > 3) head[3] = 0;
    refusal = ackbo_encode(head, length, book, sizeof book, reply);
    if (refusal != 0) return refusal;
    if (margins_len < rules) {
        reply[0] = 1, reply[1] = reply[2] = 0;
        return ACKBO_MARKS_TOO_SHORT;
    }
    size_t book_len = (size_t)reply[0], start = length;
    for (rule = 0; rule < rules; rule++) {
        const uint16_t *left = sheet + start, *right;
        size_t left_len = ackbo_term_length(sheet, sheet_len, left, sheet_len - start), right_len;
        right = left + left_len;
        right_len = ackbo_term_length(sheet, sheet_len, right, sheet_len - start - left_len);
        refusal = ackbo_compare(book, book_len, left, left_len, right, right_len, reply);
        if (refusal != 0) return refusal;
        margins[rule] = reply[1];
        start += left_len + right_len;
    }
    return 0;
}

#endif
