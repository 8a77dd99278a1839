/* Prints the stack that each operation takes, in bytes: stack BOOK OLD, a book of form 2 with a rule whose AC symbols
   nest as deep as they may, and one of form 1. Each runs in a thread whose stack is filled with a pattern before. */
#define _GNU_SOURCE
#include <pthread.h>
#include <stdio.h>
#include <stdlib.h>
#include <string.h>

#include "ackbo.h"
#include "ackbo_sheet.h"
#include "ackbo_text.h"

enum { STACK = 1 << 20, PATTERN = 0xa5 };

static uint8_t book[ACKBO_MAX_BYTES], old[ACKBO_MAX_BYTES], page[ACKBO_LINE_BYTES * ACKBO_MAX_RULES];
static uint8_t marks[ACKBO_MAX_DESKS * ACKBO_DESK_MARKS];
static uint16_t sheet[ACKBO_MAX_WORDS], words[ACKBO_MAX_SIZE * ACKBO_MAX_TERMS];
static size_t book_len, old_len, sheet_len, left_len, right_len;
static const uint16_t *left, *right;
static struct ackbo_desk desks[ACKBO_MAX_DESKS];
static int64_t reply[3];

static uint8_t nothing(void) { return 0; }
static uint8_t decode(void) { return ackbo_decode(book, book_len, sheet, ACKBO_MAX_WORDS, reply); }
static uint8_t encode(void) { return ackbo_encode(sheet, sheet_len, page, sizeof page, reply); }
static uint8_t convert(void) { return ackbo_convert(old, old_len, page, sizeof page, reply); }
static uint8_t compare(void) { return ackbo_compare(book, book_len, left, left_len, right, right_len, reply); }
static uint8_t pick(void) { return ackbo_pick(book, book_len, left, left_len, right, right_len, reply); }
static uint8_t fingerprint(void) { return ackbo_fingerprint(book, book_len, left, left_len, reply); }
static uint8_t oftener(void) { return ackbo_oftener(book, book_len, left, left_len, right, right_len, reply); }
static uint8_t count(void) { return ackbo_count(book, book_len, ACKBO_MAX_SIZE, reply); }
static uint8_t list(void) { return ackbo_list(book, book_len, words, sizeof words / sizeof *words, 5, reply); }
static uint8_t mark(void) { return ackbo_mark(book, book_len, marks, sizeof marks, reply); }
static uint8_t put_page(void) { return ackbo_page(book, book_len, page, sizeof page, reply); }
static uint8_t turn(void) {
    return ackbo_turn(desks, ACKBO_MAX_DESKS, book, book_len, marks, sizeof marks, 0, reply);
}

static const struct {
    const char *name;
    uint8_t (*run)(void);
} operations[] = {
    {"nothing", nothing},     {"decode", decode}, {"encode", encode},           {"convert", convert},
    {"compare", compare},     {"pick", pick},     {"fingerprint", fingerprint}, {"oftener", oftener},
    {"count", count},         {"list", list},     {"mark", mark},               {"page", put_page},
    {"turn", turn},
};

static void *run(void *operation) {
    uint8_t (**function)(void) = operation;
    return (*function)() == 0 ? operation : NULL;
}

/* The bytes of its stack that a thread with this operation touches. */
static size_t touched(uint8_t (*operation)(void)) {
    unsigned char *stack = aligned_alloc(4096, STACK);
    pthread_attr_t attributes;
    pthread_t thread;
    void *done = NULL;
    size_t clean = 0;
    if (stack == NULL) exit(2);
    memset(stack, PATTERN, STACK);
    pthread_attr_init(&attributes);
    if (pthread_attr_setstack(&attributes, stack, STACK) != 0) exit(2);
    if (pthread_create(&thread, &attributes, run, &operation) != 0 || pthread_join(thread, &done) != 0) exit(2);
    if (done == NULL) exit(1);
    while (stack[clean] == PATTERN) clean++;
    free(stack);
    return STACK - clean;
}

static size_t file(const char *name, uint8_t *bytes) {
    FILE *input = fopen(name, "rb");
    if (input == NULL) exit(2);
    size_t length = fread(bytes, 1, ACKBO_MAX_BYTES, input);
    fclose(input);
    return length;
}

int main(int argc, char **argv) {
    if (argc != 3) return 2;
    book_len = file(argv[1], book);
    old_len = file(argv[2], old);
    if (decode() != 0) return 1;
    sheet_len = (size_t)reply[0];
    left = sheet + ackbo_head_length(sheet, sheet_len);
    left_len = ackbo_term_length(sheet, sheet_len, left, sheet_len - (size_t)(left - sheet));
    right = left + left_len;
    right_len = ackbo_term_length(sheet, sheet_len, right, sheet_len - (size_t)(right - sheet));
    for (size_t desk = 0; desk < ACKBO_MAX_DESKS; desk++) desks[desk].length = book_len;
    size_t empty = touched(nothing);
    for (size_t i = 1; i < sizeof operations / sizeof *operations; i++) {
        size_t bytes = touched(operations[i].run);
        printf("%s %zu\n", operations[i].name, bytes > empty ? bytes - empty : 0);
    }
    return 0;
}
