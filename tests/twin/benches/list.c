/* Lists the variable-free terms of so many nodes by a plain recursion, which enters no dead end: for each count of nodes
   and of terms left, the symbols that may come next are listed beforehand. The benchmark holds the library to it. */
#include <stddef.h>
#include <stdint.h>

enum { MAX_NODES = 7, ARITIES = 8, MAX_SYMBOLS = 255 };

struct lister {
    size_t size;
    const uint8_t *arities;
    /* The symbols that may come next, by the nodes and the terms left. */
    size_t counts[MAX_NODES + 1][ARITIES];
    uint8_t symbols[MAX_NODES + 1][ARITIES][MAX_SYMBOLS];
    uint16_t row[MAX_NODES];
};

/* Whether rows of so many terms with so many nodes exist, for one node more than is known so far. */
static void find_live(const int has[ARITIES], const int known[ARITIES], int live[ARITIES])
{
    for (size_t terms = 0; terms < ARITIES; terms++) {
        live[terms] = 0;
        for (size_t arity = 0; terms > 0 && arity + terms - 1 < ARITIES; arity++)
            live[terms] |= has[arity] && known[arity + terms - 1];
    }
}

static void find_symbols(struct lister *lister, size_t symbols)
{
    int live[MAX_NODES + 1][ARITIES] = { { 1 } };
    int has[ARITIES] = { 0 };
    for (size_t f = 0; f < symbols; f++)
        has[lister->arities[f]] = 1;
    for (size_t nodes = 1; nodes <= lister->size; nodes++) {
        find_live(has, live[nodes - 1], live[nodes]);
        for (size_t terms = 1; terms <= nodes; terms++) {
            size_t count = 0;
            for (size_t f = 0; f < symbols; f++) {
                size_t left = lister->arities[f] + terms - 1;
                if (left < ARITIES && live[nodes - 1][left])
                    lister->symbols[nodes][terms][count++] = (uint8_t)f;
            }
            lister->counts[nodes][terms] = count;
        }
    }
}

static uint16_t *list_rows(struct lister *lister, size_t nodes, size_t terms, uint16_t *words)
{
    if (nodes == 0) {
        for (size_t i = 0; i < lister->size; i++)
            words[i] = lister->row[i];
        return words + lister->size;
    }
    for (size_t i = 0; i < lister->counts[nodes][terms]; i++) {
        uint8_t f = lister->symbols[nodes][terms][i];
        lister->row[lister->size - nodes] = f;
        words = list_rows(lister, nodes - 1, lister->arities[f] + terms - 1, words);
    }
    return words;
}

/* Writes the terms of so many nodes, 1 to 7, and gives the count of words; the caller has made room for them. */
size_t list_terms(const uint8_t *arities, size_t symbols, size_t nodes, uint16_t *words)
{
    struct lister lister;
    lister.size = nodes;
    lister.arities = arities;
    find_symbols(&lister, symbols);
    return (size_t)(list_rows(&lister, nodes, 1, words) - words);
}
