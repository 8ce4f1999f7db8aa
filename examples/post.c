/* Before a list is posted: builds the table of the pocket in examples/pocket.txt, prints its short list, checks that list and one with
 * an inverted loop against the table, and chooses between short list and cnf. Everything is lent by this file; nothing is allocated. */
#include "collartug.h"

#include <stdio.h>
#include <string.h>

enum { MARKS = 6, ROOM = 64, MOST = 64 };

/* A buffer as every call takes it: where it starts, and how many words it has. */
#define LENT(buffer) buffer, sizeof buffer / sizeof buffer[0]

static uint32_t table[COLLARTUG_OUT_WORDS(ROOM)];
static uint32_t work[COLLARTUG_SHORT_LIST_WORK_WORDS(ROOM, MARKS)];
static uint64_t list[2 * MOST], cnf[2 * MOST];
static uint64_t reply[COLLARTUG_REPLY_WORDS];

/* The two words of a text such as 1-0: the fixed marks, then their values. */
static void clause(const char *text, uint64_t words[2]) {
    words[0] = words[1] = 0;
    for (size_t i = 0; i < strlen(text); i++) {
        words[0] |= (uint64_t)(text[i] != '-') << i;
        words[1] |= (uint64_t)(text[i] == '1') << i;
    }
}

static void print(uint64_t fixed, uint64_t values) {
    for (int i = 0; i < MARKS; i++)
        putchar(fixed >> i & 1 ? (values >> i & 1 ? '1' : '0') : '-');
    putchar('\n');
}

/* After each call: 0, or the refusal said aloud. */
static int refused(const char *what) {
    if (reply[0] != 0)
        printf("%s: refused %d %llu\n", what, (int)reply[0], (unsigned long long)reply[1]);
    return reply[0] != 0;
}

static int check(const char *name, size_t count, size_t clauses, const uint64_t *words) {
    collartug_check_cover(MARKS, count, LENT(table), clauses, words, 2 * clauses, ROOM, LENT(work), LENT(reply));
    if (refused(name))
        return 1;
    if (reply[2] == 0) {
        printf("%s: post it, it covers the pocket\n", name);
    } else {
        printf("%s: do not post it, it differs at ", name);
        print(~(uint64_t)0, reply[3]);
    }
    return 0;
}

int main(void) {
    uint64_t pocket[4], inverted[4];
    clause("10--00", pocket);
    clause("1110-0", pocket + 2);
    clause("10--00", inverted);
    clause("1100-0", inverted + 2);

    collartug_mk_dnf(MARKS, 2, LENT(pocket), ROOM, LENT(table), LENT(work), LENT(reply));
    if (refused("mk_dnf"))
        return 1;
    size_t count = reply[2];
    printf("%zu nodes\n", count);

    collartug_to_optimized_dnf(MARKS, count, LENT(table), ROOM, LENT(list), LENT(work), LENT(reply));
    if (refused("to_optimized_dnf"))
        return 1;
    size_t clauses = reply[2];
    for (size_t i = 0; i < clauses; i++)
        print(list[2 * i], list[2 * i + 1]);
    if (check("short list", count, clauses, list) || check("inverted list", count, 2, inverted))
        return 1;

    collartug_to_cnf(MARKS, count, LENT(table), LENT(cnf), LENT(work), LENT(reply));
    if (refused("to_cnf"))
        return 1;
    size_t others = reply[2];
    /* only the filled part of each buffer is passed; the answer is the words of the list to post, and on a tie it is the first */
    collartug_choose_posting(list, 2 * clauses, cnf, 2 * others, LENT(reply));
    printf("%zu or %zu clauses: post the %s\n", clauses, others, reply[2] == 2 * clauses ? "short list" : "cnf");
    return 0;
}
