/* Collartug for C: decision tables of at most 60 marks. Link target/native/libexports.a (tests/native-lib exports writes it).
 *
 * A case is a uint64_t: bit i is mark i. A clause is two of them: the fixed marks, then their values.
 * A table is a count of nodes and three uint32_t for each: mark, low, high. Node 0 says no, node 1 yes, the root is last.
 *
 * A slice is passed as a pointer, never NULL, and its length in words. Output, work and reply must not overlap each other or an
 * input. Nothing else is asked of a caller: whatever the words hold, a call ends and stays inside what was lent.
 *
 * Every call wants a reply of at least COLLARTUG_REPLY_WORDS words and returns 1; with a shorter one it returns 0 and does nothing.
 * The reply is: reply[0] the refusal's number, 0 for none; reply[1] its place; the answer from reply[2] on; zeros behind.
 * Numbers 1 to 6 and 9 leave output and work as they were; 7 and 8 fill both with zeros. A success leaves zeros in the work, and in
 * the output behind the result. docs/USING.md says what each refusal means and what to do.
 */
#ifndef COLLARTUG_H
#define COLLARTUG_H

#include <stddef.h>
#include <stdint.h>

#ifdef __cplusplus
extern "C" {
#endif

#define COLLARTUG_REPLY_WORDS 64
#define COLLARTUG_MOST_MARKS 60
#define COLLARTUG_MOST_CLAUSES 1024
#define COLLARTUG_MOST_NODES 4096

/* Words of an output with room for so many nodes. */
#define COLLARTUG_OUT_WORDS(room) (3 * (size_t)(room))
/* Words of work; `largest` is the larger of the room and of every node count that goes in. */
#define COLLARTUG_WORK_WORDS(largest) (12 * (size_t)(largest) + 192)
/* The short list's words of work, for n marks. */
#define COLLARTUG_SHORT_LIST_WORK_WORDS(largest, n) (24 * (size_t)(largest) * ((size_t)(n) + 2) + 192)

enum collartug_refusal {
    COLLARTUG_LIMIT = 1,
    COLLARTUG_SHORT = 2,
    COLLARTUG_VARIABLE = 3,
    COLLARTUG_CLAUSE = 4,
    COLLARTUG_TABLE = 5,
    COLLARTUG_REDUCED = 6,
    COLLARTUG_NODES = 7,
    COLLARTUG_CLAUSES = 8,
    COLLARTUG_SHEET = 9
};

/* Building a table. Each writes it to out and answers its node count; it is the smallest there is. Room: 2 to 4,096 nodes. */

/* Yes where some clause of the list holds: all its literals do. */
uint64_t collartug_mk_dnf(uint16_t n, size_t count, const uint64_t *clauses, size_t clauses_len, size_t room, uint32_t *out, size_t out_len,
    uint32_t *work, size_t work_len, uint64_t *reply, size_t reply_len);

/* Yes where every clause of the list has a literal that holds. */
uint64_t collartug_mk_cnf(uint16_t n, size_t count, const uint64_t *clauses, size_t clauses_len, size_t room, uint32_t *out, size_t out_len,
    uint32_t *work, size_t work_len, uint64_t *reply, size_t reply_len);

/* Yes at the listed cases and nowhere else. */
uint64_t collartug_mk_dnf_valuation(uint16_t n, size_t count, const uint64_t *cases, size_t cases_len, size_t room, uint32_t *out,
    size_t out_len, uint32_t *work, size_t work_len, uint64_t *reply, size_t reply_len);

/* Each listed case read as a clause of mk_cnf: no at the complements of the cases and nowhere else. */
uint64_t collartug_mk_cnf_valuation(uint16_t n, size_t count, const uint64_t *cases, size_t cases_len, size_t room, uint32_t *out,
    size_t out_len, uint32_t *work, size_t work_len, uint64_t *reply, size_t reply_len);

/* Reads a sheet. Answers its kind (1 dnf, 2 cnf, 3 table), the marks and the count; the clauses or the nodes go to their buffer, which has
 * two words a clause or three words a node, and the other is filled with zeros. */
uint64_t collartug_read_sheet(const uint8_t *bytes, size_t bytes_len, uint64_t *clauses, size_t clauses_len, uint32_t *nodes,
    size_t nodes_len, uint64_t *reply, size_t reply_len);

/* Asking a table. */

/* Looks a table over. Answers its root; TABLE where it is not ordered. */
uint64_t collartug_inspect(uint16_t n, size_t count, const uint32_t *nodes, size_t nodes_len, uint64_t *reply, size_t reply_len);

/* What the table says of a case. Answers 1 for yes, 0 for no. */
uint64_t collartug_eval_in(uint16_t n, size_t count, const uint32_t *nodes, size_t nodes_len, uint64_t a_case, uint64_t *reply,
    size_t reply_len);

/* Answers the number of cases that get yes. */
uint64_t collartug_exact_cardinality(uint16_t n, size_t count, const uint32_t *nodes, size_t nodes_len, uint32_t *work, size_t work_len,
    uint64_t *reply, size_t reply_len);

/* Answers the marks that the answer depends on, bit i for mark i. */
uint64_t collartug_support_set(uint16_t n, size_t count, const uint32_t *nodes, size_t nodes_len, uint32_t *work, size_t work_len,
    uint64_t *reply, size_t reply_len);

/* Whether a DNF list says what the table says. Answers 0 where it does; else 1 and the first case where they differ, mark 0 compared first. */
uint64_t collartug_check_cover(uint16_t n, size_t count, const uint32_t *nodes, size_t nodes_len, size_t clause_count,
    const uint64_t *clauses, size_t clauses_len, size_t room, uint32_t *work, size_t work_len, uint64_t *reply, size_t reply_len);

/* Lists from a table, two words a clause. Each answers the clause count; CLAUSES names the count needed where out is too short. */

/* The path list: one clause for each path to yes, low first. No two clauses hold at once, so areas add up. */
uint64_t collartug_to_dnf(uint16_t n, size_t count, const uint32_t *nodes, size_t nodes_len, uint64_t *out, size_t out_len, uint32_t *work,
    size_t work_len, uint64_t *reply, size_t reply_len);

/* The short list: few, short clauses to post; they may overlap, so it is not for adding. Work: COLLARTUG_SHORT_LIST_WORK_WORDS. Both
 * NODES and CLAUSES name 0. */
uint64_t collartug_to_optimized_dnf(uint16_t n, size_t count, const uint32_t *nodes, size_t nodes_len, size_t room, uint64_t *out, size_t out_len,
    uint32_t *work, size_t work_len, uint64_t *reply, size_t reply_len);

/* One clause for each path to no, low first, literals inverted. */
uint64_t collartug_to_cnf(uint16_t n, size_t count, const uint32_t *nodes, size_t nodes_len, uint64_t *out, size_t out_len, uint32_t *work,
    size_t work_len, uint64_t *reply, size_t reply_len);

/* Whether a path walk may start. Answers the root; REDUCED where the table is ordered but has a node that it does not need. */
uint64_t collartug_walk_check(uint16_t n, size_t count, const uint32_t *nodes, size_t nodes_len, uint64_t *reply, size_t reply_len);

/* Step k of a path walk, from 0: clause k of to_dnf. Answers 1 and the clause; 0 after the last, and where no walk may start. */
uint64_t collartug_kth_step(uint16_t n, size_t count, const uint32_t *nodes, size_t nodes_len, uint32_t k, uint64_t *reply,
    size_t reply_len);

/* Which of two lists to post: the one with fewer clauses, the DNF on a tie. Answers how many words it has, its first and its last word. */
uint64_t collartug_choose_posting(const uint64_t *dnf, size_t dnf_len, const uint64_t *cnf, size_t cnf_len, uint64_t *reply,
    size_t reply_len);

/* Tables from tables. Each writes the result to out and answers its node count. Both tables speak of the same n marks. */

/* Not the table. */
uint64_t collartug_not(uint16_t n, size_t count, const uint32_t *nodes, size_t nodes_len, size_t room, uint32_t *out, size_t out_len,
    uint32_t *work, size_t work_len, uint64_t *reply, size_t reply_len);

/* Left and right. */
uint64_t collartug_and(uint16_t n, size_t left_count, const uint32_t *left, size_t left_len, size_t right_count, const uint32_t *right,
    size_t right_len, size_t room, uint32_t *out, size_t out_len, uint32_t *work, size_t work_len, uint64_t *reply, size_t reply_len);

/* Left or right. */
uint64_t collartug_or(uint16_t n, size_t left_count, const uint32_t *left, size_t left_len, size_t right_count, const uint32_t *right,
    size_t right_len, size_t room, uint32_t *out, size_t out_len, uint32_t *work, size_t work_len, uint64_t *reply, size_t reply_len);

/* Left and not right. */
uint64_t collartug_and_not(uint16_t n, size_t left_count, const uint32_t *left, size_t left_len, size_t right_count, const uint32_t *right,
    size_t right_len, size_t room, uint32_t *out, size_t out_len, uint32_t *work, size_t work_len, uint64_t *reply, size_t reply_len);

/* Yes where both values of the mark get yes. */
uint64_t collartug_var_for_all(uint16_t n, size_t count, const uint32_t *nodes, size_t nodes_len, uint16_t mark, size_t room, uint32_t *out,
    size_t out_len, uint32_t *work, size_t work_len, uint64_t *reply, size_t reply_len);

/* Yes where some value of the mark gets yes. */
uint64_t collartug_var_exists(uint16_t n, size_t count, const uint32_t *nodes, size_t nodes_len, uint16_t mark, size_t room, uint32_t *out,
    size_t out_len, uint32_t *work, size_t work_len, uint64_t *reply, size_t reply_len);

/* The table with the mark set to value; any value but 0 is 1. */
uint64_t collartug_var_restrict(uint16_t n, size_t count, const uint32_t *nodes, size_t nodes_len, uint16_t mark, uint64_t value,
    size_t room, uint32_t *out, size_t out_len, uint32_t *work, size_t work_len, uint64_t *reply, size_t reply_len);

/* Clauses by themselves (60 marks). A clause that comes back stands in two words of the answer. */

/* Answers the clause that fixes nothing. */
uint64_t collartug_empty(uint64_t *reply, size_t reply_len);

/* Answers 1 where no mark is fixed, else 0. */
uint64_t collartug_is_empty(uint64_t fixed, uint64_t values, uint64_t *reply, size_t reply_len);

/* Answers the number of fixed marks. */
uint64_t collartug_cardinality(uint64_t fixed, uint64_t values, uint64_t *reply, size_t reply_len);

/* Answers 1 and the greatest fixed mark, or 0 where none is. */
uint64_t collartug_last_fixed_variable(uint64_t fixed, uint64_t values, uint64_t *reply, size_t reply_len);

/* Answers 0 for an unset mark, else 1 and its value. */
uint64_t collartug_get_value(uint64_t fixed, uint64_t values, uint16_t mark, uint64_t *reply, size_t reply_len);

/* Answers 1 where the mark is fixed, else 0. */
uint64_t collartug_has_value(uint64_t fixed, uint64_t values, uint16_t mark, uint64_t *reply, size_t reply_len);

/* Answers the clause with the mark set; any value but 0 is 1. */
uint64_t collartug_set_value(uint64_t fixed, uint64_t values, uint16_t mark, uint64_t value, uint64_t *reply, size_t reply_len);

/* Answers the clause without the mark. */
uint64_t collartug_unset_value(uint64_t fixed, uint64_t values, uint16_t mark, uint64_t *reply, size_t reply_len);

/* Answers 1 where the clause fixes all that the other fixes, to the same values. */
uint64_t collartug_extends(uint64_t fixed, uint64_t values, uint64_t other_fixed, uint64_t other_values, uint64_t *reply, size_t reply_len);

/* Answers 1 where both are the same clause. */
uint64_t collartug_eq(uint64_t fixed, uint64_t values, uint64_t other_fixed, uint64_t other_values, uint64_t *reply, size_t reply_len);

/* Answers the clause of the entries 2*mark + value; the last one wins. */
uint64_t collartug_from_values(const uint32_t *entries, size_t entries_len, uint64_t *reply, size_t reply_len);

/* Answers the number of fixed marks, then 60 words: 2*mark + value for each, rising, then zeros. */
uint64_t collartug_to_values(uint64_t fixed, uint64_t values, uint64_t *reply, size_t reply_len);

#ifdef __cplusplus
}
#endif

#endif
