/*
 * Edge-valued diagrams and LUT cascades for integer tables.
 *
 * A slice is a pointer to its first element and the number of its elements; an
 * array of fixed size is the pointer alone. No pointer is null, not even for an
 * empty slice, and what a function writes overlaps none of its other arguments.
 * Nothing else is required of a caller. A refused call leaves whatever it was lent as it was.
 */
#ifndef PANSTRAIT_H
#define PANSTRAIT_H

#include <stdbool.h>
#include <stddef.h>
#include <stdint.h>

#ifdef __cplusplus
extern "C" {
#endif

/* The rail width of so many classes: the least w with count at most 2^w. */
size_t panstrait_rail_width(uint32_t count);

/*
 * The weight width of a cell from its least and its greatest weight: where
 * neither is negative the least a with both below 2^a, else the least two's
 * complement width that holds both. It is 0 only where both are 0.
 */
size_t panstrait_weight_width(int32_t least, int32_t greatest);

/*
 * The classes of all cuts of a table over n variables. Block j of cut h has
 * place 2^h - 1 + j: its class in classes, and in firsts the first block of
 * class j of that cut, 0 past the last class. counts[h] is the number of
 * classes at cut h. tried has at a block's place how many classes the search
 * for its class tried: it tries the class of the block just before, then the
 * other known ones from class 0 up, each at most once, and the found one is
 * counted; so it is 0 at a cut's first block, and all known ones at any other
 * new class. uses has there how many blocks of the cut up to and including this
 * one have its class, and use_counts, by class as firsts, how many blocks of the
 * cut have the class, 0 past the last class; those of cut h sum to 2^h. True
 * with the six rows filled where n is at most 12, the table has 2^n values,
 * counts has n + 1 places and each other row 2^(n+1) - 1; else false, and the
 * rows are left as they were.
 */
bool panstrait_classes(size_t n, const int32_t *table, size_t table_len,
                       size_t *classes, size_t classes_len,
                       size_t *firsts, size_t firsts_len,
                       size_t *counts, size_t counts_len,
                       size_t *tried, size_t tried_len,
                       size_t *uses, size_t uses_len,
                       size_t *use_counts, size_t use_counts_len);

/*
 * Build: 0, and the first numbers of the node buffer hold the table's records,
 * behind count stands the node count (records plus 1) and behind offset the
 * offset; else the refusal's number (1, 2, 3 or 4), and buffer, count and
 * offset are left as they were. A record is six numbers: variable, low, high,
 * weight, and the least and the greatest value of its node's function, which is
 * 0 where all bits are 0. The buffer must have 6 * (2^n - 1) numbers.
 */
uint8_t panstrait_build(size_t n, const int32_t *table, size_t table_len,
                        int32_t *nodes, size_t nodes_len,
                        size_t *count, int32_t *offset);

/*
 * Walk: 0, and behind value the value at X of a record list over n variables;
 * else the refusal's number (1, 5, 6 or 7), and value is left as it was.
 */
uint8_t panstrait_walk(size_t n, int32_t offset,
                       const int32_t *records, size_t records_len, size_t x,
                       int32_t *value);

/*
 * Report: 0, and behind count the number of X from a to b, both included,
 * behind least, greatest and sum the least, the greatest and the exact sum of
 * Walk's values at these X; else the refusal's number (1, 5, 6, or 15 where a
 * is above b or b is not below 2^n), and all four are left as they were. Every
 * sum fits 41 bits.
 */
uint8_t panstrait_report(size_t n, int32_t offset,
                         const int32_t *records, size_t records_len,
                         size_t a, size_t b,
                         size_t *count, int32_t *least, int32_t *greatest,
                         int64_t *sum);

/*
 * Run: 0, and behind value the value of an image at X, behind words the number
 * of words read for it, one in each cell; else the refusal's number (7, 11,
 * 12, 13 or 14), and both are left as they were.
 */
uint8_t panstrait_run(const uint8_t *image, size_t image_len, size_t x,
                      int32_t *value, size_t *words);

/*
 * Pair run, for tables of two variables, X and Y of m bits each: 0, and behind
 * value and words what Run gives at 2^m * X + Y, which is the entry in row X,
 * column Y of the image's table; else the refusal's number, and both are left
 * as they were: 16 where m is not 1 to 6, then 11, 12, 13 or 14 as by Run, 13
 * also, at the image's first command, where its n is not 2 * m, then 17 where
 * X or Y is not below 2^m.
 */
uint8_t panstrait_pair_run(size_t m, const uint8_t *image, size_t image_len,
                           size_t x, size_t y,
                           int32_t *value, size_t *words);

/*
 * Expand: 0, and the table buffer holds the value of an image at every X; else
 * the refusal's number (2, 11, 12, 13 or 14), and the buffer is left as it was.
 */
uint8_t panstrait_expand(const uint8_t *image, size_t image_len,
                         int32_t *table, size_t table_len);

/*
 * Plan: 0, and of the grouping that costs least within the address limit sizes
 * holds the groups from the top down, cells seven numbers a cell (group,
 * incoming class count, outgoing class count, weight width, memory bits, and of
 * the classes at the cut where the cell ends the one that most blocks of that
 * cut have, the smallest number on a tie, and how many blocks have it), both 0
 * past the last cell, count the number of cells and bits the sum of their bits;
 * else the refusal's number (1, 2, 3, 8 or 9), and all four are left as they
 * were.
 */
uint8_t panstrait_plan(size_t n, const int32_t *table, size_t table_len,
                       size_t limit,
                       size_t sizes[12], size_t cells[84],
                       size_t *count, size_t *bits);

/*
 * Reach, for a limit that Plan answers with 9: 0, and cuts holds the cuts that
 * some list of cells within the address limit arrives at from cut 0, cut 0
 * first and rising, 0 past the last one, count how many there are, and least
 * the least limit that some grouping fits; else the refusal's number (1, 2, 3
 * or 8, as by Plan, never 9), and all three are left as they were. Where Plan
 * answers a grouping they are given too, and cuts holds every cut.
 */
uint8_t panstrait_reach(size_t n, const int32_t *table, size_t table_len,
                        size_t limit,
                        size_t cuts[13], size_t *count, size_t *least);

/*
 * Sum, of n weights, weight j belonging to bit x(j): 0, and the table buffer
 * holds at every X the sum of the weights whose bits are 1; else the refusal's
 * number, and the buffer is left as it was: 1 for n, 2 where there are not n
 * weights, 3 for a weight out of the values' range, 18 where some sum is out of
 * it, and last 2 where the buffer has not 2^n numbers. The table's node count is
 * 1 plus the number of weights that are not 0.
 */
uint8_t panstrait_sum(size_t n, const int32_t *weights, size_t weights_len,
                      int32_t *table, size_t table_len);

/*
 * Remainder, likewise: 0, and the table buffer holds the sums' remainders by
 * 2^q, which are 0 to 2^q - 1, also of sums that are negative or out of the
 * values' range; else the refusal's number (1, 2, 3, then 19 where q is not 1
 * to 11, and last 2), and the buffer is left as it was. With the address limit
 * q + 1 Plan answers a grouping of the table.
 */
uint8_t panstrait_remainder(size_t n,
                            const int32_t *weights, size_t weights_len,
                            size_t q, int32_t *table, size_t table_len);

/*
 * Compile: 0, and the first bytes of the image buffer hold the table's image,
 * as many as stand behind length; behind nodes stands Build's node count, and
 * cells, count and bits are Plan's; else the refusal's number (1, 2, 3, 8, 9
 * or 10), and buffer, cells and the four numbers are left as they were.
 */
uint8_t panstrait_compile(size_t n, const int32_t *table, size_t table_len,
                          size_t limit, uint8_t *image, size_t image_len,
                          size_t cells[84],
                          size_t *length, size_t *nodes,
                          size_t *count, size_t *bits);

#ifdef __cplusplus
}
#endif

#endif
