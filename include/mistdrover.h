/*
 * Mistdrover: on which inputs may a recipe's answer rest?
 *
 * A recipe book holds up to 32 procedures. md_find finds for each procedure the parameters on which
 * its answer may rest (a summary), md_check tells whether a given summary keeps the flow rules,
 * md_level turns an accepted summary into a level of a level table, md_run runs a procedure, and
 * md_read tells whether a book is readable and how long its summaries are.
 *
 * What the library promises holds for any bytes, lengths and numbers, as long as:
 *   - every pointer is not null, also where its length is 0, and is aligned for its type;
 *   - at least the given number of elements stands behind it;
 *   - memory that a function writes (work, buffer, answer) overlaps none of its other arguments.
 * No function keeps anything between calls.
 *
 * Every function returns the refusal number, MD_NOT_REFUSED (0) for none, and always fills all eight
 * elements of the answer: its fields from index 0 in the order given below, every other element 0.
 * If several refusals apply the lowest number is returned. On a refusal every element of the answer
 * is 0 and all other lent memory is unchanged.
 *
 * Link with -lmistdrover; `tools/staticlib` writes target/staticlib/libmistdrover.a.
 */
#ifndef MISTDROVER_H
#define MISTDROVER_H

#include <stddef.h>
#include <stdint.h>

#ifdef __cplusplus
extern "C" {
#endif

/* Limits. */
#define MD_MOST_BOOK_BYTES 32768
#define MD_MOST_PROCEDURES 32
#define MD_MOST_PARAMETERS 8
#define MD_MOST_SUMMARY_BYTES 1056 /* 32 results, 64 rows of 16 sets */
#define MD_MOST_LEVELS 16
#define MD_WORK_CELLS 1024
#define MD_MOST_STEPS 1000000

/* Refusals. */
#define MD_NOT_REFUSED 0
#define MD_BOOK_LENGTH 1     /* the book's length is 0 or over 32,768 */
#define MD_CONTENTS 2        /* the table of contents breaks a rule */
#define MD_BODY 3            /* a body breaks a rule, depth included */
#define MD_LOOPS 4           /* more than 64 loops */
#define MD_LEVEL_TABLE 5     /* the level table is not valid */
#define MD_NO_PROCEDURE 6    /* the book has no such procedure */
#define MD_INPUTS 7          /* the number of inputs or levels is not the procedure's number of
                                parameters, or a level is not below the table's n */
#define MD_SUMMARY_LENGTH 8  /* md_find: the buffer is shorter than the size;
                                others: the summary's length is not the size */
#define MD_RULES 9           /* the summary does not satisfy the flow rules */
#define MD_WORK_SPACE 10     /* the work space has fewer than 1,024 cells */
#define MD_BUDGET 11         /* the budget is over 1,000,000 */

/* Endings of a run; 0 stands in the answer of a refused one. */
#define MD_FINISHED 1
#define MD_OUT_OF_STEPS 2
#define MD_TOO_DEEP 3

/*
 * Reads a book.
 *   book, book_len   the book's bytes
 * Answer: [0] size, the number of bytes of each of the book's summaries.
 * Refusals: 1, 2, 3, 4.
 */
uint32_t md_read(const uint8_t *book, size_t book_len, uint64_t answer[8]);

/*
 * Runs a procedure.
 *   book, book_len       the book's bytes
 *   procedure            its number, from 0; any number may be given
 *   inputs, inputs_len   one 32-bit number for each of its parameters
 *   budget               the most steps to spend, 0 to 1,000,000; any number may be given
 *   work, work_len       the work space, at least 1,024 cells, holding anything. After a run that is
 *                        not refused the first 1,024 cells are 0 and the others unchanged
 * Answer: [0] ending (MD_FINISHED, MD_OUT_OF_STEPS or MD_TOO_DEEP), [1] value (0 unless finished),
 *         [2] steps spent.
 * Stack: at most 284 KiB, with forms nested to depth 24 in each of 64 calls that are open at once,
 *         64 KiB of it room that a book over 8,192 bytes takes; 222 KiB for the smallest books.
 *         Measured on every kind of nesting, not proved. The other functions use 9 KiB.
 * Refusals: 1, 2, 3, 4, 6, 7, 10, 11.
 */
uint32_t md_run(const uint8_t *book, size_t book_len, uint64_t procedure,
                const uint32_t *inputs, size_t inputs_len, uint64_t budget,
                uint32_t *work, size_t work_len, uint64_t answer[8]);

/*
 * Checks a summary: not refused exactly when it satisfies the flow rules.
 *   book, book_len         the book's bytes
 *   summary, summary_len   a set for each procedure, its result, then for each loop in the order of
 *                          the book a set for each variable of its procedure; a set is one byte,
 *                          bit i for parameter i
 * Answer: no field; all eight elements are 0.
 * Refusals: 1, 2, 3, 4, 8, 9.
 */
uint32_t md_check(const uint8_t *book, size_t book_len,
                  const uint8_t *summary, size_t summary_len, uint64_t answer[8]);

/*
 * Finds the least summary that satisfies the flow rules.
 *   book, book_len       the book's bytes
 *   buffer, buffer_len   where the summary goes; MD_MOST_SUMMARY_BYTES always suffice. Exactly the
 *                        size is written, and nothing beyond
 * Answer: [0] size, [1] rounds, the last of which added nothing.
 * Refusals: 1, 2, 3, 4, 8.
 */
uint32_t md_find(const uint8_t *book, size_t book_len,
                 uint8_t *buffer, size_t buffer_len, uint64_t answer[8]);

/*
 * Reports the level of a procedure: the table's bottom joined with the levels of the parameters in
 * the procedure's result set. Two finished runs of the procedure whose inputs are equal wherever the
 * level is at or below the reported level give equal values.
 *   book, book_len         the book's bytes
 *   table, table_len       n, 1 to 16, then n rows of n bytes, the join of each pair of levels
 *   procedure              its number, from 0; any number may be given
 *   levels, levels_len     the level of each of its parameters, below n
 *   summary, summary_len   a summary as for md_check, found or otherwise
 * Answer: [0] level.
 * Refusals: 1, 2, 3, 4, 5, 6, 7, 8, 9.
 */
uint32_t md_level(const uint8_t *book, size_t book_len, const uint8_t *table, size_t table_len,
                  uint64_t procedure, const uint8_t *levels, size_t levels_len,
                  const uint8_t *summary, size_t summary_len, uint64_t answer[8]);

#ifdef __cplusplus
}
#endif

#endif
