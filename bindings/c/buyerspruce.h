/*
 * Buyerspruce: plans print runs. Six calls for C and C++ over numbers and lent memory, in libbuyerspruce.a (Linux on x86-64 of level
 * x86-64-v2: with SSE4.2 and POPCNT).
 *
 * Link with:  cc program.c libbuyerspruce.a
 *
 * Words
 *   n          the number of jobs, 0 to 256. A call with any other n is refused, not undefined.
 *   set        four 64-bit words: job j is bit j % 64 of word j / 64.
 *   table      4 * n words: row r is the set of the jobs that fit job r, at words 4 * r to 4 * r + 3. No job fits itself, and if
 *              r fits c then c fits r.
 *   holds      a set: held jobs join no run.
 *   pins       a set: jobs that must be in the run. They fit each other and none is held. Lend four zero words if there are none.
 *   clique     a set in which every two different jobs fit.
 *   classes    256 numbers: the class of each job, from 0 on, or BUYERSPRUCE_NO_CLASS. No two jobs of a class fit.
 *   night file the bytes of document 01, version 1; at most BUYERSPRUCE_FILE_BYTES.
 *
 * What a caller must see to (nothing else: every value in the memory, and every length, is answered)
 *   - Each buffer is a pointer and the number of ELEMENTS behind it (not bytes): uint64_t words, uint16_t numbers for classes, or
 *     uint8_t bytes for a file. The pointer is not null, is aligned for its element, and is good for that many elements: readable for
 *     a const pointer, readable and writable for the others. A number of 0 wants such a pointer too (any object of the type will do);
 *     nothing is then read or written through it.
 *   - A buffer that is not const overlaps no other buffer of the same call. Const buffers may overlap each other.
 *   - No other thread writes to a buffer during the call, nor reads one that is not const.
 *   - The thread has stack enough: see BUYERSPRUCE_STACK_BYTES.
 * A call keeps no pointer after it returns, allocates nothing, and calls nothing but memset and memcpy. The library has no variables of its own:
 * calls share nothing, and may run on several threads at once. Every call returns; with a large table and budget Search can take long.
 *
 * The reply
 *   Every call answers into its last buffer, `reply`, of at least BUYERSPRUCE_REPLY_WORDS words. Words past the first four are left
 *   alone. reply[0] is the kind, and the call also returns it:
 *
 *     kind                        reply[1]        reply[2]  reply[3]   from
 *     0    BUYERSPRUCE_REFUSED    refusal number  its values           all but prefer
 *     1    BUYERSPRUCE_BEST       size            visits    0          search
 *     2    BUYERSPRUCE_UNFINISHED size            visits    0          search
 *     3    BUYERSPRUCE_CLIQUE     size            0         0          check
 *     4    BUYERSPRUCE_PAIR       first job       second    0          check
 *     5    BUYERSPRUCE_PREFERRED  0, 1 or 2       0         0          prefer
 *     6    BUYERSPRUCE_READ       n               0         0          read
 *     7    BUYERSPRUCE_WRITTEN    length          0         0          write
 *     8    BUYERSPRUCE_CLASSES    classes         0         0          colour
 *
 *   With fewer than four reply words nothing at all is done: every buffer, the reply too, is left as it came, and the call returns
 *   255, BUYERSPRUCE_SHORT_REPLY.
 *
 * Refusals
 *   A refusal leaves every buffer but the reply as it came. reply[1] is its number, and the number has none, one or two values, in
 *   reply[2] and reply[3]; 0 stands where there is none.
 *
 *     No.  given exactly when                                    reply[2]  reply[3]
 *     1    n over 256                                            0         0
 *     2    table words not 4 * n (read: not 1024)                0         0
 *     3    hold words not 4                                      0         0
 *     4    result or asked set not 4 words;                      0         0
 *          lent classes not 256 numbers
 *     5    a bit for a job n or above                            row       column
 *     6    a job fits itself                                     row       column
 *     7    bit (r, c) differs from bit (c, r)                    row       column
 *     21   file under 8 bytes                                    0         0
 *     22   mark wrong                                            0         0
 *     23   version not 1                                         0         0
 *     24   an unknown flag bit set                               0         0
 *     25   total length wrong                                    0         0
 *     26   hold list present but empty                           0         0
 *     27   output too short for write                            0         0
 *     40   pin words not 4                                       0         0
 *     41   a pin is held                                         n + 1     job
 *     42   two pins that do not fit                              job       job
 *
 *   Row and column are the first place by row, then column. Row n stands for holds (in check: the asked set), looked at after the
 *   table, and row n + 1 for pins, looked at after holds. 41 comes with the lowest such job, 42 with the lowest first job, then the
 *   lowest second.
 *
 *   Where several apply, the first in the call's own order is given:
 *     search: 1, 2, 3, 4, 40, 5, 6, 7, 41, 42
 *     colour: 1, 2, 3, 4, 40, 5, 6, 7, 41, 42
 *     check:  1, 2, 4, 5, 6, 7
 *     read:   2, 3, 21, 22, 23, 1, 24, 25, 5, 26, 6, 7
 *     write:  1, 2, 3, 5, 6, 7, 27
 *
 * Programs written before there were pins
 *   buyerspruce_search and buyerspruce_colour take pins right after holds, under the names that they had. Lend four zero words there:
 *   every reply, result and list of classes is then the one it was. A program that was compiled with a header without pins would still
 *   link, and go wrong: compile it again.
 */
#ifndef BUYERSPRUCE_H
#define BUYERSPRUCE_H

#include <stddef.h>
#include <stdint.h>

#define BUYERSPRUCE_REFUSED 0
#define BUYERSPRUCE_BEST 1
#define BUYERSPRUCE_UNFINISHED 2
#define BUYERSPRUCE_CLIQUE 3
#define BUYERSPRUCE_PAIR 4
#define BUYERSPRUCE_PREFERRED 5
#define BUYERSPRUCE_READ 6
#define BUYERSPRUCE_WRITTEN 7
#define BUYERSPRUCE_CLASSES 8
#define BUYERSPRUCE_SHORT_REPLY 255

#define BUYERSPRUCE_NEITHER 0
#define BUYERSPRUCE_FIRST 1
#define BUYERSPRUCE_SECOND 2

#define BUYERSPRUCE_NO_CLASS 65535

#define BUYERSPRUCE_MAX_JOBS 256
#define BUYERSPRUCE_SET_WORDS 4
#define BUYERSPRUCE_TABLE_WORDS 1024
#define BUYERSPRUCE_CLASSES_COUNT 256
#define BUYERSPRUCE_REPLY_WORDS 4
#define BUYERSPRUCE_FILE_BYTES 8232

/*
 * Stack that is enough for any call on any input, with room to spare. Measured, not proved: in a thread made with
 * pthread_attr_setstacksize, in steps of 16 KiB, buyerspruce_search needs 176 KiB for 256 jobs that all fit, and 96 KiB for 256 jobs
 * that all fit but one perfect matching (128 pairs). The first is the deepest walk there is: a nested visit has at least one candidate
 * fewer, so at most 257 are open, each with a frame of some 600 bytes in this build. buyerspruce_colour needs less than 32 KiB, the
 * other calls less than 16 KiB. `bindings/c/stack.c` is that measurement of search and colour (its arguments are the stack for each, in
 * bytes); bindings/c/test.sh runs it with this much.
 */
#define BUYERSPRUCE_STACK_BYTES 524288

#ifdef __cplusplus
extern "C" {
#endif

/*
 * The largest clique of unheld jobs that holds every pin, by the walk of document 01; of several the first. At most `budget` visits are
 * made, and any budget will do.
 *
 *   table   4 * n words         holds   4 words         pins    4 words, zero if there are none         result   4 words, written
 *
 * BUYERSPRUCE_BEST: the set is the largest. BUYERSPRUCE_UNFINISHED: the budget ended the walk, and the set is the largest clique seen
 * so far; it holds every pin, but with a budget of 0 it is the empty set. Either way all four words of `result` are written, and the
 * reply has the set's size, pins included, and the number of visits.
 * BUYERSPRUCE_REFUSED: `result` is left alone.
 */
uint64_t buyerspruce_search(size_t n,
                            const uint64_t *table, size_t table_words,
                            const uint64_t *holds, size_t holds_words,
                            const uint64_t *pins, size_t pins_words,
                            uint64_t budget,
                            uint64_t *result, size_t result_words,
                            uint64_t *reply, size_t reply_words);

/*
 * Why no run can be larger: the candidates, which are the unheld jobs that are no pins and fit every pin, in classes of which no two
 * jobs fit. Going up through the candidates, each joins the first class that holds none it fits with, or opens a new one; the classes
 * are numbered from 0 as they are opened. Without pins the candidates are all unheld jobs.
 *
 *   table   4 * n words         holds   4 words         pins    4 words, zero if there are none         classes  256 numbers, written
 *
 * BUYERSPRUCE_CLASSES: the reply has the number of classes. All 256 numbers of `classes` are written: for each candidate its class, and
 * BUYERSPRUCE_NO_CLASS for every other job, a pin too, and for every number from n on. Each class has a job. A run that holds every pin
 * has beside them candidates alone, at most one of each class: so no such run has more jobs than there are pins and classes together.
 * The largest run may have fewer.
 * BUYERSPRUCE_REFUSED: `classes` is left alone.
 */
uint64_t buyerspruce_colour(size_t n,
                            const uint64_t *table, size_t table_words,
                            const uint64_t *holds, size_t holds_words,
                            const uint64_t *pins, size_t pins_words,
                            uint16_t *classes, size_t classes_count,
                            uint64_t *reply, size_t reply_words);

/*
 * Whether a set is a clique of the table's jobs.
 *
 *   table   4 * n words         set     4 words
 *
 * BUYERSPRUCE_CLIQUE: it is, and the reply has its size. BUYERSPRUCE_PAIR: it is not, and the reply has two of its jobs that do not
 * fit: the lowest first job, then the lowest second.
 */
uint64_t buyerspruce_check(size_t n,
                           const uint64_t *table, size_t table_words,
                           const uint64_t *set, size_t set_words,
                           uint64_t *reply, size_t reply_words);

/*
 * Which of two sets to take: the larger; at equal size the earlier, whose lowest job that only one of them has is lower; the first
 * when they are equal.
 *
 *   first   4 words             second  4 words
 *
 * Always BUYERSPRUCE_PREFERRED: reply[1] is BUYERSPRUCE_FIRST or BUYERSPRUCE_SECOND, or BUYERSPRUCE_NEITHER if either is not four
 * words.
 */
uint64_t buyerspruce_prefer(const uint64_t *first, size_t first_words,
                            const uint64_t *second, size_t second_words,
                            uint64_t *reply, size_t reply_words);

/*
 * Reads a night file.
 *
 *   file    any number of bytes         table   1024 words, written         holds   4 words, written
 *
 * BUYERSPRUCE_READ: the reply has n. All 1024 words of `table` are written (zero from word 4 * n on), and all four of `holds` (zero if
 * the file has no hold list). For the other calls the table is then `table` with 4 * n words.
 * BUYERSPRUCE_REFUSED: `table` and `holds` are left alone.
 */
uint64_t buyerspruce_read(const uint8_t *file, size_t file_bytes,
                          uint64_t *table, size_t table_words,
                          uint64_t *holds, size_t holds_words,
                          uint64_t *reply, size_t reply_words);

/*
 * Writes a night file.
 *
 *   table   4 * n words         holds   4 words         out     any number of bytes, written
 *
 * BUYERSPRUCE_WRITTEN: the reply has the file's length; that many bytes of `out` are written and none past them. `out` of
 * BUYERSPRUCE_FILE_BYTES is always long enough. BUYERSPRUCE_REFUSED: `out` is left alone.
 */
uint64_t buyerspruce_write(size_t n,
                           const uint64_t *table, size_t table_words,
                           const uint64_t *holds, size_t holds_words,
                           uint8_t *out, size_t out_bytes,
                           uint64_t *reply, size_t reply_words);

#ifdef __cplusplus
}
#endif

#endif
