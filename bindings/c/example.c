/* The six calls on the ring of five jobs, each fitting the next. */
#include "buyerspruce.h"

#include <inttypes.h>
#include <stdio.h>
#include <string.h>

#define JOBS 5

static void show(const char *call, uint64_t kind, const uint64_t *reply)
{
    printf("%s: %" PRIu64 " with %" PRIu64 " %" PRIu64 " %" PRIu64 "\n", call, kind, reply[1], reply[2], reply[3]);
}

static void fit(uint64_t *table, unsigned a, unsigned b)
{
    table[4 * a + b / 64] |= (uint64_t)1 << (b % 64);
    table[4 * b + a / 64] |= (uint64_t)1 << (a % 64);
}

static void show_jobs(const uint64_t *set)
{
    unsigned j;

    printf("jobs:");
    for (j = 0; j < JOBS; j++)
        if (set[j / 64] >> (j % 64) & 1)
            printf(" %u", j);
    printf("\n");
}

/* why a run can't be larger, for the foreman */
static void show_classes(unsigned pinned, uint64_t k, const uint16_t *classes)
{
    unsigned c, j;

    printf("no run has more than %" PRIu64 " jobs: %sat most one of each class\n", pinned + k, pinned ? "the pins, and " : "");
    for (c = 0; c < k; c++) {
        printf("class %u:", c);
        for (j = 0; j < JOBS; j++)
            if (classes[j] == c)
                printf(" %u", j);
        printf("\n");
    }
    for (j = 0; j < JOBS; j++)
        if (classes[j] == BUYERSPRUCE_NO_CLASS)
            printf("no class: %u\n", j);
}

int main(void)
{
    uint64_t table[4 * JOBS] = {0}, holds[4] = {0}, pins[4] = {0}, best[4], other[4] = {0}, reply[BUYERSPRUCE_REPLY_WORDS];
    uint64_t table_again[BUYERSPRUCE_TABLE_WORDS], holds_again[4];
    uint16_t classes[BUYERSPRUCE_CLASSES_COUNT];
    uint8_t file[BUYERSPRUCE_FILE_BYTES];
    uint64_t kind;
    size_t length, i;
    unsigned j;

    for (j = 0; j < JOBS; j++)
        fit(table, j, (j + 1) % JOBS);

    kind = buyerspruce_search(JOBS, table, 4 * JOBS, holds, 4, pins, 4, 1000000, best, 4, reply, 4);
    show("search", kind, reply);
    show_jobs(best);
    kind = buyerspruce_search(JOBS, table, 4 * JOBS, holds, 4, pins, 4, 2, other, 4, reply, 4);
    show("search, two visits", kind, reply);

    kind = buyerspruce_colour(JOBS, table, 4 * JOBS, holds, 4, pins, 4, classes, BUYERSPRUCE_CLASSES_COUNT, reply, 4);
    show("colour", kind, reply);
    if (kind != BUYERSPRUCE_CLASSES)
        return 1;
    show_classes(0, reply[1], classes);
    for (j = JOBS; j < BUYERSPRUCE_CLASSES_COUNT; j++)
        if (classes[j] != BUYERSPRUCE_NO_CLASS)
            return 1;

    kind = buyerspruce_check(JOBS, table, 4 * JOBS, best, 4, reply, 4);
    show("check", kind, reply);
    kind = buyerspruce_prefer(other, 4, best, 4, reply, 4);
    show("prefer", kind, reply);
    other[0] = 0x15; /* jobs 0, 2 and 4 */
    kind = buyerspruce_check(JOBS, table, 4 * JOBS, other, 4, reply, 4);
    show("check 0 2 4", kind, reply);

    pins[0] = 1 << 2; /* the courier waits for job 2 */
    kind = buyerspruce_search(JOBS, table, 4 * JOBS, holds, 4, pins, 4, 1000000, other, 4, reply, 4);
    show("search, job 2 pinned", kind, reply);
    show_jobs(other);
    kind = buyerspruce_search(JOBS, table, 4 * JOBS, holds, 4, pins, 4, 0, other, 4, reply, 4);
    show("search, job 2 pinned, no visit", kind, reply);
    show_jobs(other);
    kind = buyerspruce_colour(JOBS, table, 4 * JOBS, holds, 4, pins, 4, classes, BUYERSPRUCE_CLASSES_COUNT, reply, 4);
    show("colour, job 2 pinned", kind, reply);
    show_classes(1, reply[1], classes);
    pins[0] |= 1 << 4; /* which does not fit job 2 */
    kind = buyerspruce_search(JOBS, table, 4 * JOBS, holds, 4, pins, 4, 1000000, other, 4, reply, 4);
    show("search, jobs 2 and 4 pinned", kind, reply);
    holds[0] = 1 << 4; /* held and pinned: 41 comes before 42 */
    kind = buyerspruce_search(JOBS, table, 4 * JOBS, holds, 4, pins, 4, 1000000, other, 4, reply, 4);
    show("search, a pin held", kind, reply);
    kind = buyerspruce_search(JOBS, table, 4 * JOBS, holds, 4, pins, 3, 1000000, other, 4, reply, 4);
    show("search, three pin words", kind, reply);
    pins[0] = 0;

    holds[0] = 1;
    kind = buyerspruce_colour(JOBS, table, 4 * JOBS, holds, 4, pins, 4, classes, BUYERSPRUCE_CLASSES_COUNT, reply, 4);
    show("colour, job 0 held", kind, reply);
    show_classes(0, reply[1], classes);
    kind = buyerspruce_colour(JOBS, table, 4 * JOBS, holds, 4, pins, 4, classes, JOBS, reply, 4);
    show("colour, five numbers", kind, reply);

    kind = buyerspruce_write(JOBS, table, 4 * JOBS, holds, 4, file, sizeof file, reply, 4);
    show("write, job 0 held", kind, reply);
    if (kind != BUYERSPRUCE_WRITTEN)
        return 1;
    length = (size_t)reply[1];
    for (i = 0; i < length; i++)
        printf("%02X%c", file[i], i + 1 < length ? ' ' : '\n');

    kind = buyerspruce_read(file, length, table_again, BUYERSPRUCE_TABLE_WORDS, holds_again, 4, reply, 4);
    show("read", kind, reply);
    if (kind != BUYERSPRUCE_READ || memcmp(table, table_again, sizeof table) != 0 || memcmp(holds, holds_again, sizeof holds) != 0)
        return 1;

    table[0] |= 8; /* job 0 says that it fits job 3; job 3 does not */
    kind = buyerspruce_search(JOBS, table, 4 * JOBS, holds, 4, pins, 4, 1000000, best, 4, reply, 4);
    show("search, one way", kind, reply);
    kind = buyerspruce_search(JOBS, table, 4 * JOBS, holds, 4, pins, 4, 1000000, best, 4, reply, 3);
    printf("search, three reply words: %" PRIu64 "\n", kind);
    return 0;
}
