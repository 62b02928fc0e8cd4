/*
 * Search and colour of 256 jobs, each in a thread with the stack that the header asks for, or that the first argument gives in bytes;
 * the second argument, where there is one, is the stack for colour.
 */
#include "buyerspruce.h"

#include <inttypes.h>
#include <pthread.h>
#include <stdio.h>
#include <stdlib.h>
#include <string.h>

#define JOBS 256

static uint64_t table[4 * JOBS], holds[4], pins[4], result[4], reply[4];
static uint16_t classes[JOBS];

static void *search(void *unused)
{
    (void)unused;
    buyerspruce_search(JOBS, table, 4 * JOBS, holds, 4, pins, 4, 1000000, result, 4, reply, 4);
    return NULL;
}

static void *colour(void *unused)
{
    (void)unused;
    buyerspruce_colour(JOBS, table, 4 * JOBS, holds, 4, pins, 4, classes, JOBS, reply, 4);
    return NULL;
}

/* all jobs fit; with `matching`, all but the pairs 0-1, 2-3, .. */
static int run(void *(*call)(void *), uint64_t kind, size_t stack, int matching)
{
    pthread_attr_t attributes;
    pthread_t thread;
    unsigned r, c;

    memset(table, 0, sizeof table);
    for (r = 0; r < JOBS; r++)
        for (c = 0; c < JOBS; c++)
            if (r != c && !(matching && (r ^ 1) == c))
                table[4 * r + c / 64] |= (uint64_t)1 << (c % 64);
    if (pthread_attr_init(&attributes) || pthread_attr_setstacksize(&attributes, stack))
        return 1;
    if (pthread_create(&thread, &attributes, call, NULL) || pthread_join(thread, NULL))
        return 1;
    printf("kind %" PRIu64 " with %" PRIu64 " %" PRIu64 " %" PRIu64 "\n", reply[0], reply[1], reply[2], reply[3]);
    return reply[0] != kind || reply[1] != (matching ? JOBS / 2 : JOBS);
}

int main(int argc, char **argv)
{
    size_t stack = argc > 1 ? (size_t)strtoul(argv[1], NULL, 10) : BUYERSPRUCE_STACK_BYTES;
    size_t colour_stack = argc > 2 ? (size_t)strtoul(argv[2], NULL, 10) : stack;
    int bad = run(search, BUYERSPRUCE_BEST, stack, 0);

    bad |= run(search, BUYERSPRUCE_BEST, stack, 1);
    bad |= run(colour, BUYERSPRUCE_CLASSES, colour_stack, 0);
    return run(colour, BUYERSPRUCE_CLASSES, colour_stack, 1) | bad;
}
