/*
 * A board in a C program: gateway [auction] N WRITER READER VALUE
 *
 * Opens a board of N members, or with `auction` an auction board, which has its own opening and begin and all else in common; member
 * WRITER writes VALUE to its own slot, member READER, who may be WRITER, reads that slot; prints what the read returned. An operation that
 * clashes with another aborts and may be run again. Any refusal is printed with its number (docs/NUMBERS.md), with status 1.
 */
#include <concur.h>
#include <stdio.h>
#include <stdlib.h>
#include <string.h>

enum { READ = 1, WRITE = 2 };
enum { IDLE = 0, ABORTED = 5, HALTED = 6 };
enum { VALUE_WORDS = 8, RETURNED_WORDS = 1 + VALUE_WORDS, MOST_WORDS = 9781, TRIES = 3 };

typedef uint32_t opening(uint32_t *table, size_t words, uint32_t n);
typedef uint32_t beginning(uint32_t *table, size_t words, uint32_t member, uint32_t slot, uint32_t type, const uint32_t *value,
                           size_t value_words);

static uint32_t table[MOST_WORDS];
static uint32_t n;
static size_t words;
static opening *open_board = concur_board_open;
static beginning *begin = concur_board_begin;

/* A member's phase, which is the first word of its block. */
static uint32_t phase_of(uint32_t member)
{
    return table[1 + (size_t)(member - 1) * (45 + 2 * n + 3 * n * n)];
}

static void must(const char *call, uint32_t number)
{
    if (number == 0)
        return;
    fprintf(stderr, "%s refused: %lu\n", call, (unsigned long)number);
    exit(1);
}

/* One operation, from its begin to its outcome: 1 if it was accepted, 0 if it was aborted. */
static int operate(uint32_t member, uint32_t slot, uint32_t type, const uint32_t *value, uint32_t *returned)
{
    int aborted = 0;
    must("begin", begin(table, words, member, slot, type, value, VALUE_WORDS));
    while (phase_of(member) != IDLE) {
        must("deliver", concur_board_deliver(table, words, member, returned, RETURNED_WORDS));
        if (phase_of(member) == ABORTED)
            aborted = 1;
        if (phase_of(member) == HALTED) {
            fprintf(stderr, "member %lu halted: its host is not honest\n", (unsigned long)member);
            exit(1);
        }
    }
    return !aborted;
}

/* The same until it is accepted. Alone on the board, as here, it is so at once. */
static void operate_until_accepted(uint32_t member, uint32_t slot, uint32_t type, const uint32_t *value, uint32_t *returned)
{
    for (int tried = 0; tried < TRIES; tried++)
        if (operate(member, slot, type, value, returned))
            return;
    fprintf(stderr, "member %lu was aborted %d times\n", (unsigned long)member, TRIES);
    exit(1);
}

int main(int count, char **given)
{
    if (count > 1 && strcmp(given[1], "auction") == 0) {
        open_board = concur_auction_open;
        begin = concur_auction_begin;
        count--;
        given++;
    }
    if (count != 5) {
        fprintf(stderr, "usage: gateway [auction] N WRITER READER VALUE\n");
        return 2;
    }
    n = (uint32_t)strtoul(given[1], NULL, 10);
    uint32_t writer = (uint32_t)strtoul(given[2], NULL, 10);
    uint32_t reader = (uint32_t)strtoul(given[3], NULL, 10);
    uint32_t value[VALUE_WORDS] = { 0 };
    uint32_t returned[RETURNED_WORDS];
    value[VALUE_WORDS - 1] = (uint32_t)strtoul(given[4], NULL, 10);

    words = concur_board_words(n);
    must("open", open_board(table, words, n));
    operate_until_accepted(writer, writer, WRITE, value, returned);
    operate_until_accepted(reader, writer, READ, value, returned);
    printf("member %lu read slot %lu: %lu\n", (unsigned long)reader, (unsigned long)writer, (unsigned long)returned[VALUE_WORDS]);
    return 0;
}
