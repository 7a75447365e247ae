/* Keeps a book from C: the six movements of the published table under rule 2, a delivery of older flour,
 * a weighing whose vessel is chosen afterwards, while another baker goes on, and a vessel that gets a rule
 * of its own; the pieces they leave, and whose flour lies in vessel 0. Exits with 1 if anything differs
 * from what was worked out by hand.
 *
 *   gcc -std=c99 -Wall -Wextra -pedantic -Iinclude examples/embed.c \
 *       crates/lumchaki/out/liblumchaki.a -o /tmp/embed && /tmp/embed */
#include "lumchaki.h"

#include <stdio.h>
#include <string.h>

enum { VESSELS = 3, PLACES = 16, MOVEMENTS = 7, PIECES = 7 };

/* Source, destination, minute, weight, age. The last one needs 3 grams more than vessel 1 has; they
 * were milled 7 minutes before, at minute 2. */
static const uint32_t movements[MOVEMENTS][5] = {
    {1, 2, 1, 3, 0}, {2, 0, 3, 5, 0}, {0, 1, 4, 3, 0}, {1, 2, 5, 7, 0},
    {2, 1, 7, 2, 0}, {2, 0, 8, 1, 0}, {1, 0, 9, 5, 7},
};

static const uint32_t expected_pieces[PIECES][4] = {
    {0, 2, 3, 2}, {2, 1, 5, 3}, {0, 1, 2, 3}, {1, 1, 5, 1}, {1, 1, 1, 1}, {1, 1, 1, 1}, {2, 1, 1, 1},
};

static const uint32_t expected_held[VESSELS] = {0, 3, 2};

/* Lifts 3 grams of vessel 0 onto the scale, two whole pieces, and tips them into vessel 1. Meanwhile that
 * vessel receives a gram of vessel 2, which lies before them then. Gives the number of the first of the
 * three that was refused. */
static uint32_t weigh(lumchaki_head *head, uint32_t *table) {
    lumchaki_transferred lifted = lumchaki_lift(*head, table, 4 * PLACES, 0, 9, 3, 0);
    lumchaki_transferred meanwhile;
    lumchaki_tipped tipped;
    if (lifted.number != LUMCHAKI_ACCEPTED) {
        return lifted.number;
    }
    printf("%u g on the scale\n", (unsigned)lifted.head.scale);
    meanwhile = lumchaki_transfer(lifted.head, table, 4 * PLACES, 2, 1, 9, 1, 0);
    if (meanwhile.number != LUMCHAKI_ACCEPTED) {
        return meanwhile.number;
    }
    tipped = lumchaki_tip(meanwhile.head, table, 4 * PLACES, 1, 10);
    *head = tipped.head;
    return tipped.number;
}

/* From now on vessel 1 gives first what it received last. A gram of it goes to vessel 2: of the tipped
 * pieces the last one is split, where rule 2 would give the one before it. Gives the number of the first of
 * the two calls that was refused. */
static uint32_t give_last(lumchaki_head *head, uint32_t *table) {
    lumchaki_rule_set set = lumchaki_set_rule(*head, table, 4 * PLACES, 1, LUMCHAKI_LAST_RECEIVED);
    lumchaki_transferred given;
    if (set.number != LUMCHAKI_ACCEPTED) {
        return set.number;
    }
    given = lumchaki_transfer(set.head, table, 4 * PLACES, 1, 2, 10, 1, 0);
    *head = given.head;
    return given.number;
}

int main(void) {
    uint32_t table[4 * PLACES] = {0};
    uint32_t held[VESSELS] = {0};
    uint32_t i;

    lumchaki_opened opened = lumchaki_open(LUMCHAKI_FIRST_BORN, VESSELS);
    lumchaki_head head = opened.head;
    if (opened.number != LUMCHAKI_ACCEPTED) {
        fprintf(stderr, "opening refused: %u\n", (unsigned)opened.number);
        return 1;
    }
    for (i = 0; i < MOVEMENTS; i++) {
        const uint32_t *m = movements[i];
        lumchaki_transferred done = lumchaki_transfer(head, table, 4 * PLACES, m[0], m[1], m[2], m[3],
                                                      (uint16_t)m[4]);
        if (done.number != LUMCHAKI_ACCEPTED) {
            fprintf(stderr, "movement %u refused: %u\n", (unsigned)i, (unsigned)done.number);
            return 1;
        }
        head = done.head;
    }

    if (weigh(&head, table) != LUMCHAKI_ACCEPTED) {
        fputs("weighing refused\n", stderr);
        return 1;
    }

    if (give_last(&head, table) != LUMCHAKI_ACCEPTED) {
        fputs("giving by another rule refused\n", stderr);
        return 1;
    }

    puts("holder origin birth weight");
    for (i = 0; i < head.pieces; i++) {
        const uint32_t *p = table + 4 * i;
        printf("%6u %6u %5u %6u\n", (unsigned)p[0], (unsigned)p[1], (unsigned)p[2], (unsigned)p[3]);
    }
    if (lumchaki_held(head, table, 4 * PLACES, 0, held, VESSELS).number != LUMCHAKI_ACCEPTED) {
        fputs("report refused\n", stderr);
        return 1;
    }
    for (i = 0; i < VESSELS; i++) {
        printf("vessel 0 holds %u g from vessel %u\n", (unsigned)held[i], (unsigned)i);
    }

    if (head.pieces != PIECES || memcmp(table, expected_pieces, sizeof expected_pieces) != 0 ||
        memcmp(held, expected_held, sizeof expected_held) != 0) {
        fputs("that is not what was worked out\n", stderr);
        return 1;
    }
    /* The clock does not run back, nothing is milled before minute 0, the scale was emptied, no rule is
     * above that of a stirred vessel, which no book is opened by, and a refusal changes nothing. */
    if (lumchaki_transfer(head, table, 4 * PLACES, 2, 0, 9, 1, 0).number != LUMCHAKI_CLOCK_BACK ||
        lumchaki_transfer(head, table, 4 * PLACES, 2, 0, 10, 1, 11).number != LUMCHAKI_BEFORE_TIME ||
        lumchaki_tip(head, table, 4 * PLACES, 0, 10).number != LUMCHAKI_SCALE_BARE ||
        lumchaki_set_rule(head, table, 4 * PLACES, 1, LUMCHAKI_STIRRED + 1).number !=
            LUMCHAKI_RULE_UNKNOWN ||
        lumchaki_open(LUMCHAKI_STIRRED, VESSELS).number != LUMCHAKI_RULE_UNKNOWN ||
        memcmp(table, expected_pieces, sizeof expected_pieces) != 0) {
        fputs("what should be refused was not\n", stderr);
        return 1;
    }
    return 0;
}
