/* Lumchaki traces lots of flour through vessels: whose flour lies in which vessel, and since when.
 *
 * A book is a head, which the caller hands along by value, and a table, which the caller lends to
 * each call. Nothing is allocated and nothing is kept between calls, so calls on different books may
 * run at the same time. Every call returns on every input. A call that is refused says so by its
 * number and writes nothing; it hands the head back as it was, and all else in its answer is 0. Two
 * calls have no head to hand back: a refused opening, and a run that its sheet or a table below 4
 * numbers refuses, give a head of zeros. A run that stops at a movement is not refused: it keeps the
 * movements before its stop, and head and table are those after the last accepted one.
 *
 * A pointer is followed by the count of elements that it lends. With the count 0 it may be null.
 * Alignment: a pointer to uint32_t (table, report, numbers) is a multiple of 4; a pointer to uint8_t
 * (sheet, names, out) may be any. What is lent holds values, also where it is only written: clear
 * fresh memory first. What is lent is one object, of at most PTRDIFF_MAX bytes. What is lent for
 * writing may not overlap anything else that is lent to the call. Until the call returns, nobody
 * else reads what is lent for writing, and nobody else writes to what is lent.
 *
 * Link with crates/lumchaki/out/liblumchaki.a. A transfer, lift, tip or run needs less than 192 KiB of
 * stack. */
#ifndef LUMCHAKI_H
#define LUMCHAKI_H

#include <stddef.h>
#include <stdint.h>

#ifdef __cplusplus
extern "C" {
#endif

enum {
    LUMCHAKI_VESSELS = 64,        /* the most vessels of a book */
    LUMCHAKI_SCALE = 64,          /* the holder number of the scale */
    LUMCHAKI_PLACES = 4096,       /* a table never counts more places than this */
    LUMCHAKI_MOVEMENTS = 4096,    /* the most movements of a sheet */
    LUMCHAKI_SHEET_HEADER = 24,   /* the bytes of a sheet before its names */
    LUMCHAKI_NAME_BYTES = 8,      /* the bytes of a name in a sheet */
    LUMCHAKI_MOVEMENT_BYTES = 12, /* the bytes of a movement in a sheet */
    LUMCHAKI_MOVEMENT_NUMBERS = 5 /* the numbers that a movement is written from */
};

/* The rule of a vessel: which of its pieces go first. A stirred one gives from all of them at once; that
 * is for lumchaki_set_rule alone: openings and sheets have no rule above 3. */
enum {
    LUMCHAKI_FIRST_RECEIVED = 0, /* earliest received first */
    LUMCHAKI_LAST_RECEIVED = 1,  /* latest received first */
    LUMCHAKI_FIRST_BORN = 2,     /* smallest birth minute, on a tie the earlier received */
    LUMCHAKI_LAST_BORN = 3,      /* largest birth minute, on a tie the later received */
    LUMCHAKI_STIRRED = 4         /* each piece gives its share */
};

/* The number of an answer: 0, or why the call was refused. Beside each stands the word of the paper. */
enum {
    LUMCHAKI_ACCEPTED = 0,
    LUMCHAKI_TABLE_SHORT = 1,   /* "no tray": the table has fewer than 4 numbers */
    LUMCHAKI_RULE_UNKNOWN = 2,  /* "rule unknown": the rule is above 3; a vessel's own, above 4 */
    LUMCHAKI_VESSEL_COUNT = 3,  /* "vessel count": the count of vessels is not 1 to 64 */
    LUMCHAKI_BOOK_OFF = 4,      /* "book off": head and table are no book that adds up */
    LUMCHAKI_NO_VESSEL = 5,     /* "no vessel": a vessel or origin is not below the count */
    LUMCHAKI_SAME_VESSEL = 6,   /* "same tub": source and destination are the same */
    LUMCHAKI_NO_WEIGHT = 7,     /* "empty scoop": the weight is 0 */
    LUMCHAKI_CLOCK_BACK = 8,    /* "clock back": the minute is before the last accepted one */
    LUMCHAKI_OVERFULL = 9,      /* "overfull": the destination's balance would pass 4,294,967,295 */
    LUMCHAKI_TALLY_FULL = 10,   /* "tally full": 4,294,967,295 transfers and lifts were accepted */
    LUMCHAKI_TABLE_FULL = 11,   /* "tray full": the pieces afterwards would exceed the places */
    LUMCHAKI_SPAN_BACK = 12,    /* "span back": the span ends before it starts */
    LUMCHAKI_REPORT_SHORT = 13, /* "short form": the room for the report is too small */
    LUMCHAKI_NO_SHEET = 14,     /* "no sheet": fewer than 24 bytes, or another mark */
    LUMCHAKI_MOVEMENTS_OFF = 15, /* "movements": the count of movements is above 4,096 */
    LUMCHAKI_LAYOUT = 16,       /* "layout": an offset or length is wrong */
    LUMCHAKI_NAME = 17,         /* "name": a name is ill-formed or used twice */
    LUMCHAKI_AGE_OVER = 18,     /* "filler": an age that is to be written is above 65,535 */
    LUMCHAKI_OUTPUT_SHORT = 19, /* "short paper": the room for the sheet is too small */
    LUMCHAKI_PAST_END = 20,     /* "past the end": the movement asked for is not on the sheet */
    LUMCHAKI_BEFORE_TIME = 21,  /* "milled before time": the age is above the minute */
    LUMCHAKI_SCALE_LOADED = 22, /* "scale loaded": a lift, while there is weight on the scale */
    LUMCHAKI_SCALE_BARE = 23    /* "scale bare": a tip, while there is no weight on the scale */
};

/* The head of a book. A fresh one comes from lumchaki_open. `rule` stays as the book was opened and picks
 * nothing: what leaves a vessel is picked by the vessel's own rule, which lumchaki_set_rule sets. */
typedef struct {
    uint32_t rule;     /* the rule that each vessel got at the opening, 0 to 3 */
    uint32_t vessels;  /* 1 to 64 */
    uint32_t pieces;   /* so many pieces lie in the table */
    uint32_t last;     /* the minute of the last accepted transfer, lift or tip */
    uint32_t accepted; /* how many transfers and lifts were accepted */
    uint32_t balances[LUMCHAKI_VESSELS]; /* grams in each vessel, 0 from `vessels` on */
    uint32_t scale;    /* grams on the scale */
    uint32_t rules[LUMCHAKI_VESSELS]; /* the rule of each vessel, 0 to 4; 0 from `vessels` on */
} lumchaki_head;

/* A piece is four numbers of the table: holder, origin, birth minute, weight in grams. The holder is a
 * vessel, or LUMCHAKI_SCALE for a piece on the scale; the origin is a vessel. Piece i starts at number
 * 4 * i; the pieces lie in order of receipt. A table has a place for every four numbers, but never more
 * than 4,096. Numbers behind the last piece are never written. Under rules 0 to 3 a transfer or lift adds
 * one piece at most; from a stirred vessel it may split all of them, so that there can be more pieces
 * than `accepted`. */

typedef struct {
    uint32_t number;
    lumchaki_head head; /* the fresh head; zeros on a refusal */
} lumchaki_opened;

typedef struct {
    uint32_t number;
    lumchaki_head head; /* the next head; the one given on a refusal */
    uint32_t whole;     /* how many pieces moved whole */
    uint32_t split;     /* how many pieces were split: 0 or 1, but for a stirred source */
    uint32_t born;      /* the weight that the source lacked, born there */
} lumchaki_transferred;

typedef struct {
    uint32_t number;
    lumchaki_head head; /* the next head; the one given on a refusal */
} lumchaki_tipped;

typedef struct {
    uint32_t number;
    lumchaki_head head; /* the next head; the one given on a refusal */
} lumchaki_rule_set;

typedef struct {
    uint32_t number;
    lumchaki_head head; /* the head as given */
} lumchaki_reported;

typedef struct {
    uint32_t number;
    uint32_t rule;
    uint32_t vessels;
    uint32_t movements;
} lumchaki_reading;

typedef struct {
    uint32_t number;
    uint32_t source;
    uint32_t destination;
    uint32_t minute;
    uint32_t weight;
    uint32_t age; /* what is born was milled so many minutes before, at most 65,535 */
} lumchaki_movement_read;

typedef struct {
    uint32_t number;    /* 0, or the refusal of the sheet, the table or the movement at `index` */
    uint32_t index;     /* where the run stopped; the count of movements if all passed */
    uint32_t even;      /* accepted movements without split or birth */
    lumchaki_head head; /* after the last accepted movement; zeros if sheet or table was refused */
} lumchaki_ran;

/* Opens a book and gives every vessel its rule. Checks 2, 3. */
lumchaki_opened lumchaki_open(uint32_t rule, uint32_t vessels);

/* Sets the rule of a vessel, 0 to 4, by which all later transfers and lifts pick from it. It may be set
 * at any moment, also while the scale is loaded, which has no rule: a tip takes what lies there in its
 * order. An accepted setting changes this one number of the head. It has no minute and counts as no
 * transfer, and the table is only read. Checks 1, 4, 5, 2. */
lumchaki_rule_set lumchaki_set_rule(lumchaki_head head, const uint32_t *table, size_t table_len,
                                    uint32_t vessel, uint32_t rule);

/* Transfers weight from source to destination at a minute. Pieces of the source are picked by its rule
 * until the weight is reached; what the source lacks is born there. What is born was milled `age`
 * minutes before: its birth minute is minute - age. Checks 1, 4, 5 to 8, 21, 9 to 11.
 *
 * A stirred source (rule 4) that holds more than the weight gives from everything in it. Its pieces are
 * taken in order of receipt. With T what the source holds, and C what its pieces weigh up to one of them
 * and with it, that piece gives weight * C / T, rounded down, less what the pieces before it gave: its
 * share to within less than a gram, and all together give the weight. A piece that gives 0 stays as it
 * is, one that gives all moves whole, and any other is split: the rest of it stays in its place. What is
 * given joins the end, whole pieces and parts alike, in order of receipt. 11 comes where there are more
 * splits than free places. A stirred source that holds no more than the weight gives all, in that
 * order, and the rest is born. */
lumchaki_transferred lumchaki_transfer(lumchaki_head head, uint32_t *table, size_t table_len,
                                       uint32_t source, uint32_t destination, uint32_t minute,
                                       uint32_t weight, uint16_t age);

/* A transfer can be divided: a lift takes the weight onto the scale, a tip empties the scale into a
 * vessel. Both in succession leave what the transfer leaves. Until the tip, what is on the scale is in
 * no vessel: no report includes it, no transfer moves it, and no vessel keeps room for it. Another lift
 * is refused with 22. Transfers and reports go on: a transfer leaves what a lift onto a second, empty
 * scale and its tip would leave. No call takes the scale's number for a vessel: that is 5. */

/* Lifts weight from source onto the scale at a minute, picked and born as in a transfer, from a stirred
 * source too. It counts as a transfer. Checks 1, 4, 22, 5, 7, 8, 21, 10, 11. */
lumchaki_transferred lumchaki_lift(lumchaki_head head, uint32_t *table, size_t table_len,
                                   uint32_t source, uint32_t minute, uint32_t weight, uint16_t age);

/* Tips all that is on the scale into destination at a minute: its pieces move to the end of the table,
 * in the order they lie, behind all that destination received meanwhile. The destination may be where
 * they were lifted from. It does not count as a transfer. Checks 1, 4, 23, 5, 8, 9. */
lumchaki_tipped lumchaki_tip(lumchaki_head head, uint32_t *table, size_t table_len,
                             uint32_t destination, uint32_t minute);

/* Writes `vessels` numbers: the weight by origin in a vessel. Checks 1, 4, 5, 13. */
lumchaki_reported lumchaki_held(lumchaki_head head, const uint32_t *table, size_t table_len,
                                uint32_t vessel, uint32_t *report, size_t report_len);

/* Writes `vessels` numbers: the weight in each vessel that was born at an origin from one minute to
 * another, both included. Checks 1, 4, 5, 12, 13. */
lumchaki_reported lumchaki_spread(lumchaki_head head, const uint32_t *table, size_t table_len,
                                  uint32_t origin, uint32_t from, uint32_t to, uint32_t *report,
                                  size_t report_len);

/* Writes `vessels` rows of `vessels` numbers: row v is the held report of vessel v. Checks 1, 4, 13. */
lumchaki_reported lumchaki_whole(lumchaki_head head, const uint32_t *table, size_t table_len,
                                 uint32_t *report, size_t report_len);

/* The same numbers and the same refusals in another order of work: lumchaki_whole goes over the pieces
 * once; this one makes each row by the held report of its vessel, and is slower. */
lumchaki_reported lumchaki_whole_by_rows(lumchaki_head head, const uint32_t *table,
                                         size_t table_len, uint32_t *report, size_t report_len);

/* A sheet is bytes, its numbers little-endian:
 *    0  the letters PROV
 *    4  rule (2 bytes)
 *    6  V, the count of vessels (2)
 *    8  M, the count of movements, 0 to 4,096 (4)
 *   12  24, where the names start (4)
 *   16  24 + 8 V, where the movements start (4)
 *   20  24 + 8 V + 12 M, the length (4)
 *   24  V names of 8 bytes: 1 to 8 bytes of 21 to 7E hexadecimal, then zeros
 *  ...  M movements of 12 bytes: source (1), destination (1), age (2), minute (4), weight (4) */

/* Reads a sheet and checks all of it: 14, 2, 3, 15, 16, 17, then 5 of each movement. Any age can be
 * read; one above its minute stops the run. */
lumchaki_reading lumchaki_read(const uint8_t *sheet, size_t sheet_len);

/* The movement at an index from 0. Checks as lumchaki_read, then 20: a sheet of no movements gives 20
 * for every index. */
lumchaki_movement_read lumchaki_movement(const uint8_t *sheet, size_t sheet_len, uint32_t index);

/* The length of a vessel's name, which starts at byte 24 + 8 * vessel of the sheet; 0 on a refusal,
 * whose number lumchaki_name_number gives. Checks as lumchaki_read, then 5. */
size_t lumchaki_name(const uint8_t *sheet, size_t sheet_len, uint32_t vessel);
uint32_t lumchaki_name_number(const uint8_t *sheet, size_t sheet_len, uint32_t vessel);

/* Writes the sheet of 8 bytes for each name and 5 numbers for each movement: source, destination,
 * minute, weight, age. Without numbers it is a sheet of no movements, 24 + 8 * vessels bytes. Bytes of
 * `out` behind the sheet remain. Gives the number; checks 2, 3, 16, 15, 17, then 18 and 5 of each
 * movement, 19. */
uint32_t lumchaki_write(uint32_t rule, uint32_t vessels, const uint8_t *names, size_t names_len,
                        const uint32_t *numbers, size_t numbers_len, uint8_t *out, size_t out_len);

/* Runs a sheet on a table: checks as lumchaki_read, then 1, opens a book and transfers until a
 * movement is refused, with 6 to 8, 21, 9 or 11. A run that stops so keeps the movements before its
 * stop. Without movements the head is that of lumchaki_open and the table stays as it was. A sheet has
 * one rule, which every vessel keeps, and no lifts and tips: the scale stays bare. */
lumchaki_ran lumchaki_run(const uint8_t *sheet, size_t sheet_len, uint32_t *table, size_t table_len);

#ifdef __cplusplus
}
#endif

#endif
