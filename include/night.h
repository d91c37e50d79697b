/*
 * The night card for a firmware: the calls of libports.a, for C11 and C++11.
 *
 * n racks (1 to 8), k lanes (1 to 4), R rounds (1 to 64). Racks, lanes and places count from 0, rounds and cue numbers from 1.
 * The caller lends the tables; their lengths are exact:
 *
 *     cells      24 * R * k * n bytes
 *     logs       2 * R * k * n bytes
 *     decisions  R * k bytes
 *     lists      128 * k * n bytes, the cue lists; all zeros at first
 *
 * Every call is defined for every input, and returns. All that a caller owes: each pointer is valid for the length behind it, and a
 * buffer lent for writing overlaps no other. A number that is not 0 is a refusal, which changes nothing in what was lent:
 *
 *     1   n, k or R outside its range, or a lent length not exact
 *     2   tables or states not sound
 *     3   turn not 4 bytes, last byte not zero, or rack at or above n
 *     4   rack has finished R rounds
 *     5   not an answer step and lane or source is not 255; or an answer step and lane at or above k, or source at or above n
 *     6   answer: that source has no offer in this round at that lane
 *     7   answer: the lane is decided for another source
 *     8   last step: settling would make a log longer than R
 *     9   log query: rack, lane or place not there
 *     10  cue record: rack, lane or code out of range, a 65th cue, or a short record
 *
 * They are tested in this order. The archive needs no more than memcpy, memmove, memset and memcmp of whoever links it.
 */
#ifndef NIGHT_H
#define NIGHT_H

#include <stddef.h>
#include <stdint.h>

#ifdef __cplusplus
extern "C" {
#endif

/* A place in a log, the cue for it, and the cue before it; number 0 is no cue. */
struct night_value {
    uint8_t place;
    uint8_t issuer;
    uint8_t number;
    uint8_t previous_issuer;
    uint8_t previous_number;
};

/* Mark 0 is empty, 1 an offer or a first cell, 2 adopted, 3 committed. */
struct night_cell {
    uint8_t mark;
    struct night_value value;
};

/* One rack's state: its round, step and first lane (255 if none), the cells gathered by rack and, by lane, its held value, result and news. */
struct night_rack {
    uint8_t round;
    uint8_t step;
    uint8_t first;
    struct night_cell first_cells[8];
    struct night_cell second_cells[8];
    struct night_value held[4];
    struct night_cell result[4];
    struct night_value news[4];
};

/* The rack states, of which n are used. */
struct night_racks {
    struct night_rack rack[8];
};

/* What a call that works on the racks hands back: 0 or the refusal's number, and the racks for the next call. */
struct night_reply {
    uint8_t number;
    struct night_racks racks;
};

/* What a log query answers: 0 and the entry's issuer and cue number, or the refusal's number and zeros. */
struct night_entry {
    uint8_t number;
    uint8_t issuer;
    uint8_t cue;
};

/* Which log is handed back (0 the first, 1 the second, 2 an empty part of the first as they do not agree), and its length in bytes. */
struct night_longer {
    uint8_t which;
    size_t length;
};

/* What a query for a cue's code answers: 0 and the code, or the refusal's number and 0. */
struct night_code {
    uint8_t number;
    uint16_t code;
};

#ifdef __cplusplus
static_assert(sizeof(struct night_rack) == 163, "a rack is 163 bytes, with no padding");
#else
_Static_assert(sizeof(struct night_rack) == 163, "a rack is 163 bytes, with no padding");
#endif

/* Fills the three tables afresh and hands back the fresh racks; refused with 1, the racks are zeros. */
struct night_reply night_fresh(size_t n, size_t k, size_t rounds, uint8_t *cells, size_t cells_length, uint8_t *logs, size_t logs_length,
                               uint8_t *decisions, size_t decisions_length);

/* Tests whether tables and racks are sound: 0, or refused with 1 or 2. */
uint8_t night_sound(size_t n, size_t k, size_t rounds, const uint8_t *cells, size_t cells_length, const uint8_t *logs,
                    size_t logs_length, const uint8_t *decisions, size_t decisions_length, struct night_racks racks);

/* Takes one turn record (rack, lane, source, zero), or refuses it with 1 to 8; refused, the racks come back as they went in. */
struct night_reply night_turn(size_t n, size_t k, size_t rounds, uint8_t *cells, size_t cells_length, uint8_t *logs, size_t logs_length,
                              uint8_t *decisions, size_t decisions_length, struct night_racks racks, const uint8_t *turn,
                              size_t turn_length);

/* The entry at a place of a rack's log of a lane; refused with 1, 2 (the log table alone is judged) or 9. */
struct night_entry night_log_entry(size_t n, size_t k, size_t rounds, const uint8_t *logs, size_t logs_length, size_t rack, size_t lane,
                                   size_t place);

/* 1 if both lengths are even and one log is a beginning of the other, else 0. */
uint8_t night_agree(const uint8_t *a, size_t a_length, const uint8_t *b, size_t b_length);

/* Which of two logs is the longer, the first if equal, and its length; 2 and length 0 if they do not agree. */
struct night_longer night_longer(const uint8_t *a, size_t a_length, const uint8_t *b, size_t b_length);

/* Puts a cue record (rack, lane, code with the low byte first) at the end of its list: 0, or refused with 1 or 10. */
uint8_t night_add_cue(size_t n, size_t k, uint8_t *lists, size_t lists_length, const uint8_t *cue, size_t cue_length);

/* The code of a cue number in a rack's list of a lane, 0 past the list; refused with 1, or with 9 for a rack or lane not there. */
struct night_code night_code_of(size_t n, size_t k, const uint8_t *lists, size_t lists_length, size_t rack, size_t lane, size_t cue);

#ifdef __cplusplus
}
#endif

#endif
