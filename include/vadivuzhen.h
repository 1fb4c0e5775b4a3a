/* Vadivuzhen: plans kidney exchanges among patient-donor pairs.
 *
 * From a pool sheet to a printed plan: vadivuzhen_read, vadivuzhen_build, vadivuzhen_plan, vadivuzhen_print_plan; examples/plan.c goes that way.
 * vadivuzhen_write makes a sheet from a pool, vadivuzhen_join one sheet of two, vadivuzhen_print_refusal prints what was refused. vadivuzhen_start,
 * vadivuzhen_register and vadivuzhen_withdraw keep a live pool from match to match, with its tables always ready for vadivuzhen_plan and the number of
 * suitable donors stored for each patient.
 *
 * Every function is proved, for all bytes, tables and lengths, to answer a result or one of the refusals below, to do nothing undefined and to return.
 * No call has to be prepared by a check: each checks its own input. What is proved of each call stands with it. The proofs are of the source; the
 * compiler's back end, and this header, are not covered by them.
 *
 * What the caller owes:
 *   - A table or buffer is a pointer and then its length in elements. The pointer is aligned and has that many elements behind it, all of them
 *     initialized, those to be filled too. It is not null, also where the length is 0.
 *   - The count of a live pool is lent as a pointer alone. It is aligned, not null, the number behind it is initialized, and it overlaps nothing else that
 *     is lent to that call.
 *   - A table or buffer that a call may fill overlaps, over its whole length, no other that is lent to that call.
 *
 * Memory: a refusal leaves all lent memory as it was. A call that finishes fills the stated number of elements from each table's start and changes
 * nothing past them. So tables may be longer than they need to be. The library allocates nothing and keeps nothing from call to call; calls on
 * separate memory may run at the same time.
 *
 * Answers are structs of numbers. `refusal` is 0 where the call finished, and else the refusal's number; a field that the answer does not use is 0.
 *
 * Pairs are numbered from 0. N is the number of pairs, 200 at most.
 *
 * docs/FORMAT.md has the sheet's bytes, what suits and what it weighs, the refusals with their places, and the printed plan.
 *
 * The archive is for x86-64 Linux, where size_t has 64 bits; of the C library it needs memcpy, memmove and memset. */
#ifndef VADIVUZHEN_H
#define VADIVUZHEN_H

#include <stddef.h>
#include <stdint.h>

#ifdef __cplusplus
static_assert(sizeof(size_t) == 8, "the library is built for a size_t of 64 bits");
extern "C" {
#else
_Static_assert(sizeof(size_t) == 8, "the library is built for a size_t of 64 bits");
#endif

/* an answer that is not looked at is a mistake: a compiler that can, warns of it */
#if defined(__GNUC__) || defined(__clang__)
#define VADIVUZHEN_ANSWERS __attribute__((warn_unused_result))
#else
#define VADIVUZHEN_ANSWERS
#endif

/* ---- Refusals, by whom they are caused ---- */

enum vadivuzhen_refusal {
    VADIVUZHEN_FINISHED = 0, /* none: the call finished */
    /* the sender of the sheet */
    VADIVUZHEN_CUT_OFF = 1,         /* a field's three-byte start or its value is cut off or missing */
    VADIVUZHEN_WRONG_FIELD = 2,     /* a tag or a length is not the one due */
    VADIVUZHEN_WRONG_VERSION = 3,   /* the version is neither 1 nor 2 */
    VADIVUZHEN_TOO_MANY_PAIRS = 4,  /* N is above 200 */
    VADIVUZHEN_LEFT_OVER = 5,       /* bytes are left over after the last field */
    VADIVUZHEN_WRONG_POINTS = 14,   /* the base is 0, or base, largest mismatch step and larger age step together exceed 65,535 */
    VADIVUZHEN_DIFFERENT_POINTS = 15, /* the versions or the points of the sheets to be joined differ */
    /* the hospital */
    VADIVUZHEN_OUT_OF_RANGE = 6,    /* a blood group is above 3 or an age group above 1 */
    VADIVUZHEN_REPEATED_ID = 7,     /* an id is that of an earlier pair */
    VADIVUZHEN_SHARED_ID = 11,      /* an id is in both of the sheets to be joined */
    /* whoever drew the shuffle */
    VADIVUZHEN_NOT_A_SHUFFLE = 8,   /* the shuffle does not have each of 0 to N - 1 exactly once */
    /* whoever joins two sheets, or registers a pair */
    VADIVUZHEN_TOO_MANY_TOGETHER = 12, /* the sheets have more than 200 pairs together, or the live pool has 200 already */
    /* the calling program */
    VADIVUZHEN_TOO_SHORT = 9,       /* a lent buffer or table is too short */
    VADIVUZHEN_NOT_COMPATIBILITY = 10, /* a compatibility entry is above 1, or a pair's own is not 0 (planning); or a stored number is not the ones in its
                                        * column of M (registering, withdrawing) */
    VADIVUZHEN_FLOOR_TOO_HIGH = 13,    /* the floor is above 200,000 */
    VADIVUZHEN_UNKNOWN_ID = 16,        /* the id is not in the live pool */
    VADIVUZHEN_WEIGHTLESS_EDGE = 17    /* a present edge weighs 0: its compatibility entry is 1, and its weight entry is 0 */
};

/* ---- Lengths that suffice, in elements, for n pairs; n is 0 to 200, and may be a constant expression. It is evaluated more than once ---- */

#define VADIVUZHEN_MOST_PAIRS 200

/* the sheet of version 1: 7,410 bytes at most */
#define VADIVUZHEN_SHEET(n) (10 + 37 * (size_t)(n))
/* the sheet of version 2: 7,425 bytes at most, which suffice for either version */
#define VADIVUZHEN_SHEET_2(n) (25 + 37 * (size_t)(n))
/* the points of a pool of version 2, or of a live pool, however many pairs it has */
#define VADIVUZHEN_POINTS 6
/* each of the tables M and W */
#define VADIVUZHEN_ENTRIES(n) ((size_t)(n) * (size_t)(n))
/* the weights of all subsets of two or three: 1,333,300 at most */
#define VADIVUZHEN_SUBSETS(n) (((size_t)(n) * (size_t)(n) * (size_t)(n) - (size_t)(n)) / 6)
/* the rounds, and so the choices */
#define VADIVUZHEN_ROUNDS(n) ((size_t)(n) / 2)
/* the records, one for each round */
#define VADIVUZHEN_RECORDS(n) VADIVUZHEN_ROUNDS(n)
/* the printed plan, whatever its numbers */
#define VADIVUZHEN_PLAN_TEXT(n) (138 + 33 * (size_t)(n))
/* a printed refusal, whatever its number and place */
#define VADIVUZHEN_REFUSAL_TEXT 40

/* ---- The pool sheet ---- */

/* A pool has a version, and nine tables with an entry for each pair: its id; the donor's and the patient's blood group (0 O, 1 A, 2 B, 3 AB) and age
 * group (0 young, 1 senior); the donor's antigens, the patient's antigens and antibodies, a bit for each entry of the laboratory's list; and the shuffle,
 * which has each pair's number once.
 *
 * A pool of version 2 has its registry's points as well, a table of VADIVUZHEN_POINTS entries in the sheet's order: the base; the steps for no mismatch,
 * for 1 or 2 and for 3 or 4 of them; the steps for equal age groups, and for a young donor and a senior patient. A pool of version 1 has none: it is
 * weighed by document 01's, which are 1000, 400, 250, 100, 50, 30. The points table that is lent with it is neither read nor changed, whatever its length
 * and contents; the pointer is not null all the same. */

struct vadivuzhen_read_answer {
    uint32_t refusal;
    uint16_t version; /* 1 or 2; of a refusal, 0 */
    size_t place;     /* of a refusal: the offset of the field; of 5, of the first byte too many; of 9, 0 */
    size_t pairs;     /* N */
};

/* Reads a pool sheet of version 1 or 2 into the tables.
 * Fills the first N entries of each of the nine tables and, for version 2, the first VADIVUZHEN_POINTS entries of the points. A sheet has at most 200
 * pairs, so tables of 200 entries always suffice.
 * Refuses 1 to 8 and 14, the first fault of the sheet going forward: 14 comes directly after the value of the points' field, with its place, 7; then 9, where
 * one of the nine tables has fewer than N entries or, for version 2, the points have fewer than VADIVUZHEN_POINTS, also where N is 0.
 * Proved, for both versions: a sheet is accepted if and only if it has none of the faults and the tables can hold it; the tables then hold the pool that it
 * says. An accepted sheet read and written again, with its version and points, is the same sheet, byte for byte. */
VADIVUZHEN_ANSWERS struct vadivuzhen_read_answer vadivuzhen_read(
    const uint8_t *sheet, size_t sheet_length,
    uint16_t *points, size_t points_length,
    uint32_t *ids, size_t ids_length,
    uint8_t *donor_blood, size_t donor_blood_length,
    uint8_t *patient_blood, size_t patient_blood_length,
    uint8_t *donor_age, size_t donor_age_length,
    uint8_t *patient_age, size_t patient_age_length,
    uint64_t *donor_antigens, size_t donor_antigens_length,
    uint64_t *patient_antigens, size_t patient_antigens_length,
    uint64_t *patient_antibodies, size_t patient_antibodies_length,
    uint16_t *shuffle, size_t shuffle_length);

struct vadivuzhen_write_answer {
    uint32_t refusal;
    size_t length; /* of the sheet, in bytes */
};

/* Writes the pool in the first n entries of the tables as a sheet of that version into the buffer `out`.
 * Fills VADIVUZHEN_SHEET(n) bytes for version 1 and VADIVUZHEN_SHEET_2(n) for version 2, which is the answer's length.
 * Refuses 3, where the version is neither 1 nor 2; 4; 9, where one of the nine tables has fewer than n entries or, for version 2, the points have fewer than
 * VADIVUZHEN_POINTS; 14, for version 2; 6 and 7, pair by pair; 8; 9, where `out` is shorter than the sheet.
 * Proved, for both versions: a pool is accepted if and only if it has none of these faults; what is written reads back as that pool, with its version and
 * points. For version 1 the outcome is the same with any points table. */
VADIVUZHEN_ANSWERS struct vadivuzhen_write_answer vadivuzhen_write(
    uint16_t version, size_t n,
    const uint16_t *points, size_t points_length,
    const uint32_t *ids, size_t ids_length,
    const uint8_t *donor_blood, size_t donor_blood_length,
    const uint8_t *patient_blood, size_t patient_blood_length,
    const uint8_t *donor_age, size_t donor_age_length,
    const uint8_t *patient_age, size_t patient_age_length,
    const uint64_t *donor_antigens, size_t donor_antigens_length,
    const uint64_t *patient_antigens, size_t patient_antigens_length,
    const uint64_t *patient_antibodies, size_t patient_antibodies_length,
    const uint16_t *shuffle, size_t shuffle_length,
    uint8_t *out, size_t out_length);

struct vadivuzhen_join_answer {
    uint32_t refusal;
    size_t place;  /* of a sheet's own refusal, 1 to 8 or 14: its place in that sheet, as vadivuzhen_read gives it; of 15, 11, 12 and 9, 0 */
    size_t length; /* of the joined sheet, in bytes */
};

/* Joins two sheets of one version, with the same points, into one of that version with those points, in the buffer `out`: the first's pairs, then the
 * second's, and the first's shuffle, then the second's with the first's N added to each number. A sheet with no pairs gives the other one. The two
 * sheets may be the same memory, and `out` may overlap neither: nothing can be joined to a sheet in its own place.
 * Fills VADIVUZHEN_SHEET(n) bytes for version 1 and VADIVUZHEN_SHEET_2(n) for version 2, with n the pairs of both together, which is the answer's length;
 * VADIVUZHEN_SHEET_2(VADIVUZHEN_MOST_PAIRS) always suffices.
 * Refuses 1 to 8 and 14, the first sheet's own, as vadivuzhen_read finds it; 1 to 8 and 14, the second's own; 15, where their versions or points differ, also
 * where one has no pairs, and where one is of version 1 and the other has document 01's points in version 2; 11, where an id is in both; 12, where they
 * have more than 200 pairs together; 9, where `out` is shorter than the joined sheet. The answer does not say which sheet a refusal from 1 to 8, or 14, is
 * about: who needs to know reads the first sheet alone, with vadivuzhen_read, tables of 200 entries and VADIVUZHEN_POINTS points; if that is refused, it
 * was the first.
 * Proved: two sheets are joined if and only if both have none of the faults, they have the same version and points, no id is in both, they have at most 200
 * pairs together and `out` can hold the sheet. What is written is again an accepted sheet, which says their version and points, the first's pairs, then the
 * second's, and the shuffle as above; with no pairs on one side it is the other sheet, byte for byte. */
VADIVUZHEN_ANSWERS struct vadivuzhen_join_answer vadivuzhen_join(
    const uint8_t *first, size_t first_length,
    const uint8_t *second, size_t second_length,
    uint8_t *out, size_t out_length);

/* ---- Compatibility and weight ---- */

struct vadivuzhen_build_answer {
    uint32_t refusal;
};

/* Builds the tables M and W from the first n entries of a pool's fields. In each, the entry for donor i and patient j stands at i * n + j. M says with 1
 * that donor i may give to patient j, and with 0 that not; W says what that is worth, and is 0 for a pair's own. W is the base, plus the step for the
 * mismatches, which are the antigens of donor i that patient j does not have (what only patient j has does not count), plus the step for the age groups; by the
 * points lent for version 2, by document 01's for version 1. More than 4 mismatches, and a senior donor for a young patient, add nothing. Steps need not
 * fall, and all of them may be 0.
 * Fills VADIVUZHEN_ENTRIES(n) entries of each.
 * Refuses 3, where the version is neither 1 nor 2; 4; 9, where a table of the fields has fewer than n entries or, for version 2, the points have fewer than
 * VADIVUZHEN_POINTS; 14, for version 2; 6 and 7, pair by pair; 9, where M or W is shorter than n rows of n.
 * Proved, for both versions: the fields are accepted if and only if they have none of these faults. M is then the published one, 0 or 1, and 0 for a
 * pair's own. Every entry of W is that of the six points of the pool, for any six points that 14 lets pass: but for a pair's own, which is 0, it is
 * at least the base, so no present edge is weightless, and at most 65,535. So vadivuzhen_plan never refuses 10 or 17 of built tables. For version 1
 * the outcome is the same with any points table. */
VADIVUZHEN_ANSWERS struct vadivuzhen_build_answer vadivuzhen_build(
    uint16_t version, size_t n,
    const uint16_t *points, size_t points_length,
    const uint32_t *ids, size_t ids_length,
    const uint8_t *donor_blood, size_t donor_blood_length,
    const uint8_t *patient_blood, size_t patient_blood_length,
    const uint8_t *donor_age, size_t donor_age_length,
    const uint8_t *patient_age, size_t patient_age_length,
    const uint64_t *donor_antigens, size_t donor_antigens_length,
    const uint64_t *patient_antigens, size_t patient_antigens_length,
    const uint64_t *patient_antibodies, size_t patient_antibodies_length,
    uint8_t *m, size_t m_length,
    uint16_t *w, size_t w_length);

/* ---- A pool that lives between matches ---- */

/* A live pool is the caller's, from call to call: a count, which is one number; a table of VADIVUZHEN_POINTS points; the eight tables of the pairs' fields;
 * M and W; and `suitable`. With the count at N, the pairs stand in the first N entries of each table of the fields, in order of registration, and M and W are
 * N rows of N, with the entry for donor i and patient j at i * N + j: what vadivuzhen_build gives for these pairs and points in version 2, and what
 * vadivuzhen_plan takes. As the length of a row changes with the count, a pair that registers or withdraws changes where every entry stands. There is no
 * shuffle: it is drawn for a match, and vadivuzhen_write makes a sheet of version 2 of the pool with it.
 *
 * Of `suitable` the first N entries are stored numbers, one for each patient: entry j is the number of donors that suit patient j, which is the ones in column
 * j of M, that is how many of the N entries at i * N + j are 1. Whoever shows these numbers reads them there; no call is made for that. Whoever fills or
 * changes M by other means than these two calls counts its columns anew as well: else both refuse 10.
 *
 * Tables of VADIVUZHEN_MOST_PAIRS entries, and M and W of VADIVUZHEN_ENTRIES(VADIVUZHEN_MOST_PAIRS), always suffice. They may be shorter, with room for
 * fewer pairs. What they hold past the count's entries does not matter, and stays as it is: after a withdrawal the last pair's fields and stored number, and
 * the last entries of the former M and W, are still there, past the new count.
 *
 * Proved, for every list of registrations and withdrawals after a finished start, refused ones among them, where nothing else changes the tables or the
 * count: the pool holds the pairs registered and not withdrawn since, in order of registration; its points are those that it was started with; and
 * vadivuzhen_build, called in version 2 with these tables, finishes and changes nothing, as M and W are already what it gives. Entry j of `suitable` is the
 * ones in column j of M, and so the number of pairs of the pool whose donor suits patient j. Written as a sheet of version 2, with any shuffle, and read
 * again, the pool has the same pairs and points, and vadivuzhen_build gives the same M and W. A registration finishes if and only if the pair is in range, no
 * pair of the pool has its id, there are fewer than 200 and one more fits; a withdrawal, if and only if the id is in the pool. So an id that was withdrawn
 * may register again, neither call ever refuses 10, and vadivuzhen_plan never refuses 10 or 17 of these M and W. */

/* The six points, in the order of the sheet. */
struct vadivuzhen_points {
    uint16_t base;            /* not 0 */
    uint16_t none;            /* the steps for no mismatch, */
    uint16_t few;             /* for 1 or 2 */
    uint16_t some;            /* and for 3 or 4 */
    uint16_t equal;           /* the steps for equal age groups, */
    uint16_t young_to_senior; /* and for a young donor and a senior patient */
};

/* One pair; the fields are those of the sheet. */
struct vadivuzhen_pair {
    uint32_t id;
    uint8_t donor_blood; /* 0 O, 1 A, 2 B, 3 AB */
    uint8_t patient_blood;
    uint8_t donor_age; /* 0 young, 1 senior */
    uint8_t patient_age;
    uint64_t donor_antigens;
    uint64_t patient_antigens;
    uint64_t patient_antibodies;
};

struct vadivuzhen_live_answer {
    uint32_t refusal; /* has no place */
};

/* Starts a live pool with the points given, and no pair. Nothing but the points table and the count is lent: what the other tables hold does not matter.
 * Fills VADIVUZHEN_POINTS points, in the order of the struct, and sets the count to 0, whatever it was.
 * Refuses 14, where the base given is 0, or base, largest mismatch step and larger age step together exceed 65,535; 9, where the points table has fewer than
 * VADIVUZHEN_POINTS entries.
 * Proved: a pool starts if and only if there is neither of these faults. */
VADIVUZHEN_ANSWERS struct vadivuzhen_live_answer vadivuzhen_start(
    struct vadivuzhen_points given,
    uint16_t *points, size_t points_length,
    size_t *count);

/* Registers the pair at the end of the live pool, builds both tables anew, from all pairs and the stored points, whatever M and W held, and counts every
 * patient's suitable donors anew, in the M that is then built.
 * With the count at N: puts the pair at entry N of each table of the fields, fills VADIVUZHEN_ENTRIES(N + 1) entries of M and of W and N + 1 of `suitable`,
 * and sets the count to N + 1. The earlier pairs are not changed.
 * Refuses 4, where the count is above 200; 9, where a table of the fields or `suitable` has fewer than N entries, M or W fewer than VADIVUZHEN_ENTRIES(N), or
 * the points fewer than VADIVUZHEN_POINTS; 14, of the stored points; 10, where one of the N stored numbers is not the ones in its column of the M that is
 * lent; 6, of any pair, stored or new; 7, where a stored pair has the id of an earlier one, or the new pair that of a stored one; 12, where N is 200, whatever
 * the lengths; 9, where one more does not fit: a table of the fields or `suitable` has fewer than N + 1 entries, or M or W fewer than
 * VADIVUZHEN_ENTRIES(N + 1). 10 asks nothing else of M: an entry above 1 is not a one, and a pair's own counts where it is 1. Each number is looked for in the
 * whole pool before the next is: where a stored id is there twice and the new pair is out of range, that is 6.
 * Proved: a pair is registered if and only if there is none of these faults. */
VADIVUZHEN_ANSWERS struct vadivuzhen_live_answer vadivuzhen_register(
    size_t *count,
    const uint16_t *points, size_t points_length,
    uint32_t *ids, size_t ids_length,
    uint8_t *donor_blood, size_t donor_blood_length,
    uint8_t *patient_blood, size_t patient_blood_length,
    uint8_t *donor_age, size_t donor_age_length,
    uint8_t *patient_age, size_t patient_age_length,
    uint64_t *donor_antigens, size_t donor_antigens_length,
    uint64_t *patient_antigens, size_t patient_antigens_length,
    uint64_t *patient_antibodies, size_t patient_antibodies_length,
    uint8_t *m, size_t m_length,
    uint16_t *w, size_t w_length,
    uint16_t *suitable, size_t suitable_length,
    struct vadivuzhen_pair pair);

/* Withdraws the first pair of the live pool that has the id; the later ones move down by one. Of M and W, whatever they hold, that pair's row and column are
 * taken out; nothing is weighed anew. The stored numbers of the patients that are left are then the ones in the columns of the M that is left.
 * With the count at N: fills N - 1 entries of each table of the fields and of `suitable`, VADIVUZHEN_ENTRIES(N - 1) entries of M and of W, and sets the count
 * to N - 1. The entries after these are as they were, and are not cleared.
 * Refuses 4, where the count is above 200; 9, where a table of the fields or `suitable` has fewer than N entries, M or W fewer than VADIVUZHEN_ENTRIES(N), or
 * the points fewer than VADIVUZHEN_POINTS; 14, of the stored points; 10, as vadivuzhen_register; 16, where no stored pair has the id. Of the stored pairs'
 * fields nothing but the ids is looked at.
 * Proved: a pair is withdrawn if and only if there is none of these faults. */
VADIVUZHEN_ANSWERS struct vadivuzhen_live_answer vadivuzhen_withdraw(
    size_t *count,
    const uint16_t *points, size_t points_length,
    uint32_t *ids, size_t ids_length,
    uint8_t *donor_blood, size_t donor_blood_length,
    uint8_t *patient_blood, size_t patient_blood_length,
    uint8_t *donor_age, size_t donor_age_length,
    uint8_t *patient_age, size_t patient_age_length,
    uint64_t *donor_antigens, size_t donor_antigens_length,
    uint64_t *patient_antigens, size_t patient_antigens_length,
    uint64_t *patient_antibodies, size_t patient_antibodies_length,
    uint8_t *m, size_t m_length,
    uint16_t *w, size_t w_length,
    uint16_t *suitable, size_t suitable_length,
    uint32_t id);

/* ---- Planning ---- */

/* the highest floor */
#define VADIVUZHEN_MOST_FLOOR 200000

/* A record: an exchange, as pairs in giving order. The donor of each gives to the patient of the next, and the last to the first. */
struct vadivuzhen_cycle {
    uint16_t first;
    uint16_t second;
    uint16_t third; /* n for an exchange of two */
};

struct vadivuzhen_plan_answer {
    uint32_t refusal;
    size_t cycles;        /* how many exchanges are planned */
    uint64_t weight;      /* of the plan: the sum of their weights */
    uint64_t comparisons; /* the tally: what the gates did, the same for every pool of n pairs and every floor */
    uint64_t products;
    uint64_t rounds;
};

/* Plans the pool of n pairs whose tables are m and w, built by vadivuzhen_build or the caller's own, with the shuffle. W of a pair's own is not read.
 * An exchange is planned only if its weight is above the floor, which is 0 to VADIVUZHEN_MOST_FLOOR; with floor 0 any may be that can be carried out.
 * Fills VADIVUZHEN_SUBSETS(n) weights, those left after the last round; VADIVUZHEN_ROUNDS(n) choices, each a subset's number, or the number of all subsets
 * for none; n donors, who gives to patient i, and n recipients, whom donor i gives to, with n for nobody; and of the records as many as there are cycles,
 * in order of choice. A weight at or below the floor is not set to 0 for that: it is 0 afterwards where the subset shares a place with an earlier choice,
 * like any other.
 * Refuses 4; 13, where the floor is above VADIVUZHEN_MOST_FLOOR; 9, where m or w is shorter than n rows of n, the shuffle than n, weights, choices,
 * donors or recipients than what is filled, or the records than VADIVUZHEN_RECORDS(n); 8; 10; and last 17, where donor i may give to patient j and
 * that weighs nothing: the entry of m at i * n + j is 1, and that of w is 0. Where m has 0, w may have 0 too. 17 is the same at every floor that 13
 * lets pass, and entries past n rows of n are not looked at. Each number is looked for in all that is lent before the next is: a weightless edge
 * beside an entry of m above 1 is 10.
 * Proved: a plan is made if and only if there are none of these faults. In every pool that is planned an exchange that can be carried out weighs more
 * than 0. Of every plan made: its donors and recipients are those of Algorithm 1 of arXiv 2302.13880, with the floor for the 0 of its line 7; all its
 * cycles can be carried out; each of them weighs more than the floor; no pair is in two of them; no other set of exchanges of two or three pairs that
 * can all be carried out and each weigh more than the floor, with no pair in two of them, weighs more than three times as much, where with floor 0
 * the words "and each weigh more than the floor" leave none out; none of these sets weighs more than the sum over the planned exchanges, the first
 * `cycles` records, of each one's weight times its number of pairs, two where the third is n and else three: that sum and the weight of the planned
 * exchanges of two together are three times the plan's weight, so that as soon as one of two pairs is planned the sum is the smaller of the two
 * limits; and the tally depends on n alone, at every floor: with T triples and P twos among n pairs and R = n / 2 rounds, rounds are R, comparisons
 * T + R (T + P), and products 2P + 7T + R (5 (T + P) - 1) + (R - 1) (2P + 3T), or 0 where R is 0. */
VADIVUZHEN_ANSWERS struct vadivuzhen_plan_answer vadivuzhen_plan(
    size_t n, uint32_t floor,
    const uint8_t *m, size_t m_length,
    const uint16_t *w, size_t w_length,
    const uint16_t *shuffle, size_t shuffle_length,
    uint32_t *weights, size_t weights_length,
    uint32_t *choices, size_t choices_length,
    uint16_t *donors, size_t donors_length,
    uint16_t *recipients, size_t recipients_length,
    struct vadivuzhen_cycle *records, size_t records_length);

/* ---- The printout ---- */

struct vadivuzhen_print_answer {
    uint32_t refusal;
    size_t length; /* of the text, in bytes; no 0 byte follows it */
};

/* Prints a plan of n pairs into the buffer `out`: a line with PLAN, n, cycles and weight; for each pair a line with its id, its donor's id and its
 * recipient's id, `-` for a donor or recipient that is no pair's number; a line with COUNTS, comparisons, products and rounds. Numbers are decimal.
 * Fills as many bytes as the answer's length; VADIVUZHEN_PLAN_TEXT(n) bytes always suffice.
 * Refuses 9, where ids, donors or recipients have fewer than n entries or `out` is shorter than the text.
 * Proved: nothing else is refused, and what is printed is this text. */
VADIVUZHEN_ANSWERS struct vadivuzhen_print_answer vadivuzhen_print_plan(
    size_t n, size_t cycles, uint64_t weight,
    const uint32_t *ids, size_t ids_length,
    const uint16_t *donors, size_t donors_length,
    const uint16_t *recipients, size_t recipients_length,
    uint64_t comparisons, uint64_t products, uint64_t rounds,
    uint8_t *out, size_t out_length);

/* Prints a line with REFUSED, a number and a place into the buffer `out`. The number may be any.
 * Fills as many bytes as the answer's length; VADIVUZHEN_REFUSAL_TEXT bytes always suffice.
 * Refuses 9, where `out` is shorter than the text.
 * Proved: nothing else is refused, and what is printed is this text. */
VADIVUZHEN_ANSWERS struct vadivuzhen_print_answer vadivuzhen_print_refusal(uint32_t number, size_t place, uint8_t *out, size_t out_length);

#ifdef __cplusplus
}
#endif

#endif
