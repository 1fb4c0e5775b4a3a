/* Calls that the example examples/plan.c does not make, or whose answers it does not look at: every function of the header with its structs, each
 * refusal's number, and the lengths that suffice. Prints a line for each check; tests/c.py counts them. */
#include <stdio.h>
#include <string.h>

#include "vadivuzhen.h"

static void check(int ok, const char *what)
{
    printf("%s: %s\n", ok ? "ok" : "wrong", what);
}

/* The points of the sheets that are read, with an entry before them and two after, to see that none too many is filled. */
static uint16_t guarded[1 + VADIVUZHEN_POINTS + 2];
static uint16_t *const points = guarded + 1;
static uint32_t ids[2];
static uint8_t donor_blood[2], patient_blood[2], donor_age[2], patient_age[2];
static uint64_t donor_antigens[2], patient_antigens[2], patient_antibodies[2];
static uint16_t shuffle[2];
static uint8_t sheet[VADIVUZHEN_SHEET(2)];

/* The sheet on standard input, read and written again. */
static void there_and_back(void)
{
    uint8_t again[VADIVUZHEN_SHEET(2) + 1];
    size_t length = fread(sheet, 1, sizeof sheet, stdin);
    struct vadivuzhen_read_answer read = vadivuzhen_read(
        sheet, length, points, 0, ids, 2, donor_blood, 2, patient_blood, 2, donor_age, 2, patient_age, 2,
        donor_antigens, 2, patient_antigens, 2, patient_antibodies, 2, shuffle, 2);
    check(read.refusal == VADIVUZHEN_FINISHED && read.version == 1 && read.place == 0 && read.pairs == 2, "two pairs are read, with no room for points");
    check(ids[0] == 11 && ids[1] == 12 && donor_blood[0] == 1 && patient_blood[0] == 2 && shuffle[1] == 1, "their fields");

    memset(again, 99, sizeof again);
    struct vadivuzhen_write_answer written = vadivuzhen_write(
        1, 2, points, 0, ids, 2, donor_blood, 2, patient_blood, 2, donor_age, 2, patient_age, 2,
        donor_antigens, 2, patient_antigens, 2, patient_antibodies, 2, shuffle, 2, again, sizeof again);
    check(written.refusal == VADIVUZHEN_FINISHED && written.length == length, "they are written");
    check(memcmp(sheet, again, length) == 0 && again[length] == 99, "as the same sheet, and not a byte more");
    written = vadivuzhen_write(
        1, 2, points, 0, ids, 2, donor_blood, 2, patient_blood, 2, donor_age, 2, patient_age, 2,
        donor_antigens, 2, patient_antigens, 2, patient_antibodies, 2, shuffle, 2, again, length - 1);
    check(written.refusal == VADIVUZHEN_TOO_SHORT && written.length == 0, "a buffer one byte short is refused");
}

/* Document 01's points, and those of another registry. */
static const uint16_t document[VADIVUZHEN_POINTS] = {1000, 400, 250, 100, 50, 30}, registry[VADIVUZHEN_POINTS] = {2000, 600, 500, 400, 3, 2};

/* The sheet `sheet` in version 2, with these points, into 99 bytes. */
static void sheet_2(uint8_t *to, const uint16_t *with)
{
    static const uint8_t start[] = {4, 0, 12};
    memcpy(to, sheet, 7);
    to[4] = 2;
    memcpy(to + 7, start, sizeof start);
    for (size_t i = 0; i < VADIVUZHEN_POINTS; i++) {
        to[10 + 2 * i] = (uint8_t)(with[i] >> 8);
        to[10 + 2 * i + 1] = (uint8_t)with[i];
    }
    memcpy(to + 22, sheet + 7, sizeof sheet - 7);
}

/* Reads a sheet of two pairs into the tables, of which the points have that many entries; all that there are held 99 before. */
static struct vadivuzhen_read_answer read_into(const uint8_t *from, size_t length, size_t room)
{
    for (size_t i = 0; i < sizeof guarded / sizeof guarded[0]; i++)
        guarded[i] = 99;
    for (size_t i = 0; i < 2; i++) {
        ids[i] = 99, shuffle[i] = 99;
        donor_blood[i] = patient_blood[i] = donor_age[i] = patient_age[i] = 99;
        donor_antigens[i] = patient_antigens[i] = patient_antibodies[i] = 99;
    }
    return vadivuzhen_read(
        from, length, points, room, ids, 2, donor_blood, 2, patient_blood, 2, donor_age, 2, patient_age, 2,
        donor_antigens, 2, patient_antigens, 2, patient_antibodies, 2, shuffle, 2);
}

/* Do the points begin with `with`, or with nothing new where that is null, and are 99 before it and past it? */
static int points_are(const uint16_t *with)
{
    for (size_t i = 0; i < VADIVUZHEN_POINTS + 2; i++)
        if (points[i] != (with != NULL && i < VADIVUZHEN_POINTS ? with[i] : 99))
            return 0;
    return guarded[0] == 99;
}

/* Are all the tables as they were before a read? */
static int unread(void)
{
    for (size_t i = 0; i < 2; i++)
        if (ids[i] != 99 || shuffle[i] != 99 || donor_blood[i] != 99 || patient_blood[i] != 99 || donor_age[i] != 99 || patient_age[i] != 99
            || donor_antigens[i] != 99 || patient_antigens[i] != 99 || patient_antibodies[i] != 99)
            return 0;
    return points_are(NULL);
}

/* Writes the pool in the tables in that version, with that many of these points, into bytes that held 99 before. */
static struct vadivuzhen_write_answer write_with(uint16_t version, const uint16_t *with, size_t count, uint8_t *to, size_t room)
{
    memset(to, 99, room + 1);
    return vadivuzhen_write(
        version, 2, with, count, ids, 2, donor_blood, 2, patient_blood, 2, donor_age, 2, patient_age, 2,
        donor_antigens, 2, patient_antigens, 2, patient_antibodies, 2, shuffle, 2, to, room);
}

/* M and W of two pairs, each with an entry on either side; the middle is lent. */
static uint8_t table_m[6];
static uint16_t table_w[6];

/* Builds the pool in the tables in that version, with that many of these points. All entries of M and W held 99 before. */
static uint32_t build_with(uint16_t version, size_t n, const uint16_t *with, size_t count)
{
    for (size_t i = 0; i < 6; i++)
        table_m[i] = 99, table_w[i] = 99;
    return vadivuzhen_build(
        version, n, with, count, ids, 2, donor_blood, 2, patient_blood, 2, donor_age, 2, patient_age, 2,
        donor_antigens, 2, patient_antigens, 2, patient_antibodies, 2, table_m + 1, 4, table_w + 1, 4).refusal;
}

/* Have M and W both edges of that weight, and nothing past them changed? */
static int built(uint16_t weight)
{
    const uint8_t due_m[] = {99, 0, 1, 1, 0, 99};
    const uint16_t due_w[] = {99, 0, weight, weight, 0, 99};
    return memcmp(table_m, due_m, sizeof table_m) == 0 && memcmp(table_w, due_w, sizeof table_w) == 0;
}

/* Are M and W as they were? */
static int unbuilt(void)
{
    for (size_t i = 0; i < 6; i++)
        if (table_m[i] != 99 || table_w[i] != 99)
            return 0;
    return 1;
}

/* Document 01's sheet in version 2: read, written and built with its points. */
static void versions(void)
{
    static const uint16_t wrong[VADIVUZHEN_POINTS] = {2, 0, 0, 65534, 0, 0}, zero[VADIVUZHEN_POINTS] = {0, 400, 250, 100, 50, 30};
    uint8_t two[VADIVUZHEN_SHEET_2(2)], again[VADIVUZHEN_SHEET_2(2) + 1];
    size_t length = sizeof two;
    sheet_2(two, registry);
    check(length == 99 && VADIVUZHEN_SHEET_2(VADIVUZHEN_MOST_PAIRS) == 7425, "a sheet of version 2 has 15 bytes more");
    struct vadivuzhen_read_answer read = read_into(two, length, VADIVUZHEN_POINTS + 1);
    check(read.refusal == VADIVUZHEN_FINISHED && read.version == 2 && read.place == 0 && read.pairs == 2, "it is read");
    check(points_are(registry) && ids[0] == 11 && ids[1] == 12, "with six points and its pairs, and nothing before or past the points");

    struct vadivuzhen_write_answer written = write_with(read.version, points, VADIVUZHEN_POINTS + 2, again, length);
    check(written.refusal == VADIVUZHEN_FINISHED && written.length == length, "it is written");
    check(memcmp(two, again, length) == 0 && again[length] == 99, "as the same sheet, and not a byte more");
    check(points_are(registry), "and the points are as they were");
    written = write_with(2, registry, VADIVUZHEN_POINTS, again, length - 1);
    check(written.refusal == VADIVUZHEN_TOO_SHORT && written.length == 0 && again[0] == 99, "a buffer one byte short is refused");

    /* no mismatch and equal ages: 2000 + 600 + 3, and by document 01's points 1000 + 400 + 50 */
    check(build_with(2, 2, registry, VADIVUZHEN_POINTS) == VADIVUZHEN_FINISHED && built(2603), "its edges weigh by its points");
    check(build_with(2, 2, document, VADIVUZHEN_POINTS) == VADIVUZHEN_FINISHED && built(1450), "and by document 01's as in version 1");
    check(build_with(1, 2, registry, VADIVUZHEN_POINTS) == VADIVUZHEN_FINISHED && built(1450), "in version 1 they weigh by document 01's, whatever is lent");
    check(build_with(1, 2, registry, 0) == VADIVUZHEN_FINISHED && built(1450), "and where no point is lent");
    check(build_with(1, 2, zero, VADIVUZHEN_POINTS) == VADIVUZHEN_FINISHED && built(1450), "and where those lent have a base of 0");

    check(read_into(two, length, 5).refusal == VADIVUZHEN_TOO_SHORT && unread(), "five points are too short to read into");
    read = read_into(two, length, VADIVUZHEN_POINTS);
    check(read.refusal == VADIVUZHEN_FINISHED && points_are(registry), "and six are not");
    check(write_with(2, registry, 5, again, length).refusal == VADIVUZHEN_TOO_SHORT && again[0] == 99, "and to write from");
    check(build_with(2, 2, registry, 5) == VADIVUZHEN_TOO_SHORT && unbuilt(), "and to build from");
    check(build_with(2, 0, registry, 5) == VADIVUZHEN_TOO_SHORT && unbuilt(), "with no pairs too");
    read = read_into(sheet, sizeof sheet, VADIVUZHEN_POINTS + 2);
    check(read.refusal == VADIVUZHEN_FINISHED && read.version == 1 && points_are(NULL), "reading version 1 leaves the points as they were");
    written = write_with(1, zero, VADIVUZHEN_POINTS, again, length);
    check(written.length == sizeof sheet && memcmp(sheet, again, sizeof sheet) == 0 && again[sizeof sheet] == 99, "and writing it looks at none");

    sheet_2(two, zero);
    read = read_into(two, length, VADIVUZHEN_POINTS);
    check(read.refusal == VADIVUZHEN_WRONG_POINTS && read.version == 0 && read.place == 7 && read.pairs == 0 && unread(), "a base of 0 is refused at 7");
    sheet_2(two, wrong);
    two[22] = 9;
    read = read_into(two, length, VADIVUZHEN_POINTS);
    check(read.refusal == VADIVUZHEN_WRONG_POINTS && read.place == 7 && unread(), "and 65,536 together, before the first pair's tag");
    check(read_into(sheet, sizeof sheet, 0).refusal == VADIVUZHEN_FINISHED, "the pairs are read again, to be written and built");
    check(write_with(2, wrong, VADIVUZHEN_POINTS, again, length).refusal == VADIVUZHEN_WRONG_POINTS && again[0] == 99, "and in writing");
    check(build_with(2, 0, wrong, VADIVUZHEN_POINTS) == VADIVUZHEN_WRONG_POINTS && unbuilt(), "and in building, with no pairs too");
    for (size_t i = 1; i < VADIVUZHEN_POINTS; i++) {
        uint16_t with[VADIVUZHEN_POINTS] = {1};
        with[i] = 65534;
        uint32_t passes = build_with(2, 2, with, VADIVUZHEN_POINTS);
        with[0] = 2;
        check(passes == VADIVUZHEN_FINISHED && build_with(2, 2, with, VADIVUZHEN_POINTS) == VADIVUZHEN_WRONG_POINTS && unbuilt(),
              "a base of 1 passes beside any one step of 65,534, and a base of 2 is refused");
    }
    check(build_with(2, 201, wrong, 0) == VADIVUZHEN_TOO_MANY_PAIRS && build_with(2, 2, wrong, 0) == VADIVUZHEN_TOO_SHORT, "after 4 and after 9");
    check(build_with(0, 201, wrong, 0) == VADIVUZHEN_WRONG_VERSION && build_with(3, 2, registry, 6) == VADIVUZHEN_WRONG_VERSION
              && build_with(65535, 2, registry, 6) == VADIVUZHEN_WRONG_VERSION && unbuilt(), "versions 0, 3 and 65,535 are refused before all else");
    check(write_with(3, registry, 0, again, 0).refusal == VADIVUZHEN_WRONG_VERSION && again[0] == 99, "and in writing");
    /* a 16-bit argument, of which the compiler knows nothing */
    for (volatile uint16_t version = 0; version < 4; version++)
        check(build_with(version, 2, registry, VADIVUZHEN_POINTS) == (version == 1 || version == 2 ? VADIVUZHEN_FINISHED : VADIVUZHEN_WRONG_VERSION)
                  && (version == 1 ? built(1450) : version == 2 ? built(2603) : unbuilt()), "a version that is not a constant");
}

/* A sheet of n pairs with ids from `id` on, bloods O and AB, one bit of the donor's antigens set, and the shuffle 0 to n - 1. Gives its length. */
static size_t sheet_of(uint8_t *out, size_t n, uint8_t id)
{
    const uint8_t head[] = {1, 0, 4, 0, 1, 0, (uint8_t)n}, pair[] = {2, 0, 32, 0, 0, 0, 0, 0, 3, 1, 0, 0, 0, 0, 0, 0, 0, 0, 1},
                  last[] = {3, (uint8_t)(2 * n >> 8), (uint8_t)(2 * n)};
    memset(out, 0, VADIVUZHEN_SHEET(n));
    memcpy(out, head, sizeof head);
    for (size_t i = 0; i < n; i++) {
        memcpy(out + 7 + 35 * i, pair, sizeof pair);
        out[7 + 35 * i + 6] = (uint8_t)(id + i);
        out[7 + 35 * n + 3 + 2 * i + 1] = (uint8_t)i;
    }
    memcpy(out + 7 + 35 * n, last, sizeof last);
    return VADIVUZHEN_SHEET(n);
}

/* Where sheets are joined, with room to see that no byte too many is written. */
static uint8_t out[VADIVUZHEN_SHEET_2(VADIVUZHEN_MOST_PAIRS) + 1];

static struct vadivuzhen_join_answer join(const uint8_t *first, size_t first_length, const uint8_t *second, size_t second_length, size_t out_length)
{
    memset(out, 99, sizeof out);
    return vadivuzhen_join(first, first_length, second, second_length, out, out_length);
}

/* Is `out` as it was from that byte on? */
static int untouched_from(size_t at)
{
    while (at < sizeof out && out[at] == 99)
        at++;
    return at == sizeof out;
}

static int joined(struct vadivuzhen_join_answer answer, size_t length)
{
    return answer.refusal == VADIVUZHEN_FINISHED && answer.place == 0 && answer.length == length && untouched_from(length);
}

static int refused(struct vadivuzhen_join_answer answer, uint32_t number, size_t place)
{
    return answer.refusal == number && answer.place == place && answer.length == 0 && untouched_from(0);
}

/* The sheet on standard input and addenda. */
static void joins(void)
{
    static const uint8_t head[] = {1, 0, 4, 0, 1, 0, 3}, last[] = {3, 0, 6, 0, 0, 0, 1, 0, 2}, turned[] = {3, 0, 8, 0, 0, 0, 1, 0, 3, 0, 2};
    uint8_t none[VADIVUZHEN_SHEET(0)], one[VADIVUZHEN_SHEET(1)], two[VADIVUZHEN_SHEET(2)];
    size_t length = sizeof sheet, no_length = sheet_of(none, 0, 0), one_length = sheet_of(one, 1, 13), two_length = sheet_of(two, 2, 13);

    check(joined(join(sheet, length, one, one_length, sizeof out), 121), "an addendum of one pair is joined, and not a byte more is written");
    check(memcmp(out, head, 7) == 0 && memcmp(out + 7, sheet + 7, 70) == 0 && memcmp(out + 77, one + 7, 35) == 0 && memcmp(out + 112, last, 9) == 0,
          "three pairs, the first sheet's first, and the shuffle 0 1 2");
    check(joined(join(sheet, length, one, one_length, 121), 121), "a buffer just long enough will do");

    two[80 + 1] = 1;
    two[80 + 3] = 0;
    check(joined(join(sheet, length, two, two_length, sizeof out), 158), "an addendum of two pairs is joined");
    check(out[6] == 4 && memcmp(out + 7, sheet + 7, 70) == 0 && memcmp(out + 77, two + 7, 70) == 0 && memcmp(out + 147, turned, 11) == 0,
          "its shuffle 1 0 becomes 3 2");

    check(joined(join(sheet, length, none, no_length, sizeof out), length) && memcmp(out, sheet, length) == 0, "an addendum of no pairs gives the sheet");
    check(joined(join(none, no_length, sheet, length, sizeof out), length) && memcmp(out, sheet, length) == 0, "and so it does on the other side");
    check(joined(join(none, no_length, none, no_length, 10), 10) && memcmp(out, none, 10) == 0, "two sheets of no pairs give one of no pairs");
}

/* What joining refuses, in its order: where there are two faults, the first is told. */
static void joins_refused(void)
{
    uint8_t one[VADIVUZHEN_SHEET(1)], wrong[VADIVUZHEN_SHEET(2)];
    static uint8_t many[VADIVUZHEN_SHEET(VADIVUZHEN_MOST_PAIRS)];
    size_t length = sizeof sheet, one_length = sheet_of(one, 1, 13), many_length = sheet_of(many, 199, 13);

    memcpy(wrong, sheet, length);
    wrong[42 + 7] = 4;
    check(refused(join(wrong, length, one, 46, 0), VADIVUZHEN_OUT_OF_RANGE, 42), "the first sheet's own refusal comes first, with its place there");
    check(refused(join(sheet, length, one, 46, 0), VADIVUZHEN_CUT_OFF, 42), "then the second's, with its place there");
    one[6] = 201;
    check(refused(join(sheet, length, one, one_length, 0), VADIVUZHEN_TOO_MANY_PAIRS, 0), "201 pairs in a sheet are its own refusal");

    sheet_of(one, 1, 12);
    check(refused(join(sheet, length, one, one_length, 0), VADIVUZHEN_SHARED_ID, 0), "the id of the first sheet's last pair is refused");
    check(refused(join(sheet, length, sheet, length, sizeof out), VADIVUZHEN_SHARED_ID, 0), "a sheet with itself is refused");
    check(refused(join(sheet, length, many, many_length, 0), VADIVUZHEN_TOO_MANY_TOGETHER, 0), "201 pairs together are refused, before the buffer");
    many[7 + 35 * 198 + 6] = 11;
    check(refused(join(sheet, length, many, many_length, 0), VADIVUZHEN_SHARED_ID, 0), "and after an id in both");

    many_length = sheet_of(many, 198, 13);
    check(refused(join(sheet, length, many, many_length, 7409), VADIVUZHEN_TOO_SHORT, 0), "a buffer one byte short is refused");
    check(joined(join(sheet, length, many, many_length, 7410), 7410) && out[6] == 200 && out[7409] == 199, "200 pairs together are joined");
}

/* Sheets of version 2, joined or refused by 15: with the pairs of the sheet on standard input, and with none. */
static void joins_by_points(void)
{
    static const uint8_t none_2[] = {1, 0, 4, 0, 2, 0, 0, 4, 0, 12, 7, 208, 2, 88, 1, 244, 1, 144, 0, 3, 0, 2, 3, 0, 0}, head[] = {1, 0, 4, 0, 2, 0, 4},
                         last[] = {3, 0, 8, 0, 0, 0, 1, 0, 2, 0, 3};
    uint8_t two[VADIVUZHEN_SHEET_2(2)], other[VADIVUZHEN_SHEET_2(2)], none[VADIVUZHEN_SHEET(0)];
    size_t length = sizeof two;
    sheet_2(two, registry);
    memcpy(other, two, length);
    other[22 + 6] = 13;
    other[57 + 6] = 14;
    check(joined(join(two, length, other, length, 173), 173), "two sheets with the same points are joined: 25 bytes fewer than both");
    check(memcmp(out, head, 7) == 0 && memcmp(out + 7, two + 7, 85) == 0 && memcmp(out + 92, other + 22, 70) == 0 && memcmp(out + 162, last, 11) == 0,
          "with these points, the first's pairs and the second's");
    check(joined(join(two, length, none_2, sizeof none_2, length), length) && memcmp(out, two, length) == 0, "one of no pairs with these points gives the other");

    check(refused(join(two, length, two, length, 0), VADIVUZHEN_SHARED_ID, 0), "the same points let 11 be seen");
    for (size_t i = 0; i < VADIVUZHEN_POINTS; i++) {
        memcpy(other, two, length);
        other[10 + 2 * i + 1] ^= 1;
        check(refused(join(two, length, other, length, 0), VADIVUZHEN_DIFFERENT_POINTS, 0), "another point is refused, before 11");
    }
    check(refused(join(other, length, none_2, sizeof none_2, sizeof out), VADIVUZHEN_DIFFERENT_POINTS, 0), "with no pairs on one side too");
    sheet_2(other, document);
    check(refused(join(sheet, sizeof sheet, other, length, 0), VADIVUZHEN_DIFFERENT_POINTS, 0), "version 1 beside document 01's points in version 2 is refused");
    check(refused(join(none, sheet_of(none, 0, 0), other, length, sizeof out), VADIVUZHEN_DIFFERENT_POINTS, 0), "with no pairs too");
    other[10] = other[11] = 0;
    check(refused(join(two, length, other, length, 0), VADIVUZHEN_WRONG_POINTS, 7), "and after a sheet's own refusal, 14 with its place");
}

/* Document 01's k10, with the shuffle 2 0 1, in tables that are longer than they need to be. */
static void a_record(void)
{
    static const uint8_t m[9] = {0, 1, 1, 1, 0, 0, 1, 0, 0};
    static const uint16_t w[9] = {0, 5, 5, 5, 0, 0, 5, 0, 0}, order[3] = {2, 0, 1};
    uint32_t weights[5] = {99, 99, 99, 99, 99}, choices[2] = {99, 99};
    uint16_t donors[4] = {99, 99, 99, 99}, recipients[4] = {99, 99, 99, 99};
    struct vadivuzhen_cycle records[2] = {{99, 99, 99}, {99, 99, 99}};
    struct vadivuzhen_plan_answer plan =
        vadivuzhen_plan(3, 0, m, 9, w, 9, order, 3, weights, 5, choices, 2, donors, 4, recipients, 4, records, 2);
    check(plan.refusal == VADIVUZHEN_FINISHED && plan.cycles == 1 && plan.weight == 10, "k10 is planned");
    check(plan.comparisons == 5 && plan.products == 32 && plan.rounds == 1, "its tally");
    check(recipients[0] == 2 && recipients[1] == 3 && recipients[2] == 0 && donors[0] == 2 && donors[2] == 0, "its partners");
    check(records[0].first == 2 && records[0].second == 0 && records[0].third == 3, "its record");
    check(records[1].first == 99 && records[1].third == 99 && weights[4] == 99 && choices[1] == 99 && donors[3] == 99 && recipients[3] == 99,
          "nothing past what is filled");

    records[0].first = 99;
    plan = vadivuzhen_plan(3, 0, m, 9, w, 9, order, 3, weights, 5, choices, 2, donors, 4, recipients, 4, records, 0);
    check(plan.refusal == VADIVUZHEN_TOO_SHORT && plan.rounds == 0 && records[0].first == 99, "no room for records is refused");
    static const uint8_t two[9] = {0, 2, 1, 1, 0, 0, 1, 0, 0};
    plan = vadivuzhen_plan(3, 0, two, 9, w, 9, order, 3, weights, 5, choices, 2, donors, 4, recipients, 4, records, 2);
    check(plan.refusal == VADIVUZHEN_NOT_COMPATIBILITY, "an entry of 2 is refused");
}

/* The tables of two pairs that planning is lent, each with an entry on either side; what it reads and what it fills. The middle is lent. */
struct lent {
    uint8_t m[6];
    uint16_t w[6], order[4];
    uint32_t weights[3], choices[3];
    uint16_t donors[4], recipients[4];
    struct vadivuzhen_cycle records[3];
};

/* Document 01's k3, and 99 in all other entries. */
static struct lent k3(void)
{
    static const uint8_t m[4] = {0, 1, 1, 0};
    static const uint16_t w[4] = {0, 5, 7, 0}, order[2] = {0, 1};
    struct lent lent = {
        {99, 0, 0, 0, 0, 99}, {99, 0, 0, 0, 0, 99}, {99, 0, 0, 99}, {99, 99, 99}, {99, 99, 99},
        {99, 99, 99, 99}, {99, 99, 99, 99}, {{99, 99, 99}, {99, 99, 99}, {99, 99, 99}},
    };
    memcpy(lent.m + 1, m, sizeof m);
    memcpy(lent.w + 1, w, sizeof w);
    memcpy(lent.order + 1, order, sizeof order);
    return lent;
}

/* Plans n pairs with that floor; m and w are lent with that many entries, and the shuffle whole, or, where they have none, with none either. */
static struct vadivuzhen_plan_answer plan_of(struct lent *lent, size_t n, uint32_t floor, size_t entries)
{
    return vadivuzhen_plan(
        n, floor, lent->m + 1, entries, lent->w + 1, entries, lent->order + 1, entries == 0 ? 0 : 2,
        lent->weights + 1, 1, lent->choices + 1, 1, lent->donors + 1, 2, lent->recipients + 1, 2, lent->records + 1, 1);
}

/* Has every table each entry of the other's? The structs may have gaps, which nobody looks at. */
static int alike(const struct lent *one, const struct lent *other)
{
    return memcmp(one->m, other->m, sizeof one->m) == 0 && memcmp(one->w, other->w, sizeof one->w) == 0
        && memcmp(one->order, other->order, sizeof one->order) == 0 && memcmp(one->weights, other->weights, sizeof one->weights) == 0
        && memcmp(one->choices, other->choices, sizeof one->choices) == 0 && memcmp(one->donors, other->donors, sizeof one->donors) == 0
        && memcmp(one->recipients, other->recipients, sizeof one->recipients) == 0
        && memcmp(one->records, other->records, sizeof one->records) == 0;
}

/* Are n pairs of these tables with that floor refused by that number, with all memory as it was? */
static int plan_refused(struct lent lent, size_t n, uint32_t floor, size_t entries, uint32_t number)
{
    const struct lent before = lent;
    struct vadivuzhen_plan_answer plan = plan_of(&lent, n, floor, entries);
    return plan.refusal == number && plan.cycles == 0 && plan.weight == 0 && plan.comparisons == 0 && plan.products == 0 && plan.rounds == 0
        && alike(&lent, &before);
}

/* Are the two pairs of these tables planned with that floor, with a choice and partners, and nothing changed beside them? Their one subset has that weight,
 * which is the plan's where it is chosen. The tally is always the same. */
static int two_planned(struct lent lent, uint32_t floor, size_t entries, uint32_t weight, uint32_t choice)
{
    struct lent due = lent;
    struct vadivuzhen_plan_answer plan = plan_of(&lent, 2, floor, entries);
    const int chosen = choice == 0;
    due.weights[1] = weight;
    due.choices[1] = choice;
    due.donors[1] = due.recipients[1] = chosen ? 1 : 2;
    due.donors[2] = due.recipients[2] = chosen ? 0 : 2;
    if (chosen)
        due.records[1] = (struct vadivuzhen_cycle){0, 1, 2};
    return plan.refusal == VADIVUZHEN_FINISHED && plan.cycles == (chosen ? 1 : 0) && plan.weight == (chosen ? weight : 0)
        && plan.comparisons == 1 && plan.products == 6 && plan.rounds == 1 && alike(&lent, &due);
}

/* Planning with a floor: what is chosen is above it, and a floor too high is refused after too many pairs and before all else. */
static void floors(void)
{
    check(two_planned(k3(), 0, 4, 12, 0), "k3 with floor 0 is planned");
    check(two_planned(k3(), 11, 4, 12, 0), "and with floor 11");
    check(two_planned(k3(), 12, 4, 12, 1), "with floor 12 nothing is chosen, and the weight stays");
    check(two_planned(k3(), VADIVUZHEN_MOST_FLOOR, 4, 12, 1), "and with floor 200,000");

    check(plan_refused(k3(), 2, 200001, 4, VADIVUZHEN_FLOOR_TOO_HIGH), "floor 200,001 is refused, and all memory as it was");
    check(plan_refused(k3(), 2, UINT32_MAX, 4, VADIVUZHEN_FLOOR_TOO_HIGH), "and floor 4,294,967,295");
    check(plan_refused(k3(), 0, 200001, 4, VADIVUZHEN_FLOOR_TOO_HIGH), "and for no pairs");
    check(plan_refused(k3(), 2, 200001, 0, VADIVUZHEN_FLOOR_TOO_HIGH), "before tables too short");
    check(plan_refused(k3(), 2, 200000, 0, VADIVUZHEN_TOO_SHORT), "which are refused at 200,000");
    check(plan_refused(k3(), 201, 200001, 0, VADIVUZHEN_TOO_MANY_PAIRS), "and after too many pairs");
}

/* k3 with these entries of M and W in place of its own. */
static struct lent two_of(const uint8_t *m, const uint16_t *w)
{
    struct lent lent = k3();
    memcpy(lent.m + 1, m, 4 * sizeof *m);
    memcpy(lent.w + 1, w, 4 * sizeof *w);
    return lent;
}

/* An edge that weighs 0 is refused, after all else. */
static void weightless(void)
{
    static const uint8_t both[4] = {0, 1, 1, 0}, there[4] = {0, 1, 0, 0}, back[4] = {0, 0, 1, 0}, above[4] = {0, 1, 2, 0}, own[4] = {0, 1, 1, 1},
                         alone[4] = {0, 0, 0, 1};
    static const uint16_t none[4] = {0}, first[4] = {0, 5, 0, 0}, second[4] = {0, 0, 7, 0}, each[4] = {0, 5, 7, 0}, one[4] = {0, 1, 1, 0};
    struct lent k5 = two_of(both, none), same = k5;
    check(plan_refused(k5, 2, 0, 4, VADIVUZHEN_WEIGHTLESS_EDGE), "k5, of which both edges weigh 0, is refused, and all memory as it was");
    check(plan_refused(two_of(both, first), 2, 0, 4, VADIVUZHEN_WEIGHTLESS_EDGE) && plan_refused(two_of(both, second), 2, 0, 4, VADIVUZHEN_WEIGHTLESS_EDGE),
          "and one such edge is");
    check(plan_refused(two_of(there, second), 2, 0, 4, VADIVUZHEN_WEIGHTLESS_EDGE) && plan_refused(two_of(back, first), 2, 0, 4, VADIVUZHEN_WEIGHTLESS_EDGE),
          "also alone, in no exchange");
    check(plan_refused(k5, 2, 5, 4, VADIVUZHEN_WEIGHTLESS_EDGE) && plan_refused(k5, 2, 200000, 4, VADIVUZHEN_WEIGHTLESS_EDGE), "at every floor");

    check(plan_refused(k5, 201, 200001, 0, VADIVUZHEN_TOO_MANY_PAIRS), "after too many pairs");
    check(plan_refused(k5, 2, 200001, 4, VADIVUZHEN_FLOOR_TOO_HIGH), "and a floor too high");
    check(plan_refused(k5, 2, 0, 0, VADIVUZHEN_TOO_SHORT) && plan_refused(k5, 2, 0, 3, VADIVUZHEN_TOO_SHORT), "and tables too short");
    same.order[2] = 0;
    check(plan_refused(same, 2, 0, 4, VADIVUZHEN_NOT_A_SHUFFLE), "and 0 0 for a shuffle");
    check(plan_refused(two_of(above, second), 2, 0, 4, VADIVUZHEN_NOT_COMPATIBILITY), "and an entry of 2 that follows it");
    check(plan_refused(two_of(own, none), 2, 0, 4, VADIVUZHEN_NOT_COMPATIBILITY), "and a pair's own edge that follows it");
    check(plan_refused(two_of(alone, none), 2, 0, 4, VADIVUZHEN_NOT_COMPATIBILITY), "which is no weightless one, whatever it weighs");

    check(two_planned(two_of(there, first), 0, 4, 0, 1), "k4, with a weight of 0 where there is no edge, is planned, and nothing chosen");
    check(two_planned(two_of(both, one), 0, 4, 2, 0), "edges that weigh 1 are planned");
    check(two_planned(two_of(both, one), 5, 4, 2, 1), "and with floor 5, which is above them");
    struct lent past = k3();
    past.m[5] = 1;
    past.w[5] = 0;
    check(two_planned(past, 0, 5, 12, 0), "a fifth entry of M and W, past the two rows, is not looked at");
    for (size_t i = 0; i < 4; i++) {
        static const uint16_t weights[4] = {0, 1, 7, UINT16_MAX};
        struct lent lent = two_of(both, each), light = two_of(both, first), wrong = two_of(own, each);
        lent.w[1] = light.w[1] = wrong.w[1] = lent.w[4] = light.w[4] = wrong.w[4] = weights[i];
        check(two_planned(lent, 0, 4, 12, 0) && plan_refused(light, 2, 0, 4, VADIVUZHEN_WEIGHTLESS_EDGE)
                  && plan_refused(wrong, 2, 0, 4, VADIVUZHEN_NOT_COMPATIBILITY), "a pair's own weight plays no part in a plan or a refusal");
    }
}

/* The lightest points that 14 lets pass make edges of weight 1, which are planned. */
static void lightest(void)
{
    static const uint16_t least[VADIVUZHEN_POINTS] = {1};
    check(build_with(2, 2, least, VADIVUZHEN_POINTS) == VADIVUZHEN_FINISHED && built(1), "with a base of 1 and no steps edges weigh 1");
    check(two_planned(two_of(table_m + 1, table_w + 1), 0, 4, 2, 0), "and are planned");
}

/* 200 pairs, with all edges, and with an entry on either side of each table; the middle is lent. */
enum { ALL = VADIVUZHEN_MOST_PAIRS };

struct full {
    uint8_t m[1 + VADIVUZHEN_ENTRIES(ALL) + 1];
    uint16_t w[1 + VADIVUZHEN_ENTRIES(ALL) + 1], order[1 + ALL + 1];
    uint32_t weights[1 + VADIVUZHEN_SUBSETS(ALL) + 1], choices[1 + VADIVUZHEN_ROUNDS(ALL) + 1];
    uint16_t donors[1 + ALL + 1], recipients[1 + ALL + 1];
    struct vadivuzhen_cycle records[1 + VADIVUZHEN_RECORDS(ALL) + 1];
};

static struct full full, full_before;

/* Are 200 pairs refused by 17 where the edge from one to the other weighs 0, and all others 1, with all memory as it was? */
static int full_refused(size_t from, size_t to)
{
    memset(&full, 99, sizeof full);
    for (size_t i = 0; i < ALL; i++) {
        full.order[1 + i] = (uint16_t)(ALL - 1 - i);
        for (size_t j = 0; j < ALL; j++)
            full.m[1 + i * ALL + j] = i != j, full.w[1 + i * ALL + j] = i != from || j != to;
    }
    memcpy(&full_before, &full, sizeof full);
    struct vadivuzhen_plan_answer plan = vadivuzhen_plan(
        ALL, 0, full.m + 1, VADIVUZHEN_ENTRIES(ALL), full.w + 1, VADIVUZHEN_ENTRIES(ALL), full.order + 1, ALL, full.weights + 1, VADIVUZHEN_SUBSETS(ALL),
        full.choices + 1, VADIVUZHEN_ROUNDS(ALL), full.donors + 1, ALL, full.recipients + 1, ALL, full.records + 1, VADIVUZHEN_RECORDS(ALL));
    return plan.refusal == VADIVUZHEN_WEIGHTLESS_EDGE && plan.cycles == 0 && plan.weight == 0 && plan.comparisons == 0 && plan.products == 0
        && plan.rounds == 0 && memcmp(&full, &full_before, sizeof full) == 0;
}

static void weightless_of_many(void)
{
    check(full_refused(199, 198), "the last edge of 200 pairs, if it weighs 0, is refused");
    check(full_refused(0, 1), "and the first");
    check(full_refused(0, 199) && full_refused(199, 0), "and the last of the first row, and the first of the last");
    check(full_refused(100, 99), "and one in the middle");
}

/* A pool of at most ten pairs, and what planning leaves of it. */
enum { TEN = 10 };

struct small {
    size_t n;
    uint8_t m[TEN * TEN];
    uint16_t w[TEN * TEN];
    struct vadivuzhen_plan_answer plan;
    uint32_t choices[TEN / 2];
    struct vadivuzhen_cycle records[TEN / 2];
};

static void edge(struct small *pool, size_t from, size_t to, uint16_t weight)
{
    pool->m[from * pool->n + to] = 1;
    pool->w[from * pool->n + to] = weight;
}

static void both_ways(struct small *pool, size_t a, size_t b, uint16_t weight)
{
    edge(pool, a, b, weight);
    edge(pool, b, a, weight);
}

/* 0 gives to 1, 1 to 2 and 2 to 0. */
static void triple(struct small *pool, uint16_t weight)
{
    edge(pool, 0, 1, weight);
    edge(pool, 1, 2, weight);
    edge(pool, 2, 0, weight);
}

static void plan_small(struct small *pool, uint32_t floor)
{
    static const uint16_t order[TEN] = {0, 1, 2, 3, 4, 5, 6, 7, 8, 9};
    static uint32_t weights[VADIVUZHEN_SUBSETS(TEN)];
    uint16_t donors[TEN], recipients[TEN];
    pool->plan = vadivuzhen_plan(
        pool->n, floor, pool->m, TEN * TEN, pool->w, TEN * TEN, order, TEN, weights, VADIVUZHEN_SUBSETS(TEN), pool->choices, TEN / 2,
        donors, TEN, recipients, TEN, pool->records, TEN / 2);
}

/* What an exchange weighs by the lent tables; `third` is n for one of two. */
static uint64_t weight_of(const struct small *pool, size_t first, size_t second, size_t third)
{
    const size_t n = pool->n;
    if (third == n)
        return (uint64_t)pool->m[first * n + second] * pool->m[second * n + first] * (pool->w[first * n + second] + pool->w[second * n + first]);
    return (uint64_t)pool->m[first * n + second] * pool->m[second * n + third] * pool->m[third * n + first]
        * (pool->w[first * n + second] + pool->w[second * n + third] + pool->w[third * n + first]);
}

/* The sum of each planned exchange's weight times its number of pairs, over the records. */
static uint64_t credit(const struct small *pool)
{
    uint64_t sum = 0;
    for (size_t i = 0; i < pool->plan.cycles; i++) {
        const struct vadivuzhen_cycle *record = &pool->records[i];
        sum += (record->third == pool->n ? 2 : 3) * weight_of(pool, record->first, record->second, record->third);
    }
    return sum;
}

/* The weight of those exchanges of two that are above the floor, of `count` in which pair first + i is with pair other + i. */
static uint64_t swaps(const struct small *pool, uint32_t floor, size_t first, size_t other, size_t count)
{
    uint64_t sum = 0;
    for (size_t i = 0; i < count; i++) {
        uint64_t weight = weight_of(pool, first + i, other + i, pool->n);
        sum += weight > floor ? weight : 0;
    }
    return sum;
}

/* Was a plan made of that weight, with that sum, and do these rivals weigh just that? */
static int tight(const struct small *pool, uint64_t weight, uint64_t sum, uint64_t rivals)
{
    return pool->plan.refusal == VADIVUZHEN_FINISHED && pool->plan.weight == weight && credit(pool) == sum && rivals == sum;
}

/* Pools in which no limit for the rivals can be lower than the sum that credits the twos. */
static void credits(void)
{
    struct small six = {.n = 6}, four = {.n = 4}, ten = {.n = TEN};
    triple(&six, 2);
    for (size_t i = 0; i < 3; i++)
        both_ways(&six, i, i + 3, 3);
    plan_small(&six, 0);
    check(tight(&six, 6, 18, swaps(&six, 0, 0, 3, 3)), "a planned triple is credited three times: k8, 18 and 18");
    plan_small(&six, 5);
    check(tight(&six, 6, 18, swaps(&six, 5, 0, 3, 3)), "with floor 5 too");
    plan_small(&six, 6);
    check(tight(&six, 0, 0, swaps(&six, 6, 0, 3, 3)), "with floor 6 nothing is planned, and none of these rivals is above it");

    both_ways(&four, 0, 1, 5);
    both_ways(&four, 0, 2, 5);
    both_ways(&four, 1, 3, 5);
    plan_small(&four, 0);
    check(tight(&four, 10, 20, swaps(&four, 0, 0, 2, 2)), "a planned two is credited twice: 20 and 20, and three times the weight is 30");

    triple(&ten, 4);
    both_ways(&ten, 3, 4, 4);
    for (size_t i = 0; i < 5; i++)
        both_ways(&ten, i, i + 5, i < 3 ? 6 : 4);
    plan_small(&ten, 0);
    check(tight(&ten, 20, 52, swaps(&ten, 0, 0, 5, 5)), "both: 52 and 52, and three times the weight is 60");
    check(ten.choices[0] == 0 && ten.choices[1] == 144 && ten.choices[2] == 165 && ten.choices[3] == 165 && ten.choices[4] == 165, "their choices");
}

/* ---- A live pool ---- */

/* Room for one pair more than a live pool may have. */
#define ROOM (VADIVUZHEN_MOST_PAIRS + 1)

/* A live pool: its count and its tables, with an entry on either side of each; the middle is lent. */
struct live {
    size_t count[3];
    uint16_t points[1 + VADIVUZHEN_POINTS + 1];
    uint32_t ids[1 + ROOM + 1];
    uint8_t donor_blood[1 + ROOM + 1], patient_blood[1 + ROOM + 1], donor_age[1 + ROOM + 1], patient_age[1 + ROOM + 1];
    uint64_t donor_antigens[1 + ROOM + 1], patient_antigens[1 + ROOM + 1], patient_antibodies[1 + ROOM + 1];
    uint8_t m[1 + ROOM * ROOM + 1];
    uint16_t w[1 + ROOM * ROOM + 1];
    uint16_t suitable[1 + ROOM + 1];
};

/* The lengths that are lent: of the eight tables of the fields, in the order of the calls, of M, W, the stored numbers and the points. */
enum { FIELDS = 8, LENGTH_M = FIELDS, LENGTH_W, LENGTH_SUITABLE, LENGTH_POINTS, LENGTHS };
struct lengths {
    size_t of[LENGTHS];
};

/* The lengths that just hold n pairs. */
static struct lengths lengths_for(size_t n)
{
    struct lengths lengths;
    for (size_t i = 0; i < FIELDS; i++)
        lengths.of[i] = n;
    lengths.of[LENGTH_M] = lengths.of[LENGTH_W] = VADIVUZHEN_ENTRIES(n);
    lengths.of[LENGTH_SUITABLE] = n;
    lengths.of[LENGTH_POINTS] = VADIVUZHEN_POINTS;
    return lengths;
}

/* What the calls are made on, and what it is held to. */
static struct live live, due;

/* Puts a pair at an entry of the fields. */
static void put(struct live *pool, size_t at, struct vadivuzhen_pair pair)
{
    pool->ids[1 + at] = pair.id;
    pool->donor_blood[1 + at] = pair.donor_blood;
    pool->patient_blood[1 + at] = pair.patient_blood;
    pool->donor_age[1 + at] = pair.donor_age;
    pool->patient_age[1 + at] = pair.patient_age;
    pool->donor_antigens[1 + at] = pair.donor_antigens;
    pool->patient_antigens[1 + at] = pair.patient_antigens;
    pool->patient_antibodies[1 + at] = pair.patient_antibodies;
}

/* Puts 99 into all entries, those beside the lent ones too. */
static void blank(struct live *pool)
{
    for (size_t i = 0; i < 3; i++)
        pool->count[i] = 99;
    for (size_t i = 0; i < VADIVUZHEN_POINTS + 2; i++)
        pool->points[i] = 99;
    for (size_t i = 0; i < ROOM + 2; i++) {
        pool->ids[i] = 99;
        pool->donor_blood[i] = pool->patient_blood[i] = pool->donor_age[i] = pool->patient_age[i] = 99;
        pool->donor_antigens[i] = pool->patient_antigens[i] = pool->patient_antibodies[i] = 99;
        pool->suitable[i] = 99;
    }
    for (size_t i = 0; i < ROOM * ROOM + 2; i++)
        pool->m[i] = 99, pool->w[i] = 99;
}

/* Is the live pool as due, in every entry? */
static int as_due(void)
{
#define SAME(table) (memcmp(live.table, due.table, sizeof live.table) == 0)
    return SAME(count) && SAME(points) && SAME(ids) && SAME(donor_blood) && SAME(patient_blood) && SAME(donor_age) && SAME(patient_age)
        && SAME(donor_antigens) && SAME(patient_antigens) && SAME(patient_antibodies) && SAME(m) && SAME(w)
        && SAME(suitable);
#undef SAME
}

static struct vadivuzhen_points six(const uint16_t *with)
{
    return (struct vadivuzhen_points){with[0], with[1], with[2], with[3], with[4], with[5]};
}

/* Starts the live pool with points, in a table of that length. */
static uint32_t start(const uint16_t *with, size_t length)
{
    return vadivuzhen_start(six(with), live.points + 1, length, live.count + 1).refusal;
}

/* What registering and withdrawing are lent. */
#define LENT(lengths) \
    live.count + 1, live.points + 1, (lengths).of[LENGTH_POINTS], live.ids + 1, (lengths).of[0], live.donor_blood + 1, (lengths).of[1], \
        live.patient_blood + 1, (lengths).of[2], live.donor_age + 1, (lengths).of[3], live.patient_age + 1, (lengths).of[4], \
        live.donor_antigens + 1, (lengths).of[5], live.patient_antigens + 1, (lengths).of[6], live.patient_antibodies + 1, (lengths).of[7], \
        live.m + 1, (lengths).of[LENGTH_M], live.w + 1, (lengths).of[LENGTH_W], live.suitable + 1, (lengths).of[LENGTH_SUITABLE]

static uint32_t enter(struct lengths lengths, struct vadivuzhen_pair pair)
{
    return vadivuzhen_register(LENT(lengths), pair).refusal;
}

static uint32_t leave(struct lengths lengths, uint32_t id)
{
    return vadivuzhen_withdraw(LENT(lengths), id).refusal;
}

/* Stores for n patients the ones in the columns of M. */
static void count_donors(struct live *pool, size_t n)
{
    for (size_t j = 0; j < n; j++) {
        pool->suitable[1 + j] = 0;
        for (size_t i = 0; i < n; i++)
            pool->suitable[1 + j] += pool->m[1 + i * n + j] == 1;
    }
}

/* Puts n rows of n into M and W of what is due, what vadivuzhen_build gives for the first n of its pairs, and the ones in the columns of that M. */
static int due_built(size_t n)
{
    uint32_t refusal = vadivuzhen_build(
        2, n, due.points + 1, VADIVUZHEN_POINTS, due.ids + 1, n, due.donor_blood + 1, n, due.patient_blood + 1, n, due.donor_age + 1, n,
        due.patient_age + 1, n, due.donor_antigens + 1, n, due.patient_antigens + 1, n, due.patient_antibodies + 1, n,
        due.m + 1, VADIVUZHEN_ENTRIES(n), due.w + 1, VADIVUZHEN_ENTRIES(n)).refusal;
    count_donors(&due, n);
    return refusal == VADIVUZHEN_FINISHED;
}

/* The pool is due to have n pairs, the last of them this one, and these tables. */
static void due_with(size_t n, struct vadivuzhen_pair last, const uint8_t *m, const uint16_t *w, const uint16_t *suitable)
{
    due.count[1] = n;
    put(&due, n - 1, last);
    memcpy(due.m + 1, m, VADIVUZHEN_ENTRIES(n) * sizeof *m);
    memcpy(due.w + 1, w, VADIVUZHEN_ENTRIES(n) * sizeof *w);
    memcpy(due.suitable + 1, suitable, n * sizeof *suitable);
}

static void starts(void)
{
    static const uint16_t zero[VADIVUZHEN_POINTS] = {0, 400, 250, 100, 50, 30}, apart[VADIVUZHEN_POINTS] = {1, 2, 3, 4, 5, 6};
    blank(&live), blank(&due);
    check(start(zero, VADIVUZHEN_POINTS) == VADIVUZHEN_WRONG_POINTS && as_due(), "a live pool does not start with a base of 0, and its count is as it was");
    for (size_t i = 1; i < VADIVUZHEN_POINTS; i++) {
        uint16_t with[VADIVUZHEN_POINTS] = {2};
        with[i] = 65534;
        check(start(with, VADIVUZHEN_POINTS) == VADIVUZHEN_WRONG_POINTS && as_due(), "nor with a base of 2 beside any one step of 65,534");
    }
    check(start(zero, 5) == VADIVUZHEN_WRONG_POINTS && start(zero, 0) == VADIVUZHEN_WRONG_POINTS && as_due(), "that is told before a table too short");
    check(start(apart, 5) == VADIVUZHEN_TOO_SHORT && start(apart, 0) == VADIVUZHEN_TOO_SHORT && as_due(), "which is refused, also for no points at all");

    memcpy(due.points + 1, apart, sizeof apart);
    due.count[1] = 0;
    check(start(apart, VADIVUZHEN_POINTS) == VADIVUZHEN_FINISHED && as_due(), "it starts with six points in their order, and no pair");
    live.count[1] = SIZE_MAX;
    memcpy(due.points + 1, document, sizeof document);
    check(start(document, VADIVUZHEN_POINTS + 1) == VADIVUZHEN_FINISHED && as_due(), "and anew, whatever the count was, with nothing past six points");
    for (size_t i = 1; i < VADIVUZHEN_POINTS; i++) {
        uint16_t with[VADIVUZHEN_POINTS] = {1};
        with[i] = 65534;
        memcpy(due.points + 1, with, sizeof with);
        check(start(with, VADIVUZHEN_POINTS) == VADIVUZHEN_FINISHED && as_due(), "a base of 1 passes beside any one step of 65,534");
    }
}

/* Document 01's pairs and a third, O to O, with a senior donor and three of the donor's antigens. */
static const struct vadivuzhen_pair three[3] = {{11, 1, 2, 0, 0, 0, 0, 0}, {12, 2, 1, 0, 0, 0, 0, 0}, {13, 0, 0, 1, 0, 7, 0, 0}};

/* Registering three pairs, withdrawing one and registering it again. */
static void lives(void)
{
    static const uint8_t m[3][9] = {{0}, {0, 1, 1, 0}, {0, 1, 0, 1, 0, 0, 1, 1, 0}}, without[4] = {0, 0, 1, 0}, again[9] = {0, 0, 1, 1, 0, 1, 1, 0, 0};
    static const uint16_t w[3][9] = {{0}, {0, 1450, 1450, 0}, {0, 1450, 1450, 1450, 0, 1450, 1100, 1100, 0}}, w_without[4] = {0, 1450, 1100, 0},
                          w_again[9] = {0, 1450, 1450, 1100, 0, 1100, 1450, 1450, 0}, order[3] = {0, 1, 2};
    static const uint16_t suitable[3][3] = {{0}, {1, 1}, {2, 2, 0}}, suitable_without[2] = {1, 0}, suitable_again[3] = {2, 0, 2};
    struct lengths room = lengths_for(4), just = lengths_for(3);
    blank(&live), blank(&due);
    memcpy(due.points + 1, document, sizeof document);
    check(start(document, VADIVUZHEN_POINTS) == VADIVUZHEN_FINISHED, "a live pool with document 01's points");
    for (size_t n = 1; n <= 3; n++) {
        due_with(n, three[n - 1], m[n - 1], w[n - 1], suitable[n - 1]);
        check(enter(lengths_for(n), three[n - 1]) == VADIVUZHEN_FINISHED && as_due(),
              "a pair registers in tables that just hold it, and M, W and the numbers of suitable donors are as due");
    }
    check(enter(room, three[1]) == VADIVUZHEN_REPEATED_ID && as_due(), "an id in the pool does not register again");

    /* past the new entries of M and W, and at the last pair's former place, everything stays */
    due_with(2, three[2], without, w_without, suitable_without);
    check(leave(just, 12) == VADIVUZHEN_FINISHED && as_due(), "the pair in the middle withdraws, and past the new count's entries nothing changes");
    check(leave(room, 12) == VADIVUZHEN_UNKNOWN_ID && as_due(), "it does not withdraw again");
    due_with(3, three[1], again, w_again, suitable_again);
    check(enter(room, three[1]) == VADIVUZHEN_FINISHED && as_due(), "it registers again, after the others");
    check(due_built(3) && as_due(), "M and W are what is built from the pairs, with its numbers");

    uint32_t weights[VADIVUZHEN_SUBSETS(3)] = {0}, choices[VADIVUZHEN_ROUNDS(3)] = {0};
    uint16_t donors[3] = {0}, recipients[3] = {0};
    struct vadivuzhen_cycle records[VADIVUZHEN_RECORDS(3)] = {{0, 0, 0}};
    struct vadivuzhen_plan_answer plan = vadivuzhen_plan(
        live.count[1], 0, live.m + 1, VADIVUZHEN_ENTRIES(3), live.w + 1, VADIVUZHEN_ENTRIES(3), order, 3, weights, VADIVUZHEN_SUBSETS(3),
        choices, VADIVUZHEN_ROUNDS(3), donors, 3, recipients, 3, records, VADIVUZHEN_RECORDS(3));
    check(plan.refusal == VADIVUZHEN_FINISHED && plan.weight == 2900 && recipients[0] == 2 && recipients[1] == 3 && recipients[2] == 0, "and are planned");

    for (size_t n = 3; n > 0; n--) {
        due.count[1] = n - 1;
        memmove(due.ids + 1, due.ids + 2, (n - 1) * sizeof due.ids[0]);
        check(leave(lengths_for(n), live.ids[1]) == VADIVUZHEN_FINISHED && live.count[1] == n - 1 && memcmp(live.ids, due.ids, sizeof live.ids) == 0,
              "the first pair withdraws");
    }
    due = live;
    check(leave(lengths_for(0), 11) == VADIVUZHEN_UNKNOWN_ID && as_due(), "from a pool of no pairs none withdraws, in tables of no length");
    check(enter(lengths_for(0), three[0]) == VADIVUZHEN_TOO_SHORT && as_due(), "and there none registers");
}

/* A sound pair of an id of its own, with the other fields drawn from it. */
static struct vadivuzhen_pair sound(size_t i)
{
    const uint32_t drawn = (uint32_t)(i + 1) * 2654435761u;
    return (struct vadivuzhen_pair){
        (uint32_t)(1000 + i), (uint8_t)(drawn >> 30), (uint8_t)(drawn >> 28 & 3), (uint8_t)(drawn >> 27 & 1), (uint8_t)(drawn >> 26 & 1),
        drawn >> 18 & 0xFF, drawn >> 10 & 0xFF, drawn >> 7 & 7};
}

/* A pool with document 01's points and that many sound pairs; such pairs stand past the count, too. M and W hold what no pairs give: M ones here and there, a
 * pair's own among them, and other numbers beside them, W another number in every entry. The stored numbers are the ones in the columns. */
static void sound_pool(struct live *pool, size_t n)
{
    blank(pool);
    memcpy(pool->points + 1, document, sizeof document);
    for (size_t i = 0; i < ROOM; i++)
        put(pool, i, sound(i));
    for (size_t i = 0; i < ROOM * ROOM; i++) {
        pool->m[1 + i] = (uint32_t)(i + 1) * 2654435761u >> 31 ? 1 : (uint8_t)(i * 7);
        pool->w[1 + i] = (uint16_t)i;
    }
    pool->count[1] = n;
    count_donors(pool, n);
}

/* Without the pair at the gap the live pool of n sound pairs is due: the later ones have moved down, and of M and W, whatever they hold, one row and one column
 * are taken out. The numbers are those of what is left. */
static void due_without(size_t n, size_t gap)
{
    size_t to = 1;
    due = live;
    due.count[1] = n - 1;
    for (size_t i = gap; i + 1 < n; i++)
        put(&due, i, sound(i + 1));
    for (size_t i = 0; i < n; i++)
        for (size_t j = 0; j < n; j++)
            if (i != gap && j != gap)
                due.m[to] = live.m[1 + i * n + j], due.w[to] = live.w[1 + i * n + j], to++;
    count_donors(&due, n - 1);
}

/* Withdrawing from pools that no list of calls has left so. */
static void taken_out(void)
{
    for (size_t n = 1; n <= 5; n++) {
        int all = 1;
        for (size_t gap = 0; gap < n; gap++) {
            sound_pool(&live, n);
            due_without(n, gap);
            all = all && leave(lengths_for(n + gap % 2), live.ids[1 + gap]) == VADIVUZHEN_FINISHED && as_due();
        }
        check(all, "of any pair withdrawn one row and one column are taken out, the later pairs move down, and the numbers are of what is left");
    }

    sound_pool(&live, 4);
    live.ids[1 + 2] = live.ids[1 + 1];
    live.donor_blood[1 + 1] = 4;
    live.patient_age[1 + 3] = 2;
    due_without(4, 1);
    due.ids[1 + 1] = live.ids[1 + 1];
    due.patient_age[1 + 2] = 2;
    check(leave(lengths_for(4), live.ids[1 + 1]) == VADIVUZHEN_FINISHED && as_due(), "of two with an id the first withdraws, and a pair out of range can");
}

/* The live pool has three pairs, and M and the numbers as a caller has put them in: an entry above 1 is not a one, and a pair's own counts. */
static void put_by_hand(void)
{
    static const uint8_t m[9] = {0, 1, 5, 1, 1, 2, 0, 1, 1};
    static const uint16_t suitable[3] = {1, 3, 1};
    sound_pool(&live, 3);
    memcpy(live.m + 1, m, sizeof m);
    memcpy(live.suitable + 1, suitable, sizeof suitable);
}

/* Where a caller has changed M and the numbers alike, neither call refuses 10. */
static void by_hand(void)
{
    static const uint8_t m[4] = {0, 5, 0, 1};
    static const uint16_t suitable[2] = {0, 1};
    put_by_hand();
    due_without(3, 1);
    memcpy(due.m + 1, m, sizeof m);
    memcpy(due.suitable + 1, suitable, sizeof suitable);
    check(leave(lengths_for(3), live.ids[1 + 1]) == VADIVUZHEN_FINISHED && as_due(), "from tables put in by hand the middle pair withdraws, and 0 1 is left");

    put_by_hand();
    due = live;
    due.count[1] = 4;
    put(&due, 3, sound(3));
    check(due_built(4) && enter(lengths_for(4), sound(3)) == VADIVUZHEN_FINISHED && as_due(), "or a pair registers, and M is built and counted anew");
}

/* The faults of a live pool: those of registering in their order, and of withdrawing the first four and the last. */
enum fault { ABOVE, SHORT, POINTS, NUMBER, RANGE, TWICE, FULL, NO_ROOM, UNKNOWN, FAULTS };
static const uint32_t number_of[FAULTS] = {
    VADIVUZHEN_TOO_MANY_PAIRS, VADIVUZHEN_TOO_SHORT, VADIVUZHEN_WRONG_POINTS, VADIVUZHEN_NOT_COMPATIBILITY, VADIVUZHEN_OUT_OF_RANGE,
    VADIVUZHEN_REPEATED_ID, VADIVUZHEN_TOO_MANY_TOGETHER, VADIVUZHEN_TOO_SHORT, VADIVUZHEN_UNKNOWN_ID,
};
static const char *const name_of[FAULTS] = {
    "a count above 200", "a table too short", "wrong points", "a wrong number", "a pair out of range", "an id twice", "200 pairs", "no room for one more",
    "an unknown id",
};
/* How many ways there are to have each: a count; a table; a base or a sum; the number of the first patient, a middle one or the last, one too low or too high;
 * one of four fields of the first pair, the last or the new one; two ids. */
static const size_t ways[FAULTS] = {2, LENGTHS, 2, 6, 12, 3, 1, LENGTH_POINTS, 1};

/* What a call is made with, besides the live pool. */
struct call {
    struct lengths lengths;
    struct vadivuzhen_pair pair;
    uint32_t id;
};

/* A call without a fault, on a pool of that count. */
static struct call call_on(size_t count)
{
    sound_pool(&live, count);
    return (struct call){lengths_for(ROOM), sound(ROOM), live.ids[1 + 1]};
}

/* Gives a call, and the live pool, a fault. The pool has n pairs in its tables. */
static void spoil(struct call *call, size_t n, enum fault fault, size_t way)
{
    static const uint16_t wrong[2][VADIVUZHEN_POINTS] = {{0, 400, 250, 100, 50, 30}, {30001, 1, 20000, 2, 3, 15535}};
    uint8_t *const first[4] = {live.donor_blood + 1, live.patient_blood + 1, live.donor_age + 1, live.patient_age + 1};
    uint8_t *const new[4] = {&call->pair.donor_blood, &call->pair.patient_blood, &call->pair.donor_age, &call->pair.patient_age};
    switch (fault) {
    case ABOVE:
        live.count[1] = way == 0 ? ROOM : SIZE_MAX;
        break;
    case SHORT:
        call->lengths.of[way] = lengths_for(n).of[way] - 1;
        break;
    case POINTS:
        memcpy(live.points + 1, wrong[way], sizeof wrong[way]);
        break;
    case NUMBER:
        live.suitable[1 + way / 2 * (n - 1) / 2] += way % 2 == 0 ? -1 : 1;
        break;
    case RANGE:
        *(way < 4 ? first[way % 4] : way < 8 ? first[way % 4] + n - 1 : new[way % 4]) = way % 4 < 2 ? 4 : 2;
        break;
    case TWICE:
        *(way == 0 ? live.ids + n : &call->pair.id) = way == 1 ? live.ids[n] : live.ids[1];
        break;
    case NO_ROOM:
        call->lengths.of[way] = lengths_for(n + 1).of[way] - 1;
        break;
    case UNKNOWN:
        call->id = sound(ROOM).id;
        break;
    default: /* FULL is a count, and so of the pool from the start */
        break;
    }
}

/* Is a call with both faults, had in any way, refused by the number of the first, with everything as it was? The two may be the same. */
static int refused_first(enum fault one, enum fault other, int registers)
{
    for (size_t way = 0; way < ways[one]; way++)
        for (size_t other_way = 0; other_way < ways[other]; other_way++) {
            size_t n = one == ABOVE || one == FULL || other == FULL ? VADIVUZHEN_MOST_PAIRS : 3;
            struct call call = call_on(n);
            spoil(&call, n, other, one == other ? way : other_way);
            spoil(&call, n, one, way);
            due = live;
            uint32_t number = registers ? enter(call.lengths, call.pair) : leave(call.lengths, call.id);
            if (number != number_of[one] || !as_due())
                return 0;
        }
    return 1;
}

/* Each fault alone, and any two: the first in the order is told. */
static void live_faults(void)
{
    char what[120];
    for (int registers = 0; registers < 2; registers++)
        for (enum fault one = ABOVE; one < FAULTS; one++)
            for (enum fault other = one; other < FAULTS; other++) {
                int ones = one <= NUMBER || (one == UNKNOWN) != registers, others = other <= NUMBER || (other == UNKNOWN) != registers;
                if (!ones || !others)
                    continue;
                snprintf(what, sizeof what, "%s: %s%s%s is refused as due", registers ? "registering" : "withdrawing", name_of[one],
                         one == other ? "" : ", before ", one == other ? "" : name_of[other]);
                check(refused_first(one, other, registers), what);
            }

    /* without a fault, on the same tables */
    struct call call = call_on(3);
    due = live;
    due.count[1] = 4;
    put(&due, 3, call.pair);
    check(due_built(4) && enter(lengths_for(4), call.pair) == VADIVUZHEN_FINISHED && as_due(), "and without a fault a pair registers, whatever M and W held");
    call = call_on(3);
    due_without(3, 1);
    check(leave(lengths_for(3), call.id) == VADIVUZHEN_FINISHED && as_due(), "or withdraws");
}

/* 200 pairs, and one more. */
static void two_hundred(void)
{
    struct lengths just = lengths_for(VADIVUZHEN_MOST_PAIRS);
    int all = 1;
    blank(&live);
    check(start(registry, VADIVUZHEN_POINTS) == VADIVUZHEN_FINISHED, "a live pool with other points");
    for (size_t i = 0; i < VADIVUZHEN_MOST_PAIRS; i++)
        all = all && enter(just, sound(i)) == VADIVUZHEN_FINISHED && live.count[1] == i + 1;
    due = live;
    check(all && due_built(VADIVUZHEN_MOST_PAIRS) && as_due(), "200 pairs register, and M and W are what is built from them, with its numbers");
    check(enter(just, sound(200)) == VADIVUZHEN_TOO_MANY_TOGETHER && as_due(), "one more does not");
    check(enter(lengths_for(ROOM), sound(200)) == VADIVUZHEN_TOO_MANY_TOGETHER && as_due(), "nor where the tables have room for it");
    check(enter(just, sound(199)) == VADIVUZHEN_REPEATED_ID && as_due(), "and an id in the pool is told before");

    check(leave(just, sound(77).id) == VADIVUZHEN_FINISHED && live.count[1] == 199, "one withdraws");
    due = live;
    check(due_built(199) && as_due(), "and M, W and the numbers are what is built from those that are left, with the old entries past them");
    check(enter(just, sound(200)) == VADIVUZHEN_FINISHED && live.count[1] == 200 && live.ids[200] == sound(200).id, "then one more registers");
    due = live;
    check(due_built(VADIVUZHEN_MOST_PAIRS) && as_due() && live.ids[1 + 77] == sound(78).id, "at the end");
}

/* The longest texts, in buffers of the lengths that suffice. */
static void texts(void)
{
    static const char due[] = "REFUSED 4294967295 18446744073709551615\n";
    uint8_t refusal[VADIVUZHEN_REFUSAL_TEXT], plan[VADIVUZHEN_PLAN_TEXT(1)];
    struct vadivuzhen_print_answer printed = vadivuzhen_print_refusal(UINT32_MAX, SIZE_MAX, refusal, sizeof refusal);
    check(printed.refusal == VADIVUZHEN_FINISHED && printed.length == sizeof due - 1 && memcmp(refusal, due, sizeof due - 1) == 0, "the longest refusal");
    printed = vadivuzhen_print_refusal(UINT32_MAX, SIZE_MAX, refusal, sizeof due - 2);
    check(printed.refusal == VADIVUZHEN_TOO_SHORT && printed.length == 0, "one byte less is refused");

    static const uint32_t greatest[1] = {UINT32_MAX};
    static const uint16_t self[1] = {0};
    printed = vadivuzhen_print_plan(1, SIZE_MAX, UINT64_MAX, greatest, 1, self, 1, self, 1, UINT64_MAX, UINT64_MAX, UINT64_MAX, plan, sizeof plan);
    check(printed.refusal == VADIVUZHEN_FINISHED && memcmp(plan, "PLAN 1 18446744073709551615 18446744073709551615\n4294967295 4294967295 4294967295\n", 82) == 0,
          "the longest plan of one pair");
}

static void numbers(void)
{
    check(VADIVUZHEN_CUT_OFF == 1 && VADIVUZHEN_WRONG_FIELD == 2 && VADIVUZHEN_WRONG_VERSION == 3 && VADIVUZHEN_TOO_MANY_PAIRS == 4
              && VADIVUZHEN_LEFT_OVER == 5 && VADIVUZHEN_OUT_OF_RANGE == 6 && VADIVUZHEN_REPEATED_ID == 7 && VADIVUZHEN_NOT_A_SHUFFLE == 8
              && VADIVUZHEN_TOO_SHORT == 9 && VADIVUZHEN_NOT_COMPATIBILITY == 10 && VADIVUZHEN_SHARED_ID == 11
              && VADIVUZHEN_TOO_MANY_TOGETHER == 12 && VADIVUZHEN_FLOOR_TOO_HIGH == 13 && VADIVUZHEN_WRONG_POINTS == 14
              && VADIVUZHEN_DIFFERENT_POINTS == 15 && VADIVUZHEN_UNKNOWN_ID == 16 && VADIVUZHEN_WEIGHTLESS_EDGE == 17,
          "the refusals' numbers");
    check(VADIVUZHEN_MOST_PAIRS == 200 && VADIVUZHEN_MOST_FLOOR == 200000 && VADIVUZHEN_POINTS == 6, "the limits");
    check(sizeof(struct vadivuzhen_cycle) == 6, "a record is three numbers of 16 bits");
    check(sizeof(struct vadivuzhen_points) == 12 && sizeof(struct vadivuzhen_pair) == 32, "six points and a pair have no gaps");
}

int main(void)
{
    there_and_back();
    versions();
    joins();
    joins_refused();
    joins_by_points();
    a_record();
    floors();
    weightless();
    lightest();
    weightless_of_many();
    credits();
    starts();
    lives();
    taken_out();
    by_hand();
    live_faults();
    two_hundred();
    texts();
    numbers();
    return 0;
}
