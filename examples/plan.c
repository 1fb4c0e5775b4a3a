/* Plans a pool sheet, from the named file or standard input, and prints the plan, or REFUSED with the refusal's number and place.
 * Exit status: 0 where a plan is printed, 1 where the sheet is refused, 2 where it can't be read or the text can't be written.
 *
 * In the repository's folder:
 *   (cd crates/vadivuzhen && rt lib)
 *   gcc -std=c11 -Wall -Wextra -Werror -pedantic -Iinclude examples/plan.c crates/vadivuzhen/out/libvadivuzhen.a -o crates/vadivuzhen/out/plan-c
 *   crates/vadivuzhen/out/plan-c examples/two.sheet */
#include <stdio.h>

#include "vadivuzhen.h"

#define PAIRS VADIVUZHEN_MOST_PAIRS

/* The floor that the program `plan` uses: any exchange may be planned that can be carried out. */
#define FLOOR 0

/* One byte more than the longest sheet, so that a longer one is seen to be too long. */
static uint8_t sheet[VADIVUZHEN_SHEET_2(PAIRS) + 1];

/* The points of a sheet of version 2. With version 1 they are lent as well, and nobody looks at them. */
static uint16_t points[VADIVUZHEN_POINTS];
static uint32_t ids[PAIRS];
static uint8_t donor_blood[PAIRS], patient_blood[PAIRS], donor_age[PAIRS], patient_age[PAIRS];
static uint64_t donor_antigens[PAIRS], patient_antigens[PAIRS], patient_antibodies[PAIRS];
static uint16_t shuffle[PAIRS];

static uint8_t m[VADIVUZHEN_ENTRIES(PAIRS)];
static uint16_t w[VADIVUZHEN_ENTRIES(PAIRS)];

static uint32_t weights[VADIVUZHEN_SUBSETS(PAIRS)];
static uint32_t choices[VADIVUZHEN_ROUNDS(PAIRS)];
static uint16_t donors[PAIRS], recipients[PAIRS];
static struct vadivuzhen_cycle records[VADIVUZHEN_RECORDS(PAIRS)];

static uint8_t text[VADIVUZHEN_PLAN_TEXT(PAIRS)];

/* The length of a table, in elements. */
#define LENGTH(table) (sizeof(table) / sizeof(table)[0])

/* Writes the text that was printed; gives the exit status. */
static int show(struct vadivuzhen_print_answer printed, int status)
{
    if (printed.refusal != VADIVUZHEN_FINISHED) {
        fprintf(stderr, "plan: the text is too long\n");
        return 2;
    }
    if (fwrite(text, 1, printed.length, stdout) != printed.length || fflush(stdout) != 0) {
        perror("plan");
        return 2;
    }
    return status;
}

static int refused(uint32_t number, size_t place)
{
    return show(vadivuzhen_print_refusal(number, place, text, LENGTH(text)), 1);
}

static int plan(size_t length)
{
    struct vadivuzhen_read_answer pool = vadivuzhen_read(
        sheet, length,
        points, LENGTH(points),
        ids, LENGTH(ids),
        donor_blood, LENGTH(donor_blood), patient_blood, LENGTH(patient_blood),
        donor_age, LENGTH(donor_age), patient_age, LENGTH(patient_age),
        donor_antigens, LENGTH(donor_antigens), patient_antigens, LENGTH(patient_antigens),
        patient_antibodies, LENGTH(patient_antibodies),
        shuffle, LENGTH(shuffle));
    if (pool.refusal != VADIVUZHEN_FINISHED)
        return refused(pool.refusal, pool.place);

    struct vadivuzhen_build_answer built = vadivuzhen_build(
        pool.version, pool.pairs,
        points, LENGTH(points),
        ids, LENGTH(ids),
        donor_blood, LENGTH(donor_blood), patient_blood, LENGTH(patient_blood),
        donor_age, LENGTH(donor_age), patient_age, LENGTH(patient_age),
        donor_antigens, LENGTH(donor_antigens), patient_antigens, LENGTH(patient_antigens),
        patient_antibodies, LENGTH(patient_antibodies),
        m, LENGTH(m), w, LENGTH(w));
    if (built.refusal != VADIVUZHEN_FINISHED)
        return refused(built.refusal, 0);

    struct vadivuzhen_plan_answer made = vadivuzhen_plan(
        pool.pairs, FLOOR, m, LENGTH(m), w, LENGTH(w), shuffle, LENGTH(shuffle),
        weights, LENGTH(weights), choices, LENGTH(choices),
        donors, LENGTH(donors), recipients, LENGTH(recipients), records, LENGTH(records));
    if (made.refusal != VADIVUZHEN_FINISHED)
        return refused(made.refusal, 0);

    return show(vadivuzhen_print_plan(
        pool.pairs, made.cycles, made.weight,
        ids, LENGTH(ids), donors, LENGTH(donors), recipients, LENGTH(recipients),
        made.comparisons, made.products, made.rounds,
        text, LENGTH(text)), 0);
}

int main(int count, char **words)
{
    FILE *file = count > 1 ? fopen(words[1], "rb") : stdin;
    if (file == NULL) {
        perror(words[1]);
        return 2;
    }
    size_t length = fread(sheet, 1, LENGTH(sheet), file);
    if (ferror(file)) {
        perror("plan");
        return 2;
    }
    return plan(length);
}
