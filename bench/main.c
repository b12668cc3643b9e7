/* Times the float program, our trial and our host call in one process.
     bench              a million of each: nanoseconds, ratio to the float program
     bench KIND COUNT   only that kind, for counting instructions
   KIND is float, trial, host, dark, list or small. All take the same ten spectra in turn, a tenth of
   the count for each. */

#include <math.h>
#include <stdio.h>
#include <stdlib.h>
#include <string.h>
#include <time.h>

#include "float.h"
#include "shade.h"
#include "tables.h" /* made by bench/run: ILLUMINANT of light 2, and COLUMNS */

uint32_t probe_trials(uint32_t light, const uint16_t *standard, size_t standard_len,
                      const uint16_t *trial, size_t trial_len, uint32_t amount, uint32_t count);

uint64_t probe_run(const uint32_t *records, size_t records_len, const uint32_t *tables,
                   size_t tables_len, const uint16_t *spectra, size_t spectra_len,
                   const uint8_t *books, size_t books_len, uint32_t *buffer, size_t buffer_len);

enum { SPECTRA = 10, AMOUNT = 30000, MARGIN = 12, MILLION = 1000000 };

/* A call's record and an answer's, in words, and what of them is used here. */
enum { CALL = 10, ANSWER = 32, OPEN_TABLES = 1, OPEN_LIGHT, STANDARD, TOLERANCE_LAB, TRIAL = 6,
       TRIED = 2, VERDICT = 16, PASS = 0 };

static uint16_t standard[ROWS], spectra[SPECTRA][ROWS];
static struct float_conditions conditions;
static struct float_colour standard_colour;

/* A broad band on a ground; the trials are darker or brighter than the standard. */
static void prepare(void)
{
    for (int row = 0; row < ROWS; row++) {
        double band = exp(-(row - 45.0) * (row - 45.0) / 400);
        standard[row] = (uint16_t)(900 + 5200 * band);
        for (int k = 0; k < SPECTRA; k++)
            spectra[k][row] = (uint16_t)(500 + 90 * k + (3000 + 480 * k) * band);
    }
    float_prepare(&conditions, ILLUMINANT, COLUMNS);
    float_colour(&standard_colour, &conditions, standard);
}

static void must(int holds, const char *what)
{
    if (!holds) {
        fprintf(stderr, "bench: %s\n", what);
        exit(1);
    }
}

static int passes(double e)
{
    return e * 10000 + MARGIN <= AMOUNT;
}

/* Each takes one spectrum a number of times, and answers how often it passed or a sum of what was
   answered, so that no turn can be left out. Where a call is one turn, one reading changes. */

static uint32_t run_float(int k, uint32_t turns)
{
    uint32_t passed = 0;
    struct float_colour colour;
    uint16_t readings[ROWS];
    memcpy(readings, spectra[k], sizeof readings);
    for (uint32_t turn = 0; turn < turns; turn++) {
        readings[turn % ROWS] ^= 1;
        passed += passes(float_trial(&colour, &conditions, &standard_colour, readings));
    }
    return passed;
}

static uint32_t run_trial(int k, uint32_t turns)
{
    return probe_trials(SHADE_LIGHT_D65, standard, ROWS, spectra[k], ROWS, AMOUNT, turns);
}

/* Readings of a hundredth: every step and L are on the straight piece of f. */
static uint32_t run_dark(int k, uint32_t turns)
{
    uint16_t dark[ROWS];
    for (int row = 0; row < ROWS; row++)
        dark[row] = spectra[k][row] / 100;
    return probe_trials(SHADE_LIGHT_D65, standard, ROWS, dark, ROWS, AMOUNT, turns);
}

/* The same trials as a list of calls, opened by the first record. */
static uint32_t run_list(int k, uint32_t turns, const uint32_t *opening, const uint32_t *tables,
                         size_t tables_len)
{
    size_t calls = turns + 3;
    uint32_t *records = calloc(calls, CALL * sizeof *records);
    uint32_t *answers = calloc(calls, ANSWER * sizeof *answers);
    uint16_t both[2 * ROWS];
    uint32_t passed = 0;
    must(records && answers, "no memory");
    memcpy(both, standard, sizeof standard);
    memcpy(both + ROWS, spectra[k], sizeof standard);
    memcpy(records, opening, CALL * sizeof *records);
    memcpy(records + CALL, (uint32_t[]){STANDARD, 0, ROWS}, 3 * sizeof *records);
    memcpy(records + 2 * CALL, (uint32_t[]){TOLERANCE_LAB, AMOUNT}, 2 * sizeof *records);
    for (uint32_t turn = 0; turn < turns; turn++)
        memcpy(records + (turn + 3) * CALL, (uint32_t[]){TRIAL, ROWS, ROWS, 1},
               4 * sizeof *records);
    must(probe_run(records, calls * CALL, tables, tables_len, both, 2 * ROWS, (const uint8_t *)"", 0, answers,
                   calls * ANSWER) == calls, "a list was refused");
    for (uint32_t turn = 0; turn < turns; turn++) {
        const uint32_t *answer = answers + (turn + 3) * ANSWER;
        must(answer[0] == TRIED, "a trial of a list was refused");
        passed += answer[VERDICT] == PASS;
    }
    free(records);
    free(answers);
    return passed;
}

static uint32_t run_light(int k, uint32_t turns)
{
    return run_list(k, turns, (uint32_t[CALL]){OPEN_LIGHT, SHADE_LIGHT_D65, 5}, NULL, 0);
}

/* Under tables of ones: the sums are so small that no quotient of cut numbers is shown right. */
static uint32_t run_small(int k, uint32_t turns)
{
    uint32_t ones[ROWS];
    for (int row = 0; row < ROWS; row++)
        ones[row] = 1;
    return run_list(k, turns, (uint32_t[CALL]){OPEN_TABLES, 0, ROWS, 0, ROWS, 0, ROWS, 0, ROWS, 5},
                    ones, ROWS);
}

static void as_bytes(uint8_t *bytes, const uint16_t *readings)
{
    for (int row = 0; row < ROWS; row++) {
        bytes[2 * row] = (uint8_t)(readings[row] & 255);
        bytes[2 * row + 1] = (uint8_t)(readings[row] >> 8);
    }
}

static void call_host(const uint8_t *bytes, uint8_t *out)
{
    must(shade_colour(SHADE_LIGHT_D65, bytes, SHADE_SPECTRUM_LEN, out, SHADE_ANSWER_LEN) == 0,
         "a host call was refused");
}

static uint32_t run_host(int k, uint32_t turns)
{
    uint32_t sum = 0;
    uint8_t bytes[SHADE_SPECTRUM_LEN], out[SHADE_ANSWER_LEN];
    as_bytes(bytes, spectra[k]);
    for (uint32_t turn = 0; turn < turns; turn++) {
        bytes[2 * (turn % ROWS)] ^= 1;
        call_host(bytes, out);
        sum += out[0] + out[4];
    }
    return sum;
}

static double signed_at(const uint8_t *at)
{
    uint32_t bits = at[0] | at[1] << 8 | at[2] << 16 | (uint32_t)at[3] << 24;
    return (double)(int32_t)bits;
}

/* The float program and ours do the same work: L, a, b, u, v agree to 0.02, and the verdicts. */
static void compare(void)
{
    for (int k = 0; k < SPECTRA; k++) {
        struct float_colour c;
        uint8_t bytes[SHADE_SPECTRUM_LEN], out[SHADE_ANSWER_LEN];
        double e = float_trial(&c, &conditions, &standard_colour, spectra[k]);
        double values[5] = {c.L, c.a, c.b, c.u, c.v};
        as_bytes(bytes, spectra[k]);
        call_host(bytes, out);
        for (int at = 0; at < 5; at++)
            must(fabs(values[at] - signed_at(out + 4 * at) / 10000) < 0.02, "colours differ");
        must(run_trial(k, 7) == (passes(e) ? 7u : 0u), "verdicts differ");
        must(run_light(k, 7) == (passes(e) ? 7u : 0u), "verdicts of a list differ");
    }
}

/* Of this process alone, without what else runs. */
static double seconds(void)
{
    struct timespec now;
    clock_gettime(CLOCK_PROCESS_CPUTIME_ID, &now);
    return (double)now.tv_sec + (double)now.tv_nsec / 1e9;
}

/* The first three are timed. */
enum { TIMED = 3, KINDS = 6 };

static const struct {
    const char *name, *says;
    uint32_t (*run)(int k, uint32_t turns);
} kinds[KINDS] = {{"float", "float trial", run_float},
                  {"trial", "our trial", run_trial},
                  {"host", "our host call", run_host},
                  {"dark", "our trial of a dark spectrum", run_dark},
                  {"list", "our trial in a list", run_light},
                  {"small", "our trial under tables of ones", run_small}};

static void count_one(const char *name, uint32_t count)
{
    for (int kind = 0; kind < KINDS; kind++)
        for (int k = 0; k < SPECTRA && strcmp(name, kinds[kind].name) == 0; k++)
            printf("%u\n", kinds[kind].run(k, count / SPECTRA));
}

/* The three take turns, so that a slow stretch of the machine falls on all. */
static void time_all(void)
{
    double spent[TIMED] = {0};
    for (int k = 0; k < SPECTRA; k++)
        for (int kind = 0; kind < TIMED; kind++) {
            double start = seconds();
            volatile uint32_t sum = kinds[kind].run(k, MILLION / SPECTRA);
            (void)sum;
            spent[kind] += seconds() - start;
        }
    for (int kind = 0; kind < TIMED; kind++)
        printf("%-14s %8.0f ns each %7.2f times the float trial\n", kinds[kind].says,
               spent[kind] * 1e9 / MILLION, spent[kind] / spent[0]);
}

int main(int words, char **word)
{
    prepare();
    compare();
    if (words == 3)
        count_one(word[1], (uint32_t)atoi(word[2]));
    else
        time_all();
    return 0;
}
