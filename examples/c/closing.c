/*
 * Closes a pair of arrival curves and shows how a refusal is told; opens a generator on curves as they are written, which is refused, and
 * on their closure, and judges what it sends, with margins; then a start that keeps its curves as they are written, and is lost; and tries
 * two bursts before either is sent. After that a pair without ceilings; last, a long stream in pieces.
 *
 *     gcc -std=c99 -Iinclude examples/c/closing.c target/staticlib/libexports.a -o target/closing
 */
#include <stdio.h>

#include "calgedze.h"

/* No list of this program has more entries, but for the long stream's. */
#define LONGEST 10

#define PIECES 1000
#define PIECE_TICKS 1000

/* Two curves, the mark that says that there are no ceilings, and the number of windows. */
typedef struct pair {
    uint32_t upper[5], lower[5], unlimited;
    size_t horizon;
} pair;

static void print_list(const char *name, const uint32_t *list, size_t length)
{
    printf("%-9s", name);
    for (size_t i = 0; i < length; i++)
        printf(" %lu", (unsigned long)list[i]);
    printf("\n");
}

static void print_pair(const pair *curves)
{
    if (curves->unlimited)
        printf("no ceilings\n");
    else
        print_list("upper", curves->upper, curves->horizon);
    print_list("lower", curves->lower, curves->horizon);
}

static void print_refusal(uint32_t number)
{
    printf("refused with %lu: %s\n", (unsigned long)number, calgedze_refusal_text(number));
}

/* Closes a pair and prints what comes of it. Gives back 1 where there is a closure. */
static int close_and_print(const pair *curves, pair *closed)
{
    size_t horizon = curves->horizon;
    calgedze_answer answer = calgedze_close(curves->upper, horizon, curves->lower, horizon, curves->unlimited, closed->upper, horizon,
                                            closed->lower, horizon);

    print_pair(curves);
    if (CALGEDZE_REFUSAL(answer) != 0) {
        print_refusal(CALGEDZE_REFUSAL(answer));
        printf("\n");
        return 0;
    }
    closed->unlimited = CALGEDZE_UNLIMITED(answer);
    closed->horizon = horizon;
    printf("closed, rounds that changed a figure: %lu\n", (unsigned long)CALGEDZE_VALUE(answer));
    print_pair(closed);
    printf("\n");
    return 1;
}

static void print_verdict(uint32_t verdict)
{
    unsigned long window = calgedze_verdict_window(verdict);

    switch (calgedze_verdict_kind(verdict)) {
    case CALGEDZE_PASSED:
        printf(" passed");
        break;
    case CALGEDZE_TOO_MANY:
        printf(" too-many-in-%lu", window);
        break;
    case CALGEDZE_TOO_FEW:
        printf(" too-few-in-%lu", window);
        break;
    case CALGEDZE_LOST:
        printf(" lost");
        break;
    default:
        printf(" already-failed");
    }
}

static uint32_t open_monitor(const pair *curves, calgedze_monitor *monitor)
{
    return calgedze_monitor_open(curves->upper, curves->horizon, curves->lower, curves->horizon, curves->unlimited,
                                 CALGEDZE_STATE(monitor));
}

static uint32_t open_generator(const pair *curves, calgedze_generator *generator)
{
    return calgedze_generator_open(curves->upper, curves->horizon, curves->lower, curves->horizon, curves->unlimited,
                                   CALGEDZE_STATE(generator));
}

/* Opens a monitor and prints what it says of the counts, up to ten. */
static void judge_and_print(const pair *curves, const uint32_t *counts, size_t length)
{
    calgedze_monitor monitor;
    uint32_t verdicts[LONGEST], refusal = open_monitor(curves, &monitor);
    int64_t margins[LONGEST];

    print_list("counts", counts, length);
    if (refusal != 0) {
        print_refusal(refusal);
        return;
    }
    calgedze_monitor_run(CALGEDZE_STATE(&monitor), counts, length, verdicts, length, margins, length);
    printf("verdicts ");
    for (size_t i = 0; i < length; i++)
        print_verdict(verdicts[i]);
    printf("\nmargins  ");
    for (size_t i = 0; i < length; i++)
        printf(" %lld", (long long)margins[i]);
    printf("\n");
}

/* Prints what a monitor would say to a burst. The monitor stays as it is. */
static void try_and_print(const calgedze_monitor *monitor, const uint32_t *burst, size_t length)
{
    uint32_t verdict;
    int64_t passing = calgedze_monitor_preview(CALGEDZE_STATE(monitor), burst, length, &verdict);

    print_list("tried", burst, length);
    if (passing < 0) {
        print_refusal((uint32_t)-passing);
        return;
    }
    if (verdict == CALGEDZE_PASSED)
        printf("all pass\n");
    else {
        printf("place %lu:", (unsigned long)passing);
        print_verdict(verdict);
        printf("\n");
    }
}

/* A monitor has passed some counts. Two bursts that could follow are tried; then the second, which passes, is given to it. */
static int try_bursts(const pair *curves, const uint32_t *counts, size_t length)
{
    const uint32_t hasty[4] = {2, 1, 1, 2}, careful[4] = {2, 1, 0, 2};
    uint32_t verdicts[LONGEST];
    int64_t no_margins[1];
    calgedze_monitor monitor;

    if (open_monitor(curves, &monitor) != 0)
        return 1;
    calgedze_monitor_run(CALGEDZE_STATE(&monitor), counts, length, verdicts, length, no_margins, 0);
    try_and_print(&monitor, hasty, 4);
    try_and_print(&monitor, careful, 4);
    calgedze_monitor_run(CALGEDZE_STATE(&monitor), careful, 4, verdicts, 4, no_margins, 0);
    return verdicts[3] != CALGEDZE_PASSED;
}

/* Opens a generator and has it send a count for each choice; prints what it could send next. Gives back 1 where it opens. */
static int generate(const pair *curves, const uint32_t *choices, uint32_t *counts, size_t length)
{
    calgedze_generator generator;
    uint32_t refusal = open_generator(curves, &generator);
    int64_t look;

    print_list("choices", choices, length);
    if (refusal != 0) {
        print_refusal(refusal);
        return 0;
    }
    calgedze_generator_run(CALGEDZE_STATE(&generator), choices, length, counts, length);
    look = calgedze_generator_look(CALGEDZE_STATE(&generator));
    if (look < 0) {
        print_refusal((uint32_t)-look);
        return 0;
    }
    printf("next      %lu to %lu\n", (unsigned long)calgedze_lo(look), (unsigned long)calgedze_hi(look));
    return 1;
}

/* A sporadic bus: 2 at least in three ticks and 4 at least in five, and no ceilings. Of the first list only the length has an effect. */
static int sporadic(void)
{
    const pair curves = {{0}, {0, 0, 2, 0, 4}, 1, 5};
    const uint32_t choices[8] = {0, 9, 4, 0, 0, 0, 1, 2}, bursts[6] = {4000000000u, 0, 0, 1, 0, 3};
    uint32_t counts[8];
    pair closed;

    printf("\n");
    if (!close_and_print(&curves, &closed))
        return 1;
    generate(&curves, choices, counts, 8);
    if (!generate(&closed, choices, counts, 8))
        return 1;
    judge_and_print(&curves, counts, 8);
    /* 4,000,000,000 passes, since nothing is too many; the three ticks after it have 1 together and need 2. */
    judge_and_print(&curves, bursts, 6);
    return 0;
}

/* One more piece of a stream, on the states that the last one left. Gives back how many ticks were not sent, or did not pass. */
static unsigned long run_piece(calgedze_generator *generator, calgedze_monitor *monitor, uint32_t *number)
{
    static uint32_t choices[PIECE_TICKS], counts[PIECE_TICKS], verdicts[PIECE_TICKS];
    int64_t no_margins[1];
    unsigned long rejected = 0;

    for (size_t i = 0; i < PIECE_TICKS; i++) {
        *number = *number * 1664525u + 1013904223u;
        choices[i] = *number >> 8;
    }
    if (calgedze_generator_run(CALGEDZE_STATE(generator), choices, PIECE_TICKS, counts, PIECE_TICKS) != PIECE_TICKS ||
        calgedze_monitor_run(CALGEDZE_STATE(monitor), counts, PIECE_TICKS, verdicts, PIECE_TICKS, no_margins, 0) != PIECE_TICKS)
        return PIECE_TICKS;
    for (size_t i = 0; i < PIECE_TICKS; i++)
        rejected += !calgedze_sent(counts[i]) || verdicts[i] != CALGEDZE_PASSED;
    return rejected;
}

/* A long stream, generated and judged in pieces. A bench that runs for days does this. */
static int long_stream(const pair *closed)
{
    calgedze_generator generator;
    calgedze_monitor monitor;
    uint32_t number = 1;
    unsigned long rejected = 0;

    if (open_generator(closed, &generator) != 0 || open_monitor(closed, &monitor) != 0)
        return 1;
    for (int piece = 0; piece < PIECES; piece++)
        rejected += run_piece(&generator, &monitor, &number);
    printf("\n%lu ticks in pieces of %lu: %lu rejected\n", (unsigned long)PIECES * PIECE_TICKS, (unsigned long)PIECE_TICKS, rejected);
    return rejected != 0;
}

int main(void)
{
    /* At most 3 in three ticks and at least 5 in five leave one stream only: one a tick. */
    const pair one = {{3, 6, 3, 12, 9}, {0, 0, 0, 0, 5}, 0, 5};
    /* No least is above its ceiling, yet no stream keeps these: 3 ticks need 4, and 2 ticks have 2 at most. */
    const pair none = {{2, 2, 5}, {0, 0, 4}, 0, 3};
    /* Closing finds that three ticks need one at least, since four need 3 and one has 2 at most. */
    const pair curves = {{2, 3, 5, 5}, {0, 0, 0, 3}, 0, 4};
    const uint32_t choices[10] = {5, 7, 0, 2, 1, 4000000000u, 3, 0, 8, 6};
    const uint32_t bad[6] = {2, 0, 0, 1, 1, 1}, lost[6] = {0, 2, 1, 0, 2, 0};
    uint32_t counts[10];
    pair closed;

    close_and_print(&one, &closed);
    close_and_print(&none, &closed);
    if (!close_and_print(&curves, &closed))
        return 1;

    /* A generator opens on closed curves only: 15 on these as they are written. On the closure it always sends. */
    generate(&curves, choices, counts, 10);
    if (!generate(&closed, choices, counts, 10))
        return 1;
    judge_and_print(&closed, counts, 10);
    judge_and_print(&closed, bad, 6);
    /* On the first pair, as it is written: each window of these six ticks keeps its figures, but none that begins so goes on for ever. */
    judge_and_print(&one, lost, 6);
    return try_bursts(&closed, counts, 10) || sporadic() || long_stream(&closed);
}
