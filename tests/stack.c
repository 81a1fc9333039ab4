/*
 * How much stack each call takes: it runs on a stack of its own that is painted before, and what is not painted any more after it was
 * used. The inputs are the largest of each kind, and those that take the longest way through a call; what a call gives back is compared,
 * so that it is known to have gone that way. Prints the bytes of each call, and fails where one is above what the header promises.
 *
 *     gcc -std=c99 -Iinclude -Wl,-z,now tests/stack.c target/staticlib/libexports.a -o target/stack
 *
 * -z now: else a function of libc that is called for the first time is looked up on that stack.
 */
#define _XOPEN_SOURCE 700

#include <stdio.h>
#include <string.h>
#include <ucontext.h>

#include "calgedze.h"

#define PROMISED 65536
#define STACK_BYTES (1 << 20)
#define PAINT 0xa5
#define WINDOWS 256
#define TICKS 1500
#define LIMIT 16776960u
#define LARGEST 4294967295u

static unsigned char stack[STACK_BYTES];
static int differences;

/* Figures of 256 windows: a pair that takes nine rounds, one without a closure, closed curves, none, and leasts that take eight rounds. */
static uint32_t nine_upper[WINDOWS], nine_lower[WINDOWS], no_stream[WINDOWS], closed_upper[WINDOWS], closed_lower[WINDOWS];
static uint32_t loose[WINDOWS], none[WINDOWS], leasts[WINDOWS], closed_leasts[WINDOWS];

/* Texts of 256 records, with a most each and without, and one that is as long as a text can be. */
static uint8_t text[16384], sporadic_text[16384], long_text[16384];
static size_t text_length, sporadic_length;

static uint32_t upper[WINDOWS], lower[WINDOWS], choices[TICKS], counts[TICKS], answers[TICKS];
static int64_t margins[TICKS];
static uint8_t output[CALGEDZE_LONGEST_REPORT];
static calgedze_monitor monitor, strict_monitor, sporadic_monitor, broken_monitor;
static calgedze_generator generator, sporadic_generator, stuck_generator, broken_generator;

static void expect(const char *name, int64_t expected, int64_t came)
{
    if (came != expected) {
        printf("stack: %s gives back %lld, not %lld\n", name, (long long)came, (long long)expected);
        differences++;
    }
}

static uint64_t close_into(const uint32_t *ceilings, const uint32_t *least, uint32_t unlimited)
{
    return calgedze_close(ceilings, WINDOWS, least, WINDOWS, unlimited, upper, WINDOWS, lower, WINDOWS);
}

static void run_close(void)
{
    expect("closing nine rounds", 9, (int64_t)close_into(nine_upper, nine_lower, 0));
    expect("closing without ceilings", 65536 + 8, (int64_t)close_into(none, leasts, 1));
    expect("closing without a stream", 5, (int64_t)CALGEDZE_REFUSAL(close_into(nine_upper, no_stream, 0)));
}

static void run_read(void)
{
    expect("reading", WINDOWS, (int64_t)calgedze_read(text, text_length, upper, WINDOWS, lower, WINDOWS));
    expect("reading leasts", 65536 + WINDOWS, (int64_t)calgedze_read(sporadic_text, sporadic_length, upper, WINDOWS, lower, WINDOWS));
    expect("reading a long text", 7,
           (int64_t)CALGEDZE_REFUSAL(calgedze_read(long_text, sizeof long_text, upper, WINDOWS, lower, WINDOWS)));
}

static void run_report(void)
{
    calgedze_report(text, text_length, output, sizeof output);
    expect("a report's first byte", 'w', output[0]);
    calgedze_report(sporadic_text, sporadic_length, output, sizeof output);
    expect("a sporadic report's first byte", 'w', output[0]);
    expect("a refused report", 11, (int64_t)calgedze_report(long_text, sizeof long_text, output, sizeof output));
}

static void run_render(void)
{
    expect("rendering", 5799, calgedze_render(loose, WINDOWS, loose, WINDOWS, 0, output, sizeof output));
    expect("rendering leasts", 3751, calgedze_render(none, WINDOWS, loose, WINDOWS, 1, output, sizeof output));
}

static void run_monitor_open(void)
{
    expect("a monitor, nine rounds", 0,
           calgedze_monitor_open(nine_upper, WINDOWS, nine_lower, WINDOWS, 0, CALGEDZE_STATE(&strict_monitor)));
    expect("a monitor without ceilings", 0,
           calgedze_monitor_open(none, WINDOWS, closed_leasts, WINDOWS, 1, CALGEDZE_STATE(&sporadic_monitor)));
    expect("a monitor without a stream", 5,
           calgedze_monitor_open(nine_upper, WINDOWS, no_stream, WINDOWS, 0, CALGEDZE_STATE(&monitor)));
    expect("a monitor", 0, calgedze_monitor_open(closed_upper, WINDOWS, closed_lower, WINDOWS, 0, CALGEDZE_STATE(&monitor)));
}

static void run_generator_open(void)
{
    expect("a generator, unclosed", 15,
           calgedze_generator_open(nine_upper, WINDOWS, nine_lower, WINDOWS, 0, CALGEDZE_STATE(&generator)));
    expect("a generator without ceilings", 0,
           calgedze_generator_open(none, WINDOWS, closed_leasts, WINDOWS, 1, CALGEDZE_STATE(&sporadic_generator)));
    expect("a generator", 0, calgedze_generator_open(closed_upper, WINDOWS, closed_lower, WINDOWS, 0, CALGEDZE_STATE(&generator)));
}

static void run_generator_run(void)
{
    expect("a list of one", 1, calgedze_generator_run(CALGEDZE_STATE(&generator), choices, 1, counts, 1));
    expect("a list", TICKS - 1, calgedze_generator_run(CALGEDZE_STATE(&generator), choices, TICKS - 1, counts + 1, TICKS - 1));
    expect("one without ceilings", TICKS, calgedze_generator_run(CALGEDZE_STATE(&sporadic_generator), choices, TICKS, answers, TICKS));
    for (size_t i = 0; i < WINDOWS; i++)
        sporadic_generator.ticks[i] = LARGEST;
    expect("one after large counts", TICKS, calgedze_generator_run(CALGEDZE_STATE(&sporadic_generator), choices, TICKS, answers, TICKS));
    expect("one without a count", TICKS, calgedze_generator_run(CALGEDZE_STATE(&stuck_generator), choices, TICKS, answers, TICKS));
    expect("no count", 0, calgedze_sent(answers[TICKS - 1]));
    expect("words that are no state", -12,
           calgedze_generator_run(CALGEDZE_STATE(&broken_generator), choices, TICKS, answers, TICKS));
}

static void run_generator_look(void)
{
    expect("a look", 1, calgedze_generator_look(CALGEDZE_STATE(&generator)) >= 0);
    expect("a look without ceilings", LIMIT, calgedze_hi(calgedze_generator_look(CALGEDZE_STATE(&sporadic_generator))));
    expect("a look without a count", -13, calgedze_generator_look(CALGEDZE_STATE(&stuck_generator)));
    expect("a look at no state", -12, calgedze_generator_look(CALGEDZE_STATE(&broken_generator)));
}

/* One tick that is rejected, on a copy of a monitor: what it is called, without its window. */
static void reject(const char *name, const calgedze_monitor *from, uint32_t count, uint32_t kind)
{
    static calgedze_monitor copy;

    copy = *from;
    expect(name, 1, calgedze_monitor_run(CALGEDZE_STATE(&copy), &count, 1, answers, 1, margins, 1));
    expect(name, kind, calgedze_verdict_kind(answers[0]));
}

/* How many of so many counts pass, on a state that stays as it is, and the verdict on the next, without its window. */
static void preview(const char *name, const calgedze_monitor *from, size_t length, int64_t passing, uint32_t kind)
{
    static calgedze_monitor before;
    uint32_t verdict = LARGEST;

    before = *from;
    expect(name, passing, calgedze_monitor_preview(CALGEDZE_STATE(from), counts, length, &verdict));
    expect(name, kind, calgedze_verdict_kind(verdict));
    expect(name, 0, memcmp(&before, from, sizeof before));
}

/* More counts than are run at a time, and some that are rejected at the end, or at once. */
static void run_monitor_preview(void)
{
    uint32_t verdict = LARGEST, last = counts[TICKS - 1];

    preview("a list that passes", &monitor, TICKS, TICKS, CALGEDZE_PASSED);
    counts[TICKS - 1] = LARGEST;
    preview("a list that does not", &monitor, TICKS, TICKS - 1, CALGEDZE_TOO_MANY);
    counts[TICKS - 1] = last;
    preview("a list too few", &sporadic_monitor, TICKS, 0, CALGEDZE_TOO_FEW);
    preview("an empty list", &monitor, 0, 0, CALGEDZE_PASSED);
    expect("words that are no state", -12, calgedze_monitor_preview(CALGEDZE_STATE(&broken_monitor), counts, TICKS, &verdict));
    expect("the verdict with 12", LARGEST, verdict);
}

static void run_monitor_run(void)
{
    expect("a list of one", 1, calgedze_monitor_run(CALGEDZE_STATE(&monitor), counts, 1, answers, 1, margins, 0));
    expect("a list", TICKS / 2, calgedze_monitor_run(CALGEDZE_STATE(&monitor), counts + 1, TICKS / 2, answers, TICKS, margins, 0));
    expect("the rest with margins", TICKS / 2 - 1,
           calgedze_monitor_run(CALGEDZE_STATE(&monitor), counts + 1 + TICKS / 2, TICKS / 2 - 1, answers, TICKS, margins, TICKS));
    expect("the last verdict", CALGEDZE_PASSED, answers[TICKS / 2 - 2]);
    reject("too many", &monitor, LARGEST, CALGEDZE_TOO_MANY);
    reject("too few", &sporadic_monitor, 0, CALGEDZE_TOO_FEW);
    reject("lost", &strict_monitor, LIMIT, CALGEDZE_LOST);
    for (size_t i = 0; i < TICKS; i++)
        counts[i] = LARGEST;
    expect("large counts", TICKS, calgedze_monitor_run(CALGEDZE_STATE(&sporadic_monitor), counts, TICKS, answers, TICKS, margins, TICKS));
    expect("their last verdict", CALGEDZE_PASSED, answers[TICKS - 1]);
    reject("too few after them", &sporadic_monitor, 0, CALGEDZE_TOO_FEW);
    expect("words that are no state", -12,
           calgedze_monitor_run(CALGEDZE_STATE(&broken_monitor), counts, TICKS, answers, TICKS, margins, TICKS));
}

static size_t record(uint8_t *to, unsigned window, unsigned long least, const char *most)
{
    return (size_t)sprintf((char *)to, "%u,%lu,%s\r\n", window, least, most);
}

static void make_texts(void)
{
    char most[24];

    text_length = sporadic_length = (size_t)sprintf((char *)text, "window,least,most\r\n");
    memcpy(sporadic_text, text, text_length);
    memset(long_text, '1', sizeof long_text);
    memcpy(long_text, text, text_length);
    for (unsigned window = 1; window <= WINDOWS; window++) {
        sprintf(most, "%lu", 250ul * window + 99);
        text_length += record(text + text_length, window, 200ul * window, most);
        sporadic_length += record(sporadic_text + sporadic_length, window, 200ul * window + (window & 1) * 9, "");
    }
}

/* The closed curves are about 5 in 2 ticks, with room for a burst. */
static void make_pairs(void)
{
    for (uint32_t i = 0; i < WINDOWS; i++) {
        uint32_t half = 5 * (i + 1) / 2;

        nine_upper[i] = loose[i] = LIMIT;
        nine_lower[i] = none[i] = 0;
        leasts[i] = i == 0 ? 65535 : 0;
        closed_leasts[i] = 65535 * (i + 1);
        upper[i] = half + 9;
        lower[i] = half < 9 ? 0 : half - 9;
    }
    nine_upper[4] = 200000;
    nine_lower[252] = 10120000;
    memcpy(no_stream, nine_lower, sizeof no_stream);
    no_stream[252] = 10120001;
    calgedze_close(upper, WINDOWS, lower, WINDOWS, 0, closed_upper, WINDOWS, closed_lower, WINDOWS);
}

/* A generator on ceilings that its held ticks have passed already, and words with a figure above the limit in the last window. */
static void make_states(void)
{
    stuck_generator.horizon = broken_generator.horizon = broken_monitor.horizon = WINDOWS;
    stuck_generator.held = WINDOWS - 1;
    for (size_t i = 0; i < WINDOWS; i++)
        stuck_generator.ticks[i] = LARGEST;
    broken_generator.lower[WINDOWS - 1] = broken_monitor.closed_lower[WINDOWS - 1] = LIMIT + 1;
    for (uint32_t i = 0; i < TICKS; i++)
        choices[i] = (i * 2654435761u) >> 7;
}

static void nothing(void)
{
}

/* How far down a function writes on a painted stack. */
static size_t depth(void (*run)(void))
{
    static ucontext_t here, there;
    size_t untouched = 0;

    memset(stack, PAINT, sizeof stack);
    getcontext(&there);
    there.uc_stack.ss_sp = stack;
    there.uc_stack.ss_size = sizeof stack;
    there.uc_link = &here;
    makecontext(&there, run, 0);
    swapcontext(&here, &there);
    while (untouched < sizeof stack && stack[untouched] == PAINT)
        untouched++;
    return sizeof stack - untouched;
}

int main(void)
{
    static const struct {
        const char *name;
        void (*run)(void);
    } calls[] = {
        {"close", run_close},
        {"read", run_read},
        {"report", run_report},
        {"render", run_render},
        {"monitor_open", run_monitor_open},
        {"generator_open", run_generator_open},
        {"generator_run", run_generator_run},
        {"generator_look", run_generator_look},
        {"monitor_preview", run_monitor_preview},
        {"monitor_run", run_monitor_run},
    };
    size_t bytes[sizeof calls / sizeof *calls], count = sizeof calls / sizeof *calls;
    int above = 0;

    make_pairs();
    make_texts();
    make_states();
    /* Without what measuring takes itself. */
    for (size_t i = 0; i < count; i++)
        bytes[i] = depth(calls[i].run) - depth(nothing);
    printf("stack, at most %d bytes:", PROMISED);
    for (size_t i = 0; i < count; i++) {
        printf(" %s %lu", calls[i].name, (unsigned long)bytes[i]);
        above += bytes[i] > PROMISED;
    }
    printf("\n");
    return above != 0 || differences != 0;
}
