/*
 * Calgedze for C and for whatever calls C: close a pair of arrival curves, read a pair from constraint text and write it, report a text's
 * closed curves, judge a stream of counts or try one first, generate one. Link libexports.a, which tests/library.sh makes.
 *
 * Every call ends, whatever the lengths and contents of its lists. A list is a pointer and a number of entries, fewer than 2^63, so that
 * a number that counts entries is never negative, as a refusal is; the pointer is never null, not even for no entries, and aligned for its
 * entries, which are in the machine's byte order; and a list that a call writes overlaps no other list of the call. `verdict`, the one
 * pointer without a number, points to a list of one entry. A pair is two lists of figures, the upper curve (ceilings) and the lower
 * (leasts), entry 0 of each being that of the window of one tick; and a mark.
 *
 * The mark, `unlimited`, says that the pair has no ceilings: any number but 0 sets it. The upper list must still be a list of as many
 * entries as the lower one; what they hold has no effect, and no call writes ceilings of such a pair.
 *
 * A call is refused with a number from 1 to 13 or with 15 (calgedze_refusal_text has the words), and then every list stays as it was.
 * Where several numbers apply, the call is refused with the one that stands first in its own list below. How the number comes back:
 *   calgedze_close, calgedze_read                       in the upper half of the answer: CALGEDZE_REFUSAL(answer) is not 0
 *   calgedze_monitor_open, calgedze_generator_open      as it is: what comes back is not 0
 *   calgedze_render, and the runs, the preview and the
 *   look on a state                                     with a minus sign: what comes back is negative
 *   calgedze_report                                     in the text that it writes
 *
 * Threads: the library has no state of its own. Calls on different lists may run at the same time; two calls that share a list, one of
 * which writes it, must not. Stack: a call takes at most 64 KiB, measured on x86-64 Linux (tests/stack.c; 39,288 bytes was the most).
 */
#ifndef CALGEDZE_H
#define CALGEDZE_H

#include <stddef.h>
#include <stdint.h>

#ifdef __cplusplus
extern "C" {
#endif

/*
 * What calgedze_close and calgedze_read answer. Bits 32 to 63: the number of a refusal, and then all other bits are 0. Else bits 0 to 15:
 * the value. Bit 16: set where the pair has no ceilings; pass CALGEDZE_UNLIMITED(answer) on as `unlimited` with the pair.
 */
typedef uint64_t calgedze_answer;

#define CALGEDZE_REFUSAL(answer) ((uint32_t)((answer) >> 32))
#define CALGEDZE_UNLIMITED(answer) ((uint32_t)((answer) >> 16) & 1u)
#define CALGEDZE_VALUE(answer) ((uint32_t)(answer) & 65535u)

/*
 * Closes the pair of `upper` and `lower`; its H is their length. The closure goes to the first H entries of `closed_upper` and
 * `closed_lower`, the others stay as they are, and the value is the count of rounds that changed a figure, 9 at most. A pair without
 * ceilings has a closure without ceilings: each least becomes the largest sum of leasts over all ways to cut its window into parts, the
 * uncut window included; `closed_upper` stays as it is, and the rounds are 8 at most. Refused with
 *   1  `upper` is not 1 to 256 long
 *   2  `lower` has another length
 *   3  `closed_upper` or `closed_lower` is shorter
 *   4  a figure is above 16,776,960; without ceilings, a least is above 65,535
 *   5  no unbounded stream conforms to the pair; without ceilings never
 * Without ceilings the closure may have leasts above 65,535, up to 16,776,960: monitors and generators open on them, and calgedze_close
 * refuses them with 4.
 */
calgedze_answer calgedze_close(const uint32_t *upper, size_t upper_length, const uint32_t *lower, size_t lower_length,
                               uint32_t unlimited, uint32_t *closed_upper, size_t closed_upper_length, uint32_t *closed_lower,
                               size_t closed_lower_length);

/*
 * Reads the pair that a constraint text stands for. It goes to the first H entries of `upper` and `lower`, the others stay as they are,
 * and the value is H, the largest window that the text names. A record may have no most. If none of them has one, the pair has no
 * ceilings, and `upper` stays as it is. If some have one, a window without a most gets its length times the smallest most that is given.
 * Refused with
 *   6  the text is longer than 16,384 bytes or does not begin with the line window,least,most
 *   7  the first faulty record is not three fields, each a number of 1 to 5 digits with no leading zero; the last may be empty
 *   8  a figure of it is out of range
 *   9  its window was named before
 *  10  there is no record
 *  11  `upper` or `lower` is shorter than H
 */
calgedze_answer calgedze_read(const uint8_t *text, size_t text_length, uint32_t *upper, size_t upper_length, uint32_t *lower,
                              size_t lower_length);

/* No output of calgedze_report is longer, and no text that calgedze_render writes. */
#define CALGEDZE_LONGEST_REPORT 5799

/*
 * What the figures program writes for a text: its closed curves, or a line with the number of the refusal. Where no record has a most, none
 * that is written has one. Gives back how many bytes that is; as many of them as `output` has room for are written to it, and the rest of
 * it stays as it is.
 */
size_t calgedze_report(const uint8_t *text, size_t text_length, uint8_t *output, size_t output_length);

/*
 * Writes the text of the pair as it is: a record for each window, without a most where the pair has no ceilings. Gives back how many bytes
 * the text has; as many of them as `output` has room for are written to it, and the rest of it stays as it is. Refused with -1, -2 or -4:
 * 1 and 2 as calgedze_close has them, and 4 where a figure, without ceilings a least, is above 16,776,960.
 */
int64_t calgedze_render(const uint32_t *upper, size_t upper_length, const uint32_t *lower, size_t lower_length, uint32_t unlimited,
                        uint8_t *output, size_t output_length);

/*
 * The states of a monitor and of a generator: lists of 32-bit words that the caller owns, has opened, and hands to each call; they may be
 * copied, kept and read as any others. The structs are these words and nothing else, 771 of a generator (3,084 bytes) and 1,284 of a
 * monitor (5,136 bytes), in this order:
 *
 *   word 0            horizon       H, 1 to 256
 *   word 1            unlimited     the pair's mark
 *   words 2..257      upper         the ceilings, the first H of them; without ceilings they have no effect
 *   words 258..513    lower         the leasts, the first H of them
 *   word 514          held          how many ticks are held, fewer than H
 *   words 515..770    ticks         their counts, the oldest first; the words after them have no effect
 * and in a monitor
 *   words 771..1026   closed_upper  the ceilings of the closure, the first H of them; without ceilings they have no effect
 *   words 1027..1282  closed_lower  its leasts likewise
 *   word 1283         failed        a mark: some tick was rejected
 *
 * A mark is set where its word is not 0. Any words are legal input: a call refuses with 12 a list that is not as long as its struct (an
 * opening after its other questions), and words that are no state. Those are: a horizon that is not 1 to 256; as many held ticks as the
 * horizon or more; a figure above 16,776,960 among the first H of a list that has an effect. 12 comes before all else that a run, a
 * preview or a look could answer, also for lists without an entry, and then nothing changes.
 */
typedef struct calgedze_generator {
    uint32_t horizon, unlimited, upper[256], lower[256], held, ticks[256];
} calgedze_generator;

typedef struct calgedze_monitor {
    uint32_t horizon, unlimited, upper[256], lower[256], held, ticks[256];
    uint32_t closed_upper[256], closed_lower[256], failed;
} calgedze_monitor;

#define CALGEDZE_GENERATOR_WORDS 771
#define CALGEDZE_MONITOR_WORDS 1284

/*
 * The two arguments that stand for a state, where `state` points to one of the structs. It may be const for a preview or a look, which only
 * read it; the macro takes the const away, so that no compiler warns where a run or an opening is given such a state.
 */
#define CALGEDZE_STATE(state) ((uint32_t *)(state)), (sizeof *(state) / sizeof(uint32_t))

/*
 * Opens a monitor, or a generator, on the pair of `upper` and `lower`. Gives back 0, and every word of the state is written: the horizon,
 * the mark as 0 or 1, the figures and, for a monitor, those of the closure; all others are 0. Without ceilings the words for ceilings and
 * for closed figures are 0 too. Or gives back a refusal, and every word stays as it was:
 *   1, 2  as calgedze_close has them
 *   4     a figure, without ceilings a least, is above 16,776,960
 *   5     (monitor) no unbounded stream conforms to the pair; without ceilings never
 *  15     (generator) the pair is not its own closure, or has none: close it first, and open on the result. Without ceilings that is where
 *         the least of some window is below the sum of the leasts of two parts that make it up; if a least is then above 65,535, closing
 *         is refused too
 *  12     the list of the state is not CALGEDZE_MONITOR_WORDS, or CALGEDZE_GENERATOR_WORDS, long
 */
uint32_t calgedze_monitor_open(const uint32_t *upper, size_t upper_length, const uint32_t *lower, size_t lower_length,
                               uint32_t unlimited, uint32_t *state, size_t state_length);
uint32_t calgedze_generator_open(const uint32_t *upper, size_t upper_length, const uint32_t *lower, size_t lower_length,
                                 uint32_t unlimited, uint32_t *state, size_t state_length);

/*
 * What a monitor answers to a count. Two of these name a window, which is added: 1003 is too many in three ticks. At CALGEDZE_LOST every
 * window that ends there keeps its figures as given, and some window not the closed figures in the state. In a state that was opened, and
 * in what its runs leave, that means that no unbounded conforming stream begins like this: the stream is lost, not a message; and on the
 * curves of a closure it never happens. On a pair without ceilings neither that nor CALGEDZE_TOO_MANY does: every count passes that is not
 * too few, 4,294,967,295 as well. After the first tick that is not CALGEDZE_PASSED every later one is CALGEDZE_ALREADY_FAILED.
 */
#define CALGEDZE_PASSED 0u
#define CALGEDZE_TOO_MANY 1000u
#define CALGEDZE_TOO_FEW 2000u
#define CALGEDZE_ALREADY_FAILED 3000u
#define CALGEDZE_LOST 4000u

/* In the place of a count: this plus the number of a refusal, and 13 is the only one. A count that is sent is at most 16,776,960. */
#define CALGEDZE_REFUSED 4000000000u

/*
 * Gives a monitor the entries of `counts`, one tick for each, in order, as far as `verdicts` has room; one tick is a list of one. Gives
 * back n, the number of ticks that ran: the length of the shorter of the two lists. Or -12, and then nothing changes.
 *
 * Entry i of `verdicts`, for i below n, becomes the answer to the tick. Entry i of `margins`, for i below n and as far as there is room,
 * becomes its margin: how near the tick comes to the figures as given, the smallest over the windows that end there of ceiling minus sum
 * and sum minus least (without ceilings, of sum minus least alone), negative exactly with CALGEDZE_TOO_MANY and CALGEDZE_TOO_FEW, and 0
 * with CALGEDZE_ALREADY_FAILED. `margins` may be empty, or shorter than n; all other entries stay. Until the monitor has failed, a run
 * with a place for a margin takes many times as long as a run without: give it no entries where you do not want them.
 *
 * Of the state these words change, and all others stay: `held`, the first `held` words of `ticks`, and `failed`, which becomes 1 once a
 * tick is rejected, and stays as it was where it was set before. A tick that is rejected is not held. So days in pieces are one stream:
 * running a list, and then another on the state that came back, answers what running both as one list does, and leaves the same words.
 */
int64_t calgedze_monitor_run(uint32_t *state, size_t state_length, const uint32_t *counts, size_t counts_length, uint32_t *verdicts,
                             size_t verdicts_length, int64_t *margins, size_t margins_length);

/*
 * What a monitor would say to the entries of `counts`, of which there may be any number: the verdicts that calgedze_monitor_run would
 * give, up to the first that is not CALGEDZE_PASSED. The state stays as it is. Gives back how many counts pass, from the first on. Where
 * these are all, *verdict becomes CALGEDZE_PASSED. Else what comes back is the place of the first count that is rejected, 0 being that of
 * the first entry, and *verdict becomes the verdict on it. Or gives back -12, and then *verdict stays as it was: look at what comes back
 * first. An empty list passes, on a monitor that has failed too; there every other list is rejected at place 0, as
 * CALGEDZE_ALREADY_FAILED.
 *
 * Counts are run 1,024 at a time on a copy of the state, without margins. Where one is rejected, up to 63 of those behind it are still run
 * one by one: 1,024 counts of which the first is rejected took 4 to 7 microseconds. While some window's sum is above 536,870,912, each
 * count takes as long as one with a margin does in a run.
 */
int64_t calgedze_monitor_preview(const uint32_t *state, size_t state_length, const uint32_t *counts, size_t counts_length,
                                 uint32_t *verdict);

/*
 * Gives a generator the entries of `choices`, one tick for each, in order, as far as `counts` has room. Gives back n, the number of ticks
 * that ran: the length of the shorter of the two lists. Or -12, and then nothing changes.
 *
 * Entry i of `counts`, for i below n, becomes the count that is sent: lo plus the remainder of the choice by hi - lo + 1, where lo and hi
 * are the smallest and the largest count that keep every window; without ceilings hi is 16,776,960. It becomes CALGEDZE_REFUSED + 13 where
 * no count keeps every window; the state then stays as it is, so that every later entry is that as well. A state that was opened, and
 * every one that its runs leave, always has a count to send: 13 comes up only in states that were built by hand. All other entries stay.
 *
 * Of the state `held` and the first `held` words of `ticks` change, and all others stay. Pieces are one stream here too.
 */
int64_t calgedze_generator_run(uint32_t *state, size_t state_length, const uint32_t *choices, size_t choices_length, uint32_t *counts,
                               size_t counts_length);

/*
 * The smallest count that the next tick could send, in bits 0 to 31, and the largest, in bits 32 to 63 (calgedze_lo, calgedze_hi); or
 * -12; or -13 where no count keeps every window. The state stays as it is.
 */
int64_t calgedze_generator_look(const uint32_t *state, size_t state_length);

/* One of the five constants: what a verdict says, without its window. */
static inline uint32_t calgedze_verdict_kind(uint32_t verdict)
{
    return verdict - verdict % 1000u;
}

/* The window that a verdict names, the shortest that is broken, or 0 where it names none. */
static inline uint32_t calgedze_verdict_window(uint32_t verdict)
{
    return verdict % 1000u;
}

/* Whether an entry that a generator's run has written is a count. */
static inline int calgedze_sent(uint32_t entry)
{
    return entry < CALGEDZE_REFUSED;
}

/* What a look shows, where it is not negative. */
static inline uint32_t calgedze_lo(int64_t look)
{
    return (uint32_t)((uint64_t)look & 4294967295u);
}

static inline uint32_t calgedze_hi(int64_t look)
{
    return (uint32_t)((uint64_t)look >> 32);
}

/*
 * The number of a refusal in words: CALGEDZE_REFUSAL(answer), what an opening gives back, or a negative answer with its sign or without.
 * Ask only where the call was refused: a number of ticks or of rounds, or a place, is no refusal.
 */
static inline const char *calgedze_refusal_text(int64_t number)
{
    switch (number < 0 ? 0 - (uint64_t)number : (uint64_t)number) {
    case 1: return "the upper list is not 1 to 256 long";
    case 2: return "the lower list is not as long as the upper one";
    case 3: return "a result list is shorter than the pair";
    case 4: return "a figure is above the limit";
    case 5: return "no unbounded stream conforms to the pair";
    case 6: return "the text is too long or does not begin with its header line";
    case 7: return "a record is not three fields that are numbers";
    case 8: return "a figure of a record is out of range";
    case 9: return "a window is named twice";
    case 10: return "the text has no record";
    case 11: return "a result list is shorter than the text's horizon";
    case 12: return "the words are no state, or not as many as a state has";
    case 13: return "no count keeps every window";
    case 15: return "the pair is not closed: close it first";
    default: return "no refusal";
    }
}

#ifdef __cplusplus
}
#endif

#endif
