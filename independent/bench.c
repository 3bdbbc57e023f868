/* The bench, written from docs/bench.md and docs/refusals.md alone. See bench.h. In every call the causes are tested in the order of their
 * numbers. */

#include "bench.h"

void bench_new(struct bench *bench, struct cable *cable)
{
    bench->cable = cable;
    bench->open = false;
    bench->clock = 0;
    for (uint32_t end = END_A; end <= END_B; end++)
        chip_open(&bench->chip[end], 0, 0, 0, 0);
}

/* ---- Open ---- */

struct refusal bench_open(struct bench *bench, uint32_t start, uint32_t control, uint32_t x, uint32_t r, uint32_t interval)
{
    if (start > LAST_CLOCK || control > CONTROL_MAX || x > RATE_MAX || r > RATE_MAX || interval > INTERVAL_MAX)
        return refused(OUT_OF_RANGE, 0, NO_END);
    /* A space waits in the cable. */
    if (!cable_clear(bench->cable))
        return refused(CABLE_NOT_CLEAR, 0, NO_END);
    /* A sends at rate x and receives at r, B the reverse; chip_open has the receive rate first. */
    chip_open(&bench->chip[END_A], control, r, x, interval);
    chip_open(&bench->chip[END_B], control, x, r, interval);
    bench->clock = start;
    bench->open = true;
    return accepted();
}

/* ---- Calls that concern one end ---- */

static bool is_end(uint32_t end)
{
    return end == END_A || end == END_B;
}

/* Causes 4, 5 and 9, whose place is index 0 and that end. */
static struct refusal one_end_refusal(const struct bench *bench, uint32_t end, bool in_range)
{
    if (!is_end(end))
        return refused(NO_SUCH_END, 0, NO_END);
    if (!in_range)
        return refused(OUT_OF_RANGE, 0, end);
    if (!bench->open)
        return refused(NOT_OPEN, 0, end);
    return accepted();
}

/* The chip answers causes 11 to 14 negated, without a place. */
static struct refusal chip_refusal(int32_t answer, uint32_t end)
{
    if (answer < 0)
        return refused((int)-answer, 0, end);
    return accepted();
}

struct refusal bench_load(struct bench *bench, uint32_t end, uint32_t character)
{
    struct refusal refusal = one_end_refusal(bench, end, character <= CHARACTER_MAX);

    if (refusal.cause != 0)
        return refusal;
    return chip_refusal(chip_load(&bench->chip[end], character), end);
}

struct refusal bench_take(struct bench *bench, uint32_t end, struct taken *answer)
{
    struct refusal refusal = one_end_refusal(bench, end, true);

    if (refusal.cause != 0)
        return refusal;
    return chip_refusal(chip_take(&bench->chip[end], answer), end);
}

/* Count 1 to 16; address plus count at most 32. */
static bool bits_in_range(uint32_t address, uint32_t count)
{
    return count >= 1 && count <= MOST_BITS && (uint64_t)address + count <= ADDRESSES;
}

struct refusal bench_put(struct bench *bench, uint32_t end, uint32_t address, uint32_t count, uint32_t number)
{
    struct refusal refusal = one_end_refusal(bench, end, bits_in_range(address, count) && number <= NUMBER_MAX);

    if (refusal.cause != 0)
        return refusal;
    return chip_refusal(chip_put(&bench->chip[end], address, count, number), end);
}

struct refusal bench_get(const struct bench *bench, uint32_t end, uint32_t address, uint32_t count, uint32_t *answer)
{
    struct refusal refusal = one_end_refusal(bench, end, bits_in_range(address, count));
    int32_t bits;

    if (refusal.cause != 0)
        return refusal;
    bits = chip_get(&bench->chip[end], address, count);
    if (bits >= 0)
        *answer = (uint32_t)bits;
    return chip_refusal(bits, end);
}

/* ---- The phi clock ---- */

/* XOUT and RTS as they stand. */
static struct pair sent(const struct chip *chip)
{
    struct pair pair = {chip->xout, chip->rts};

    return pair;
}

/* The pair handed out gives RIN and CTS. */
static void clock_with(struct chip *chip, struct pair pair)
{
    chip_clock(chip, pair.level, pair.active);
}

/* The cable steps once each way; then each chip has its phi clock; and the bench's clock adds one. */
static void phi_clock(struct bench *bench)
{
    struct pair at_b = cable_step(bench->cable, TOWARD_B, sent(&bench->chip[END_A]));
    struct pair at_a = cable_step(bench->cable, TOWARD_A, sent(&bench->chip[END_B]));

    clock_with(&bench->chip[END_A], at_a);
    clock_with(&bench->chip[END_B], at_b);
    bench->clock = bench->clock + 1;
}

/* Would this many moments pass the last clock? */
static bool pass_the_last_clock(const struct bench *bench, uint32_t moments)
{
    return (uint64_t)bench->clock + moments > LAST_CLOCK;
}

/* ---- Refusals of a moment ---- */

typedef bool fault(const struct bench *bench, const struct event *events, size_t i);

/* Cause 4 */
static bool names_no_end(const struct bench *bench, const struct event *events, size_t i)
{
    (void)bench;
    return !is_end(events[i].end);
}

/* Cause 5: kind 0 or 1; address, for kind 1, 0 to 31; value 0 or 1 */
static bool is_out_of_range(const struct bench *bench, const struct event *events, size_t i)
{
    const struct event *event = &events[i];

    (void)bench;
    if (event->kind != DSR_SETTING && event->kind != WRITE)
        return true;
    if (event->kind == WRITE && event->address >= ADDRESSES)
        return true;
    return event->value > 1;
}

/* Cause 7: the repeating one, also where both settings are equal */
static bool repeats_dsr(const struct bench *bench, const struct event *events, size_t i)
{
    (void)bench;
    if (events[i].kind != DSR_SETTING)
        return false;
    for (size_t j = 0; j < i; j++) {
        if (events[j].kind == DSR_SETTING && events[j].end == events[i].end)
            return true;
    }
    return false;
}

/* The recovery count of an end as the phi clock of this moment leaves it. */
static unsigned recovery_after_clock(const struct bench *bench, uint32_t end)
{
    unsigned recovery = bench->chip[end].recovery;

    return recovery > 0 ? recovery - 1 : 0;
}

static bool resets(const struct event *event, uint32_t end)
{
    return event->kind == WRITE && event->end == end && event->address == 31;
}

/* Cause 11: a write while the count is above 0, or behind an event of this moment that resets the end. A DSR setting is never at fault. */
static bool meets_recovery(const struct bench *bench, const struct event *events, size_t i)
{
    if (events[i].kind != WRITE)
        return false;
    if (recovery_after_clock(bench, events[i].end) > 0)
        return true;
    for (size_t j = 0; j < i; j++) {
        if (resets(&events[j], events[i].end))
            return true;
    }
    return false;
}

/* The first event at fault by its place in the list; count if there is none. */
static size_t first_at_fault(const struct bench *bench, const struct event *events, size_t count, fault *at_fault)
{
    size_t i = 0;

    while (i < count && !at_fault(bench, events, i))
        i++;
    return i;
}

static struct refusal moment_refusal(const struct bench *bench, const struct event *events, size_t count)
{
    size_t i = first_at_fault(bench, events, count, names_no_end);

    if (i < count)
        return refused(NO_SUCH_END, (uint32_t)i, NO_END);
    i = first_at_fault(bench, events, count, is_out_of_range);
    if (i < count)
        return refused(OUT_OF_RANGE, (uint32_t)i, events[i].end);
    if (count > MOST_EVENTS)
        return refused(TOO_MANY_EVENTS, MOST_EVENTS, events[MOST_EVENTS].end);
    i = first_at_fault(bench, events, count, repeats_dsr);
    if (i < count)
        return refused(REPEATED_DSR, (uint32_t)i, events[i].end);
    if (!bench->open)
        return refused(NOT_OPEN, 0, NO_END);
    if (pass_the_last_clock(bench, 1))
        return refused(CLOCK_LIMIT, 0, NO_END);
    i = first_at_fault(bench, events, count, meets_recovery);
    if (i < count)
        return refused(RECOVERING, (uint32_t)i, events[i].end);
    return accepted();
}

/* ---- Ranks of a moment ---- */

/* Rank 1: DSR settings, in list order. Answers how many events have been served. */
static uint32_t serve_dsr_settings(struct bench *bench, struct event *events, size_t count, uint32_t served)
{
    for (size_t i = 0; i < count; i++) {
        if (events[i].kind == DSR_SETTING) {
            chip_set_dsr(&bench->chip[events[i].end], events[i].value == 1);
            served++;
            events[i].served = served;
        }
    }
    return served;
}

/* Ranks 3 and 4: writes at an end, in list order. */
static uint32_t serve_writes(struct bench *bench, uint32_t end, struct event *events, size_t count, uint32_t served)
{
    for (size_t i = 0; i < count; i++) {
        if (events[i].kind == WRITE && events[i].end == end) {
            chip_output_bit(&bench->chip[end], events[i].address, events[i].value == 1);
            served++;
            events[i].served = served;
        }
    }
    return served;
}

struct refusal bench_moment(struct bench *bench, struct event *events, size_t count)
{
    struct refusal refusal = moment_refusal(bench, events, count);
    uint32_t served;

    if (refusal.cause != 0)
        return refusal;
    served = serve_dsr_settings(bench, events, count, 0);
    phi_clock(bench);
    served = serve_writes(bench, END_A, events, count, served);
    serve_writes(bench, END_B, events, count, served);
    return accepted();
}

/* ---- n moments ---- */

/* n moments without events, or none of them. */
struct refusal bench_moments(struct bench *bench, uint32_t n)
{
    if (n > MOST_MOMENTS)
        return refused(OUT_OF_RANGE, 0, NO_END);
    if (!bench->open)
        return refused(NOT_OPEN, 0, NO_END);
    if (pass_the_last_clock(bench, n))
        return refused(CLOCK_LIMIT, 0, NO_END);
    for (uint32_t i = 0; i < n; i++)
        phi_clock(bench);
    return accepted();
}

/* ---- Pins ---- */

struct pins bench_pins(const struct bench *bench, uint32_t end)
{
    const struct chip *chip = &bench->chip[end];
    struct pins pins = {chip->xout == MARK, chip->rts, chip_int(chip)};

    return pins;
}
