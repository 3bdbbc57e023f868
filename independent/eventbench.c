/* The event program, written over the bench of bench.c: reads calls from standard input, one a line, and prints one answer line for each.
 * eventbench.md has the same format in more words.
 *
 * A line is a letter and its fields, each after exactly one space, and byte 10. Fields are decimal numbers, 0 to 4,294,967,295, without
 * leading zeros, but for the first field of C, which is one of the letters s, d and f. Every line is well formed, and the first is a C.
 *
 *   line                       what it does                                                              answer
 *   C s                        a new straight cable, and a new bench over it that is not open            ok
 *   C d LB LA                  a new delaying cable, then set_lengths(LB, LA); a new bench over it       ok
 *   C f NB b.. NA a..          a new disturbed cable, then set_flips of the NB numbers b.. toward B      ok
 *                              and the NA numbers a.. toward A; a new bench over it
 *   O start c x r i            open: start clock, control, rates x and r, interval                       ok
 *   E k, k times e n a v       a moment with k events: end, kind, address, value                         ok, then each event's serving number
 *   M n                        n moments without events, as one call                                     ok
 *   P e a k v                  put: end, address, count, number                                          ok
 *   G e a k                    get: end, address, count                                                  the number
 *   L e v                      load: end, character                                                      ok
 *   T e                        take: end                                                                 character RFER ROVER RPER
 *   S e                        the pins of end e, 0 or 1; of an open bench                               XOUT RTS INT
 *   K                          the clock of an open bench                                                the clock
 *
 * The words and numbers of an answer have one space between them; marks, active lines and set flags are 1. A refused call answers ?, the
 * index, the end and the cause. A refused setting of a cable answers so too, and the new bench is over the cable as it was made. S and K
 * answer - while the bench is not open. */

#include "bench.h"

#include <inttypes.h>
#include <stdio.h>
#include <stdlib.h>

enum { MOST_LISTED_EVENTS = 40, MOST_LISTED_FLIPS = MOST_FLIPS + 1 };

/* ---- Fields ---- */

static void give_up(void)
{
    fputs("eventbench: a line that is not well formed\n", stderr);
    exit(EXIT_FAILURE);
}

static uint32_t read_number(void)
{
    uint32_t number;

    if (scanf("%" SCNu32, &number) != 1)
        give_up();
    return number;
}

/* False at the end of the input. */
static bool read_letter(char *letter)
{
    return scanf(" %c", letter) == 1;
}

/* A number of things, and then the things. */
static uint32_t read_count(uint32_t most)
{
    uint32_t count = read_number();

    if (count > most)
        give_up();
    return count;
}

/* ---- Answers ---- */

/* The words after the first have a space before them. */
static void answer(struct refusal refusal)
{
    if (refusal.cause == 0)
        fputs("ok", stdout);
    else
        printf("? %" PRIu32 " %" PRIu32 " %d", refusal.index, refusal.end, refusal.cause);
}

/* ---- Cables ---- */

static struct list read_flips(uint32_t *numbers)
{
    struct list list = {numbers, read_count(MOST_LISTED_FLIPS)};

    for (size_t i = 0; i < list.count; i++)
        numbers[i] = read_number();
    return list;
}

static struct refusal new_delaying(struct cable *cable)
{
    uint32_t toward_b = read_number();
    uint32_t toward_a = read_number();

    cable_delaying(cable);
    return cable_set_lengths(cable, toward_b, toward_a);
}

static struct refusal new_disturbed(struct cable *cable)
{
    static uint32_t numbers[2][MOST_LISTED_FLIPS];
    struct list toward_b = read_flips(numbers[TOWARD_B]);
    struct list toward_a = read_flips(numbers[TOWARD_A]);

    cable_disturbed(cable);
    return cable_set_flips(cable, toward_b, toward_a);
}

static struct refusal new_cable(struct cable *cable)
{
    char which = 0;

    if (!read_letter(&which))
        give_up();
    switch (which) {
    case 's':
        cable_straight(cable);
        return accepted();
    case 'd':
        return new_delaying(cable);
    case 'f':
        return new_disturbed(cable);
    default:
        give_up();
        return accepted();
    }
}

/* The new bench is not open, also where the cable's setting was refused. */
static void do_cable(struct bench *bench, struct cable *cable)
{
    answer(new_cable(cable));
    bench_new(bench, cable);
}

/* ---- Calls of the bench ---- */

static void do_open(struct bench *bench)
{
    uint32_t start = read_number();
    uint32_t control = read_number();
    uint32_t x = read_number();
    uint32_t r = read_number();
    uint32_t interval = read_number();

    answer(bench_open(bench, start, control, x, r, interval));
}

static struct event read_event(void)
{
    struct event event;

    event.end = read_number();
    event.kind = read_number();
    event.address = read_number();
    event.value = read_number();
    event.served = 0;
    return event;
}

/* The events' serving numbers in list order. */
static void do_moment(struct bench *bench)
{
    struct event events[MOST_LISTED_EVENTS];
    uint32_t count = read_count(MOST_LISTED_EVENTS);
    struct refusal refusal;

    for (uint32_t i = 0; i < count; i++)
        events[i] = read_event();
    refusal = bench_moment(bench, events, count);
    answer(refusal);
    if (refusal.cause != 0)
        return;
    for (uint32_t i = 0; i < count; i++)
        printf(" %" PRIu32, events[i].served);
}

static void do_moments(struct bench *bench)
{
    answer(bench_moments(bench, read_number()));
}

static void do_put(struct bench *bench)
{
    uint32_t end = read_number();
    uint32_t address = read_number();
    uint32_t count = read_number();
    uint32_t number = read_number();

    answer(bench_put(bench, end, address, count, number));
}

static void do_get(const struct bench *bench)
{
    uint32_t end = read_number();
    uint32_t address = read_number();
    uint32_t count = read_number();
    uint32_t bits = 0;
    struct refusal refusal = bench_get(bench, end, address, count, &bits);

    if (refusal.cause != 0)
        answer(refusal);
    else
        printf("%" PRIu32, bits);
}

static void do_load(struct bench *bench)
{
    uint32_t end = read_number();
    uint32_t character = read_number();

    answer(bench_load(bench, end, character));
}

static void do_take(struct bench *bench)
{
    struct taken taken;
    struct refusal refusal = bench_take(bench, read_number(), &taken);

    if (refusal.cause != 0)
        answer(refusal);
    else
        printf("%u %d %d %d", taken.character, taken.rfer, taken.rover, taken.rper);
}

/* ---- What an open bench shows ---- */

static void do_show(const struct bench *bench)
{
    uint32_t end = read_count(END_B);
    struct pins pins;

    if (!bench->open) {
        fputs("-", stdout);
        return;
    }
    pins = bench_pins(bench, end);
    printf("%d %d %d", pins.mark, pins.rts, pins.interrupt);
}

static void do_clock(const struct bench *bench)
{
    if (bench->open)
        printf("%" PRIu32, bench->clock);
    else
        fputs("-", stdout);
}

/* ---- Lines ---- */

static void serve_line(struct bench *bench, struct cable *cable, char letter)
{
    switch (letter) {
    case 'C':
        do_cable(bench, cable);
        break;
    case 'O':
        do_open(bench);
        break;
    case 'E':
        do_moment(bench);
        break;
    case 'M':
        do_moments(bench);
        break;
    case 'P':
        do_put(bench);
        break;
    case 'G':
        do_get(bench);
        break;
    case 'L':
        do_load(bench);
        break;
    case 'T':
        do_take(bench);
        break;
    case 'S':
        do_show(bench);
        break;
    case 'K':
        do_clock(bench);
        break;
    default:
        give_up();
    }
    putchar('\n');
}

int main(void)
{
    static struct cable cable;
    struct bench bench;
    char letter;

    cable_straight(&cable);
    bench_new(&bench, &cable);
    while (read_letter(&letter))
        serve_line(&bench, &cable, letter);
    if (ferror(stdin) || fflush(stdout) != 0 || ferror(stdout)) {
        fputs("eventbench: cannot read or write\n", stderr);
        return EXIT_FAILURE;
    }
    return EXIT_SUCCESS;
}
