/* The loopback program of docs/loopback.md over the plain chip of chip.c, written from the documents alone.
 *
 *     cc -std=c11 -Wall -Wextra -Wpedantic -O2 -o loopback loopback.c chip.c
 *
 * It ends with status 0 unless it cannot read, write or get memory. */

#include "chip.h"

#include <inttypes.h>
#include <stdbool.h>
#include <stdint.h>
#include <stdio.h>
#include <stdlib.h>

/* ---- Lines ---- */

struct line {
    unsigned char *bytes;
    size_t length;
    size_t room;
};

static void fail(const char *what)
{
    fprintf(stderr, "loopback: %s\n", what);
    exit(1);
}

static void append(struct line *line, unsigned char byte)
{
    if (line->length == line->room) {
        size_t room = line->room == 0 ? 128 : 2 * line->room;
        unsigned char *bytes;

        if (room <= line->room)
            fail("a line is too long for the memory");
        bytes = realloc(line->bytes, room);
        if (bytes == NULL)
            fail("no memory");
        line->bytes = bytes;
        line->room = room;
    }
    line->bytes[line->length] = byte;
    line->length++;
}

/* Reads a line without its line end. What follows the last line end is a line if it has a byte. */
static bool read_line(struct line *line)
{
    int byte;

    line->length = 0;
    while ((byte = getchar()) != EOF) {
        if (byte == '\n')
            return true;
        append(line, (unsigned char)byte);
    }
    if (ferror(stdin))
        fail("cannot read");
    return line->length > 0;
}

/* ---- Fields ---- */

struct task {
    uint32_t control;
    uint32_t rate;
    uint32_t wait;
    const unsigned char *label;
    size_t label_length;
};

static const uint64_t NUMBER_MAX = 4294967295u;

/* Decimal digits only, at least one, leading zeros allowed, at most 4,294,967,295. */
static bool read_number(const unsigned char *bytes, size_t length, uint32_t *number)
{
    uint64_t value = 0;

    if (length == 0)
        return false;
    for (size_t i = 0; i < length; i++) {
        if (bytes[i] < '0' || bytes[i] > '9')
            return false;
        value = 10 * value + (uint64_t)(bytes[i] - '0');
        if (value > NUMBER_MAX)
            return false;
    }
    *number = (uint32_t)value;
    return true;
}

/* The place of the first space at or behind `from`; the line's length if there is none. */
static size_t find_space(const struct line *line, size_t from)
{
    size_t place = from;

    while (place < line->length && line->bytes[place] != ' ')
        place++;
    return place;
}

static bool read_fields(const struct line *line, struct task *task)
{
    uint32_t numbers[3] = {0, 0, 0};
    size_t from = 0;

    for (int i = 0; i < 3; i++) {
        size_t space = find_space(line, from);

        if (space == line->length)
            return false;
        if (!read_number(line->bytes + from, space - from, &numbers[i]))
            return false;
        from = space + 1;
    }
    task->control = numbers[0];
    task->rate = numbers[1];
    task->wait = numbers[2];
    task->label = line->bytes + from;
    task->label_length = line->length - from;
    return true;
}

static bool in_range(const struct task *task)
{
    return task->control <= 255 && task->rate <= 2047 && task->wait <= 1000000 && task->label_length >= 1
        && task->label_length <= 80;
}

/* ---- The run ---- */

struct run {
    struct chip chip;
    const struct task *task;
    uint64_t clock;
    uint64_t rose; /* the clock at which INT rose last */
    size_t loaded;
    size_t stored;
    size_t takes;
};

static void must(int answer)
{
    if (answer != 0)
        fail("a call was refused that cannot be");
}

static void print_character(unsigned character, bool rfer, bool rover, bool rper)
{
    printf("%u", character);
    if (rfer)
        printf(", RFER");
    if (rover)
        printf(", ROVER");
    if (rper)
        printf(", RPER");
}

static void print_clock(const struct run *run)
{
    printf("  clock %" PRIu64 ": ", run->clock);
}

static void open_chip(struct run *run)
{
    const struct task *task = run->task;

    must(chip_open(&run->chip, task->control, task->rate, task->rate, 0));
    must(chip_put(&run->chip, 15, 1, 1)); /* TSTMD */
    must(chip_put(&run->chip, 16, 1, 1)); /* RTSON */
    must(chip_put(&run->chip, 18, 1, 1)); /* RIENB */
}

/* Step 1 */
static void load_next(struct run *run)
{
    if (run->loaded < run->task->label_length && run->chip.xbre) {
        must(chip_load(&run->chip, run->task->label[run->loaded]));
        run->loaded++;
    }
}

/* Step 3 */
static void print_stored(struct run *run, bool int_rises)
{
    const struct chip *chip = &run->chip;

    print_clock(run);
    printf("stored ");
    print_character(chip->receive_buffer, chip->rfer, chip->rover, chip->rper);
    if (int_rises)
        printf("; INT rises");
    printf("\n");
    run->stored++;
}

/* Step 4 */
static void take_character(struct run *run)
{
    struct taken taken;

    must(chip_take(&run->chip, &taken));
    run->takes++;
    print_clock(run);
    printf("taken ");
    print_character(taken.character, taken.rfer, taken.rover, taken.rper);
    printf("; INT falls\n");
    if (chip_int(&run->chip))
        fail("INT did not fall with a take");
}

static void one_clock(struct run *run)
{
    bool rsbd_before, int_before, int_rises;

    run->clock++;
    load_next(run);

    rsbd_before = run->chip.rsbd;
    int_before = chip_int(&run->chip);
    chip_clock(&run->chip, MARK, false);
    int_rises = !int_before && chip_int(&run->chip);
    if (int_rises)
        run->rose = run->clock;

    if (rsbd_before && !run->chip.rsbd)
        print_stored(run, int_rises);
    else if (int_rises)
        fail("INT rose without a stored character");

    if (chip_int(&run->chip) && run->clock >= run->rose + run->task->wait)
        take_character(run);
}

static void run_task(const struct task *task)
{
    struct run run;

    run.task = task;
    run.clock = 0;
    run.rose = 0;
    run.loaded = 0;
    run.stored = 0;
    run.takes = 0;
    open_chip(&run);

    printf("control %" PRIu32 ", rate %" PRIu32 ", wait %" PRIu32 ", label length %zu\n", task->control, task->rate, task->wait,
           task->label_length);
    do
        one_clock(&run);
    while (run.stored < task->label_length || chip_int(&run.chip));
    printf("  %zu of %zu characters taken after %" PRIu64 " clocks\n\n", run.takes, task->label_length, run.clock);
}

/* ---- The program ---- */

static void print_as_it_is(const struct line *line)
{
    for (size_t i = 0; i < line->length; i++)
        putchar(line->bytes[i]);
    putchar('\n');
}

static void print_refusal(uint64_t number, int cause)
{
    const char *words = cause == 3 ? "the fields are too few, too many, badly written or too large"
                                   : "a number, a length or a list is outside its range";

    printf("line %" PRIu64 " is refused: %s (cause %d, event index 0, no end)\n", number, words, cause);
}

static void serve_line(const struct line *line, uint64_t number)
{
    struct task task;

    if (line->length == 0 || line->bytes[0] == '#')
        print_as_it_is(line);
    else if (!read_fields(line, &task))
        print_refusal(number, 3);
    else if (!in_range(&task))
        print_refusal(number, 5);
    else
        run_task(&task);
}

int main(void)
{
    struct line line = {NULL, 0, 0};
    uint64_t number = 0;

    while (read_line(&line)) {
        number++;
        serve_line(&line, number);
    }
    free(line.bytes);
    if (fflush(stdout) != 0 || ferror(stdout))
        fail("cannot write");
    return 0;
}
