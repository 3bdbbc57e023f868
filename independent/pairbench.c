/* The script program, written from docs/script.md alone: reads lines from standard input, drives one bench over a straight cable with them,
 * and prints one answer line for each.
 *
 * What the page leaves open: the exit status is 0 unless reading or writing fails. */

#include "bench.h"

#include <stdio.h>
#include <stdlib.h>

enum { LONGEST_LINE = 80, MOST_LINES = 1000000, MOST_FIELDS = 4 };

/* ---- Lines ---- */

struct line {
    unsigned char bytes[LONGEST_LINE]; /* the first ones, without the closing byte 10 */
    size_t length;                     /* of the whole line, without the closing byte 10 */
};

/* A line ends at byte 10; what is behind the last byte 10 is a line if it has a byte. False where no line is left. */
static bool read_line(struct line *line)
{
    int byte = getchar();

    line->length = 0;
    if (byte == EOF)
        return false;
    while (byte != EOF && byte != 10) {
        if (line->length < LONGEST_LINE)
            line->bytes[line->length] = (unsigned char)byte;
        line->length++;
        byte = getchar();
    }
    return true;
}

/* ---- Fields ---- */

/* A line taken apart: a letter and its fields. */
struct order {
    char letter;
    unsigned count;
    uint32_t field[MOST_FIELDS];
};

/* How many fields follow each letter. */
static const struct {
    char letter;
    unsigned count;
} forms[] = {{'O', 4}, {'M', 1}, {'P', 4}, {'G', 3}, {'L', 2}, {'T', 1}};

static bool has_digit(const struct line *line, size_t at)
{
    return at < line->length && line->bytes[at] >= '0' && line->bytes[at] <= '9';
}

/* A decimal number from 0 to 4,294,967,295 without leading zeros. *at moves behind it. */
static bool read_number(const struct line *line, size_t *at, uint32_t *number)
{
    size_t first = *at;
    uint64_t value = 0;

    while (has_digit(line, *at)) {
        value = value * 10 + (uint64_t)(line->bytes[*at] - '0');
        if (value > UINT32_MAX)
            return false;
        ++*at;
    }
    if (*at == first)
        return false;
    if (line->bytes[first] == '0' && *at > first + 1)
        return false;
    *number = (uint32_t)value;
    return true;
}

/* Exactly one space, then a number. */
static bool read_field(const struct line *line, size_t *at, uint32_t *number)
{
    if (*at >= line->length || line->bytes[*at] != ' ')
        return false;
    ++*at;
    return read_number(line, at, number);
}

/* The letter that a line begins with, and how many fields it wants. False if it is none of the six. */
static bool read_letter(const struct line *line, struct order *order)
{
    if (line->length == 0)
        return false;
    for (size_t i = 0; i < sizeof forms / sizeof forms[0]; i++) {
        if (line->bytes[0] == (unsigned char)forms[i].letter) {
            order->letter = forms[i].letter;
            order->count = forms[i].count;
            return true;
        }
    }
    return false;
}

/* All fields, and nothing behind them. */
static bool read_fields(const struct line *line, struct order *order)
{
    size_t at = 1;

    for (unsigned i = 0; i < order->count; i++) {
        if (!read_field(line, &at, &order->field[i]))
            return false;
    }
    return at == line->length;
}

/* Causes 1, 2 and 3, in this order. */
static struct refusal read_order(const struct line *line, struct order *order)
{
    if (line->length > LONGEST_LINE)
        return refused(LINE_TOO_LONG, 0, NO_END);
    if (!read_letter(line, order))
        return refused(UNKNOWN_COMMAND, 0, NO_END);
    if (!read_fields(line, order))
        return refused(BAD_FIELDS, 0, NO_END);
    return accepted();
}

/* ---- Answers ---- */

static void print_refusal(uint32_t line_number, struct refusal refusal)
{
    printf("? %lu %lu %lu %d\n", (unsigned long)line_number, (unsigned long)refusal.index, (unsigned long)refusal.end, refusal.cause);
}

static struct refusal ok(struct refusal refusal)
{
    if (refusal.cause == 0)
        puts("ok");
    return refusal;
}

static struct refusal do_get(const struct bench *bench, const uint32_t *field)
{
    uint32_t answer = 0;
    struct refusal refusal = bench_get(bench, field[0], field[1], field[2], &answer);

    if (refusal.cause == 0)
        printf("%lu\n", (unsigned long)answer);
    return refusal;
}

static struct refusal do_take(struct bench *bench, const uint32_t *field)
{
    struct taken taken;
    struct refusal refusal = bench_take(bench, field[0], &taken);

    if (refusal.cause == 0)
        printf("%u %d %d %d\n", taken.character, taken.rfer, taken.rover, taken.rper);
    return refusal;
}

/* Does what the line says and prints its answer, unless it is refused. */
static struct refusal do_order(struct bench *bench, const struct order *order)
{
    const uint32_t *field = order->field;

    switch (order->letter) {
    case 'O': /* at clock 0 */
        return ok(bench_open(bench, 0, field[0], field[1], field[2], field[3]));
    case 'M':
        return ok(bench_moments(bench, field[0]));
    case 'P':
        return ok(bench_put(bench, field[0], field[1], field[2], field[3]));
    case 'G':
        return do_get(bench, field);
    case 'L':
        return ok(bench_load(bench, field[0], field[1]));
    default: /* T */
        return do_take(bench, field);
    }
}

static void serve_line(struct bench *bench, const struct line *line, uint32_t line_number)
{
    struct order order;
    struct refusal refusal = read_order(line, &order);

    if (refusal.cause == 0)
        refusal = do_order(bench, &order);
    if (refusal.cause != 0)
        print_refusal(line_number, refusal);
}

int main(void)
{
    static struct cable cable;
    struct bench bench;
    struct line line;

    cable_straight(&cable);
    bench_new(&bench, &cable);
    /* Lines after the first 1,000,000 are not read and have no answer. */
    for (uint32_t line_number = 1; line_number <= MOST_LINES && read_line(&line); line_number++)
        serve_line(&bench, &line, line_number);
    if (ferror(stdin) || fflush(stdout) != 0 || ferror(stdout)) {
        fputs("pairbench: cannot read or write\n", stderr);
        return EXIT_FAILURE;
    }
    return EXIT_SUCCESS;
}
