/* The chip script program, written from docs/chipscript.md alone, over the chip of chip.c.
 *
 * What the page leaves open: white space is what isspace says in the C locale, and may also stand before the letter and at the end of a
 * line; a number is one or more of the digits 0 to 9, leading zeros and all, without a sign; an empty line is a line that prints ?; a last
 * line without its newline is a line. */

#include "chip.h"

#include <ctype.h>
#include <stdio.h>
#include <stdlib.h>

enum { MOST_NUMBERS = 4 };

/* Larger than every number that a line may have. */
#define TOO_LARGE ((uint64_t)UINT32_MAX + 1)

/* ---- Lines ---- */

struct line {
    char *bytes;
    size_t length;
    size_t room;
};

static void append(struct line *line, char byte)
{
    if (line->length == line->room) {
        line->room = line->room == 0 ? 128 : 2 * line->room;
        line->bytes = realloc(line->bytes, line->room);
        if (line->bytes == NULL) {
            fputs("chipscript: no memory for a line\n", stderr);
            exit(EXIT_FAILURE);
        }
    }
    line->bytes[line->length] = byte;
    line->length++;
}

/* Reads a line without its newline. False where nothing is left. */
static bool read_line(struct line *line)
{
    int byte = getchar();

    line->length = 0;
    if (byte == EOF)
        return false;
    while (byte != EOF && byte != '\n') {
        append(line, (char)byte);
        byte = getchar();
    }
    return true;
}

/* ---- Words ---- */

struct word {
    const char *bytes;
    size_t length; /* 0: the line has no more words */
};

static bool is_space(char byte)
{
    return isspace((unsigned char)byte) != 0;
}

/* The next word of the line from *at on; *at moves behind it. */
static struct word next_word(const struct line *line, size_t *at)
{
    struct word word = {NULL, 0};

    while (*at < line->length && is_space(line->bytes[*at]))
        ++*at;
    if (*at == line->length)
        return word;
    word.bytes = line->bytes + *at;
    while (*at < line->length && !is_space(line->bytes[*at])) {
        ++*at;
        word.length++;
    }
    return word;
}

/* The number that a word writes, TOO_LARGE for every number that is as large. False if it is none. */
static bool word_number(struct word word, uint64_t *number)
{
    *number = 0;
    for (size_t i = 0; i < word.length; i++) {
        char byte = word.bytes[i];

        if (byte < '0' || byte > '9')
            return false;
        *number = *number * 10 + (uint64_t)(byte - '0');
        if (*number > TOO_LARGE)
            *number = TOO_LARGE;
    }
    return word.length > 0;
}

/* ---- Orders ---- */

/* A line taken apart: a letter and its numbers. */
struct order {
    char letter;
    unsigned count;
    uint32_t number[MOST_NUMBERS];
};

/* What follows each letter: how many numbers, and the largest of each. */
static const struct order forms[] = {
    {'O', 4, {CONTROL_MAX, RATE_MAX, RATE_MAX, INTERVAL_MAX}},
    {'W', 2, {31, 1, 0, 0}},
    {'C', 3, {UINT32_MAX, 1, 1, 0}},
    {'D', 1, {1, 0, 0, 0}},
    {'P', 3, {31, 16, 65535, 0}},
    {'G', 2, {31, 16, 0, 0}},
    {'L', 1, {CHARACTER_MAX, 0, 0, 0}},
    {'T', 0, {0, 0, 0, 0}},
};

static const struct order *form_of(struct word word)
{
    if (word.length != 1)
        return NULL;
    for (size_t i = 0; i < sizeof forms / sizeof forms[0]; i++) {
        if (forms[i].letter == word.bytes[0])
            return &forms[i];
    }
    return NULL;
}

/* The bits of a put or a get are 1 to 16, and end at address 31 or before. */
static bool bits_fit(const struct order *order)
{
    if (order->letter != 'P' && order->letter != 'G')
        return true;
    return order->number[1] >= 1 && order->number[0] + order->number[1] <= 32;
}

/* False for a line that is not for this program. */
static bool read_order(const struct line *line, struct order *order)
{
    size_t at = 0;
    const struct order *form = form_of(next_word(line, &at));

    if (form == NULL)
        return false;
    *order = *form;
    for (unsigned i = 0; i < form->count; i++) {
        uint64_t number;

        if (!word_number(next_word(line, &at), &number) || number > form->number[i])
            return false;
        order->number[i] = (uint32_t)number;
    }
    return next_word(line, &at).length == 0 && bits_fit(order);
}

/* ---- Answers ---- */

static void print_refusal(int32_t answer)
{
    printf("refused %ld", -(long)answer);
}

static void print_accepted(int answer)
{
    if (answer < 0)
        print_refusal(answer);
    else
        fputs("ok", stdout);
}

static void do_open(struct chip *chip, const uint32_t *number)
{
    /* The line has the transmit rate first, chip_open the receive rate. */
    print_accepted(chip_open(chip, number[0], number[2], number[1], number[3]));
}

static void do_write(struct chip *chip, const uint32_t *number)
{
    chip_output_bit(chip, number[0], number[1] == 1);
    print_accepted(0);
}

static void do_clocks(struct chip *chip, const uint32_t *number)
{
    for (uint32_t i = 0; i < number[0]; i++)
        chip_clock(chip, number[1] == 1 ? MARK : SPACE, number[2] == 1);
    print_accepted(0);
}

static void do_dsr(struct chip *chip, const uint32_t *number)
{
    chip_set_dsr(chip, number[0] == 1);
    print_accepted(0);
}

static void do_put(struct chip *chip, const uint32_t *number)
{
    print_accepted(chip_put(chip, number[0], number[1], number[2]));
}

static void do_get(const struct chip *chip, const uint32_t *number)
{
    int32_t answer = chip_get(chip, number[0], number[1]);

    if (answer < 0)
        print_refusal(answer);
    else
        printf("%ld", (long)answer);
}

static void do_load(struct chip *chip, const uint32_t *number)
{
    print_accepted(chip_load(chip, number[0]));
}

static void do_take(struct chip *chip)
{
    struct taken taken;
    int answer = chip_take(chip, &taken);

    if (answer < 0)
        print_refusal(answer);
    else
        printf("%u %d %d %d", taken.character, taken.rfer, taken.rover, taken.rper);
}

static void do_order(struct chip *chip, const struct order *order)
{
    switch (order->letter) {
    case 'O':
        do_open(chip, order->number);
        break;
    case 'W':
        do_write(chip, order->number);
        break;
    case 'C':
        do_clocks(chip, order->number);
        break;
    case 'D':
        do_dsr(chip, order->number);
        break;
    case 'P':
        do_put(chip, order->number);
        break;
    case 'G':
        do_get(chip, order->number);
        break;
    case 'L':
        do_load(chip, order->number);
        break;
    default: /* T */
        do_take(chip);
        break;
    }
}

/* ---- What can be seen ---- */

static uint32_t input_bits(const struct chip *chip)
{
    uint32_t bits = 0;

    for (unsigned address = 0; address < 32; address++) {
        if (chip_input_bit(chip, address))
            bits |= (uint32_t)1 << address;
    }
    return bits;
}

static void print_seen(const struct chip *chip)
{
    printf(" %lu %d\n", (unsigned long)input_bits(chip), chip->xout == MARK ? 1 : 0);
}

static void serve_line(struct chip *chip, const struct line *line)
{
    struct order order;

    if (!read_order(line, &order)) {
        puts("?");
        return;
    }
    do_order(chip, &order);
    print_seen(chip);
}

int main(void)
{
    struct chip chip;
    struct line line = {NULL, 0, 0};

    chip_open(&chip, 0, 0, 0, 0);
    while (read_line(&line))
        serve_line(&chip, &line);
    free(line.bytes);
    if (ferror(stdin) || fflush(stdout) != 0 || ferror(stdout)) {
        fputs("chipscript: cannot read or write\n", stderr);
        return EXIT_FAILURE;
    }
    return EXIT_SUCCESS;
}
