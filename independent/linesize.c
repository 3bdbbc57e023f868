/*
 * A second, independent `linesize`, written from docs/chip.md and docs/linesize.md alone.
 *
 * It exists to be compared with the real program: where the two print different bytes, one of them (or a document) is wrong.
 * So it shares no code with it, and it is plain rather than fast.
 *
 *     cc -std=c11 -Wall -Wextra -Wpedantic -O2 -o linesize linesize.c && ./linesize < input
 */
#include <stdbool.h>
#include <stdint.h>
#include <stdio.h>
#include <stdlib.h>
#include <string.h>

/* ---- Text: a stretch of bytes that may contain any byte, NUL included, so it carries its length. ---- */

typedef struct {
    const unsigned char *bytes;
    size_t length;
} Text;

static Text text_from(Text text, size_t start)
{
    return (Text){text.bytes + start, text.length - start};
}

static bool text_starts_with(Text text, const char *prefix)
{
    size_t length = strlen(prefix);
    return text.length >= length && memcmp(text.bytes, prefix, length) == 0;
}

static bool text_equals(Text text, const char *other)
{
    return text.length == strlen(other) && text_starts_with(text, other);
}

static void print_text(Text text)
{
    fwrite(text.bytes, 1, text.length, stdout);
}

/* ---- UTF-8 ---- */

static bool between(uint64_t low, uint64_t value, uint64_t high)
{
    return low <= value && value <= high;
}

/*
 * Reads the first character of a text that is not empty. Answers how many bytes it has, or 0 if they are not UTF-8: a stray or
 * missing continuation byte, more bytes than the character needs, a surrogate, or a character above 10FFFF.
 */
static size_t first_character(Text text, uint32_t *character)
{
    static const uint32_t smallest_of_size[] = {0, 0, 0x80, 0x800, 0x10000};
    unsigned char lead = text.bytes[0];
    size_t size;

    if (lead < 0x80) {
        *character = lead;
        return 1;
    }
    if (between(0xC0, lead, 0xDF)) {
        size = 2;
        *character = lead & 0x1F;
    } else if (between(0xE0, lead, 0xEF)) {
        size = 3;
        *character = lead & 0x0F;
    } else if (between(0xF0, lead, 0xF7)) {
        size = 4;
        *character = lead & 0x07;
    } else {
        return 0;
    }
    if (text.length < size) {
        return 0;
    }
    for (size_t i = 1; i < size; i++) {
        if (!between(0x80, text.bytes[i], 0xBF)) {
            return 0;
        }
        *character = *character << 6 | (text.bytes[i] & 0x3F);
    }
    bool surrogate = between(0xD800, *character, 0xDFFF);
    return !surrogate && between(smallest_of_size[size], *character, 0x10FFFF) ? size : 0;
}

static bool is_utf8(Text text)
{
    while (text.length > 0) {
        uint32_t character;
        size_t size = first_character(text, &character);
        if (size == 0) {
            return false;
        }
        text = text_from(text, size);
    }
    return true;
}

/*
 * All characters with the Unicode property White_Space. The document names spaces, tabs and carriage returns; the others are
 * white space too, and the decoder has to be here for the validity check anyway.
 */
static bool is_white_space(uint32_t character)
{
    return between(0x09, character, 0x0D) || character == 0x20 || character == 0x85 || character == 0xA0 ||
           character == 0x1680 || between(0x2000, character, 0x200A) || character == 0x2028 || character == 0x2029 ||
           character == 0x202F || character == 0x205F || character == 0x3000;
}

/* ---- Fields (of a line that is known to be UTF-8) ---- */

/* How many bytes at the start of the text are white space (wanted true), or are not (wanted false). */
static size_t leading_bytes(Text text, bool wanted)
{
    size_t count = 0;
    while (count < text.length) {
        uint32_t character;
        size_t size = first_character(text_from(text, count), &character);
        if (is_white_space(character) != wanted) {
            break;
        }
        count += size;
    }
    return count;
}

/* Takes the next field off the front of `rest`; false if there is none. */
static bool next_field(Text *rest, Text *field)
{
    *rest = text_from(*rest, leading_bytes(*rest, true));
    *field = (Text){rest->bytes, leading_bytes(*rest, false)};
    *rest = text_from(*rest, field->length);
    return field->length > 0;
}

/* The value of a digit of either base, or 16, which is no digit in any. */
static uint64_t digit_value(unsigned char byte)
{
    if (between('0', byte, '9')) {
        return (uint64_t)(byte - '0');
    }
    if (between('a', byte, 'f')) {
        return (uint64_t)(byte - 'a') + 10;
    }
    if (between('A', byte, 'F')) {
        return (uint64_t)(byte - 'A') + 10;
    }
    return 16;
}

/* False if the field is badly written or too large. There may be any number of leading zeros. */
static bool parse_number(Text field, uint64_t *number)
{
    uint64_t base = 10;
    if (text_starts_with(field, "0x")) {
        base = 16;
        field = text_from(field, 2);
    }
    if (field.length == 0) {
        return false;
    }
    *number = 0;
    for (size_t i = 0; i < field.length; i++) {
        uint64_t digit = digit_value(field.bytes[i]);
        if (digit >= base) {
            return false;
        }
        *number = *number * base + digit;
        /* Tested at every digit, so that a long row of digits cannot overflow. */
        if (*number > UINT64_C(4294967295)) {
            return false;
        }
    }
    return true;
}

static bool parse_nominal(Text figure, uint64_t *nominal)
{
    return text_starts_with(figure, "~") && parse_number(text_from(figure, 1), nominal) && *nominal > 0;
}

static bool is_figure(Text field)
{
    uint64_t ignored;
    return text_starts_with(field, "=") || parse_nominal(field, &ignored);
}

typedef struct {
    uint64_t control;
    uint64_t rate;
    uint64_t cable_delay;
    uint64_t label_length;
    Text figures; /* the rest of the line; each of its fields is a known figure */
} Request;

static bool next_number(Text *rest, uint64_t *number)
{
    Text field;
    return next_field(rest, &field) && parse_number(field, number);
}

static bool parse_request(Text line, Request *request)
{
    if (!next_number(&line, &request->control) || !next_number(&line, &request->rate) ||
        !next_number(&line, &request->cable_delay) || !next_number(&line, &request->label_length)) {
        return false;
    }
    request->figures = line;
    Text field;
    while (next_field(&line, &field)) {
        if (!is_figure(field)) {
            return false;
        }
    }
    return true;
}

static bool is_in_range(const Request *request)
{
    return request->control <= 255 && request->rate <= 2047 && request->cable_delay <= 65535 &&
           between(1, request->label_length, 65535);
}

/* ---- The chip ---- */

typedef struct {
    uint64_t data_bits;
    uint64_t parity_bits; /* 0 or 1 */
    bool odd;             /* says something only where there is a parity bit */
    uint64_t stop_half_bits;
    uint64_t divider; /* q */
} Format;

static Format format_of_control(uint64_t control)
{
    static const uint64_t stop_half_bits[] = {3, 4, 2, 2};
    return (Format){
        .data_bits = 5 + (control & 3),
        .parity_bits = control >> 5 & 1,
        .odd = (control >> 4 & 1) == 1,
        .stop_half_bits = stop_half_bits[control >> 6 & 3],
        .divider = (control >> 3 & 1) == 1 ? 4 : 3,
    };
}

/* H, in internal clocks. */
static uint64_t half_bit_count(uint64_t rate)
{
    uint64_t m = (rate >> 10 & 1) == 1 ? 8 : 1;
    uint64_t n = rate & 1023;
    return m * (n == 0 ? 1024 : n);
}

/* Times in phi clocks. */
typedef struct {
    uint64_t bit;
    uint64_t character;
    uint64_t deadline;
} Timing;

static Timing timing_of(Format format, uint64_t half_bit, uint64_t cable_delay)
{
    uint64_t half_bit_phi = format.divider * half_bit;
    uint64_t bits = format.data_bits + format.parity_bits;
    return (Timing){
        .bit = 2 * half_bit_phi,
        .character = half_bit_phi * (2 + 2 * bits + format.stop_half_bits),
        .deadline = 2 * format.divider + cable_delay + half_bit_phi * (2 * bits + 3),
    };
}

/* ---- Figures with two decimals are kept as whole numbers of hundredths, so that nothing is lost on the way. ---- */

static uint64_t divide_to_nearest(uint64_t dividend, uint64_t divisor)
{
    return (2 * dividend + divisor) / (2 * divisor); /* a half goes up */
}

static uint64_t divide_up(uint64_t dividend, uint64_t divisor)
{
    return (dividend + divisor - 1) / divisor;
}

typedef struct {
    char text[32];
} Decimal;

/* The one place that writes two decimals, so that an exact figure is compared with just what would be printed. */
static Decimal decimal_of_hundredths(uint64_t hundredths)
{
    Decimal decimal;
    snprintf(decimal.text, sizeof decimal.text, "%llu.%02llu", (unsigned long long)(hundredths / 100),
             (unsigned long long)(hundredths % 100));
    return decimal;
}

static uint64_t bit_rate_hundredths(uint64_t phi_megahertz, uint64_t bit)
{
    return divide_to_nearest(100 * 1000000 * phi_megahertz, bit);
}

/* ---- Output ---- */

static const char *parity_words(Format format)
{
    if (format.parity_bits == 0) {
        return "no parity";
    }
    return format.odd ? "odd parity" : "even parity";
}

static char parity_letter(Format format)
{
    if (format.parity_bits == 0) {
        return 'N';
    }
    return format.odd ? 'O' : 'E';
}

static const char *stop_digits(Format format)
{
    switch (format.stop_half_bits) {
    case 2:
        return "1";
    case 3:
        return "1.5";
    default:
        return "2";
    }
}

static void print_speed(uint64_t phi_megahertz, Timing timing, uint64_t label_length)
{
    uint64_t phi_clocks_a_minute = 60 * 1000000 * phi_megahertz;
    uint64_t labels_a_minute = phi_clocks_a_minute / (label_length * timing.character);
    Decimal bit_rate = decimal_of_hundredths(bit_rate_hundredths(phi_megahertz, timing.bit));
    /* So many megahertz are so many clocks a microsecond. */
    Decimal microseconds = decimal_of_hundredths(divide_up(100 * timing.deadline, phi_megahertz));

    printf("  at %llu MHz    %s bits/s, deadline %s us, %llu labels a minute\n", (unsigned long long)phi_megahertz,
           bit_rate.text, microseconds.text, (unsigned long long)labels_a_minute);
}

/* An exact figure is met by the short format or by the bit rate, each as it would be printed. */
static void print_exact(Text wanted, Format format, uint64_t rate_hundredths)
{
    char short_format[32];
    Decimal bit_rate = decimal_of_hundredths(rate_hundredths);
    snprintf(short_format, sizeof short_format, "%llu%c%s", (unsigned long long)format.data_bits, parity_letter(format),
             stop_digits(format));
    bool met = text_equals(wanted, short_format) || text_equals(wanted, bit_rate.text);

    printf("  known       ");
    print_text(wanted);
    printf(": %s\n", met ? "met" : "MISSED");
}

static void print_nominal(uint64_t nominal, uint64_t rate_hundredths)
{
    uint64_t wanted = 100 * nominal;
    bool below = rate_hundredths < wanted;
    uint64_t off = below ? wanted - rate_hundredths : rate_hundredths - wanted;
    /* One percent of N is N hundredths. The distance is compared before it is rounded to be shown: 1.004 % is a miss. */
    bool met = off <= nominal;

    Decimal percent = decimal_of_hundredths(divide_to_nearest(100 * off, nominal));

    printf("  known       %llu bits/s, nominal: %s, %s %% %s\n", (unsigned long long)nominal, met ? "met" : "MISSED",
           percent.text, below ? "below" : "above");
}

static void print_figures(Text figures, Format format, uint64_t rate_hundredths)
{
    Text figure;
    while (next_field(&figures, &figure)) {
        uint64_t nominal;
        if (parse_nominal(figure, &nominal)) {
            print_nominal(nominal, rate_hundredths);
        } else {
            print_exact(text_from(figure, 1), format, rate_hundredths);
        }
    }
}

static void print_block(const Request *request)
{
    Format format = format_of_control(request->control);
    uint64_t half_bit = half_bit_count(request->rate);
    Timing timing = timing_of(format, half_bit, request->cable_delay);

    printf("control %llu, rate %llu, cable delay %llu, label length %llu\n", (unsigned long long)request->control,
           (unsigned long long)request->rate, (unsigned long long)request->cable_delay,
           (unsigned long long)request->label_length);
    printf("  format      %llu bits, %s, %s stop %s\n", (unsigned long long)format.data_bits, parity_words(format),
           stop_digits(format), format.stop_half_bits == 2 ? "bit" : "bits");
    printf("  half bit    H = %llu, in internal clocks of q = %llu phi clocks\n", (unsigned long long)half_bit,
           (unsigned long long)format.divider);
    printf("  bit         %llu phi clocks\n", (unsigned long long)timing.bit);
    printf("  character   %llu phi clocks back to back\n", (unsigned long long)timing.character);
    printf("  deadline    %llu phi clocks\n", (unsigned long long)timing.deadline);
    print_speed(3, timing, request->label_length);
    if (format.divider == 4) {
        print_speed(4, timing, request->label_length);
    }
    /* Known figures are for an internal clock of 1 MHz: there phi has as many megahertz as q says. */
    print_figures(request->figures, format, bit_rate_hundredths(format.divider, timing.bit));
    printf("\n");
}

static void print_refusal(uint64_t line_number, int cause)
{
    const char *reason = cause == 3 ? "the fields are too few, too many, badly written or too large"
                                    : "a number, a length or a list is outside its range";
    printf("line %llu is refused: %s (cause %d, event index 0, no end)\n", (unsigned long long)line_number, reason, cause);
}

static bool is_printed_as_it_is(Text line)
{
    return text_starts_with(line, "#") || leading_bytes(line, true) == line.length;
}

static void answer_line(Text line, uint64_t line_number)
{
    Request request;
    if (!is_utf8(line)) { /* first of all, and for a line with # too: text is what everything else is said about */
        print_refusal(line_number, 3);
    } else if (is_printed_as_it_is(line)) {
        print_text(line);
        printf("\n"); /* also where the last line has no line end of its own */
    } else if (!parse_request(line, &request)) {
        print_refusal(line_number, 3);
    } else if (!is_in_range(&request)) {
        print_refusal(line_number, 5);
    } else {
        print_block(&request);
    }
}

/* ---- Input ---- */

static void fail(const char *reason)
{
    fprintf(stderr, "linesize: %s\n", reason);
    exit(EXIT_FAILURE);
}

typedef struct {
    unsigned char *bytes;
    size_t length;
    size_t capacity;
} Buffer;

static void append(Buffer *buffer, unsigned char byte)
{
    if (buffer->length == buffer->capacity) {
        buffer->capacity *= 2;
        buffer->bytes = realloc(buffer->bytes, buffer->capacity);
        if (buffer->bytes == NULL) {
            fail("out of memory");
        }
    }
    buffer->bytes[buffer->length++] = byte;
}

/* Reads up to byte 10, which is not kept. False at the end of the input, if no byte follows the last line end. */
static bool read_line(Buffer *line)
{
    line->length = 0;
    for (;;) {
        int byte = getchar();
        if (byte == EOF) {
            return line->length > 0;
        }
        if (byte == 10) {
            return true;
        }
        append(line, (unsigned char)byte);
    }
}

int main(void)
{
    Buffer line = {.bytes = malloc(256), .length = 0, .capacity = 256};
    if (line.bytes == NULL) {
        fail("out of memory");
    }
    for (uint64_t line_number = 1; read_line(&line); line_number++) {
        answer_line((Text){line.bytes, line.length}, line_number);
    }
    free(line.bytes);
    if (ferror(stdin)) {
        fail("standard input cannot be read");
    }
    if (fflush(stdout) != 0 || ferror(stdout)) {
        fail("standard output cannot be written");
    }
    return EXIT_SUCCESS;
}
