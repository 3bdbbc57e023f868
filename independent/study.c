/* A second, independent `study`, written from docs/study.md alone, over the independent bench (bench.h).
 *
 * It exists to be compared with the real program, so it shares no code with it, and it is plain rather than fast. The functions stand in
 * the order of the page's sentences. Where the page did not say what happens, the comment has the reading that was taken; the page has it since.
 *
 *     cc -std=c11 -Wall -Wextra -Wpedantic -O2 -o study study.c bench.c cable.c chip.c && ./study < cases
 */

#include "bench.h"

#include <inttypes.h>
#include <stdio.h>
#include <stdlib.h>
#include <string.h>

/* The first number of a row, and the word above it, stand in 14 columns. */
#define FIRST_COLUMN 14

enum { FIELDS = 7, RUNS = 17, TOTES = 20, MOST_LENGTH = 32, MOST_CHARACTERS = TOTES * MOST_LENGTH, MARGIN = 64 };

/* Input bits */
enum { RPER = 10, ROVER = 11, RFER = 12, RSBD = 14, RBRL = 21, XBRE = 22 };

/* Output bits */
enum { RTSON = 16, RIENB = 18 };

static void give_up(const char *reason)
{
    fprintf(stderr, "study: %s\n", reason);
    exit(EXIT_FAILURE);
}

/* ---- A case: seven fields, each after exactly one space but the first ---- */

/* Bytes of a line; any byte may be among them. */
struct text {
    const char *bytes;
    size_t length;
};

/* Answers how many fields the line has. Those behind the seventh are only counted. So two spaces have an empty field between them. */
static size_t split(struct text line, struct text fields[FIELDS])
{
    size_t count = 0;
    size_t start = 0;

    for (size_t i = 0; i <= line.length; i++) {
        if (i == line.length || line.bytes[i] == ' ') {
            if (count < FIELDS) {
                fields[count].bytes = line.bytes + start;
                fields[count].length = i - start;
            }
            count++;
            start = i + 1;
        }
    }
    return count;
}

/* Numbers are decimal. Leading zeros are read here; a number too large for a register is above every range. */
static bool read_number(struct text field, uint32_t *number)
{
    uint64_t value = 0;

    for (size_t i = 0; i < field.length; i++) {
        char byte = field.bytes[i];

        if (byte < '0' || byte > '9')
            return false;
        value = value * 10 + (uint64_t)(byte - '0');
        if (value > UINT32_MAX)
            value = UINT32_MAX;
    }
    *number = (uint32_t)value;
    return field.length > 0;
}

enum cable_kind { STRAIGHT, DELAY, NOISE };

static bool is_word(struct text field, const char *word)
{
    return field.length == strlen(word) && memcmp(field.bytes, word, field.length) == 0;
}

static bool read_cable(struct text field, enum cable_kind *kind)
{
    if (is_word(field, "straight"))
        *kind = STRAIGHT;
    else if (is_word(field, "delay"))
        *kind = DELAY;
    else if (is_word(field, "noise"))
        *kind = NOISE;
    else
        return false;
    return true;
}

/* Control, rate, cable, a number for the cable, label length, look, work. */
struct study_case {
    uint32_t control;
    uint32_t rate;
    enum cable_kind cable;
    uint32_t cable_number;
    uint32_t length;
    uint32_t look;
    uint32_t work;
};

/* Is the line of this form? */
static bool read_case(struct text line, struct study_case *study)
{
    struct text fields[FIELDS];

    return split(line, fields) == FIELDS && read_number(fields[0], &study->control) && read_number(fields[1], &study->rate) &&
           read_cable(fields[2], &study->cable) && read_number(fields[3], &study->cable_number) &&
           read_number(fields[4], &study->length) && read_number(fields[5], &study->look) && read_number(fields[6], &study->work);
}

/* ---- Ranges ---- */

static bool between(uint32_t low, uint32_t number, uint32_t high)
{
    return low <= number && number <= high;
}

static bool is_cable_number(enum cable_kind kind, uint32_t number)
{
    switch (kind) {
    case STRAIGHT:
        return number == 0;
    case DELAY:
        return between(1, number, MOST_WAITING);
    case NOISE:
        return between(1, number, 1000000);
    }
    return false;
}

static bool is_in_range(const struct study_case *study)
{
    return study->control <= CONTROL_MAX && study->rate <= RATE_MAX && is_cable_number(study->cable, study->cable_number) &&
           between(1, study->length, MOST_LENGTH) && between(1, study->look, 1000000) && study->work <= 1000000;
}

/* Steps toward B, counted from 0, of numbers n - 1, 2n - 1, 3n - 1 and so on, 4,096 of them, are inverted. */
static struct refusal set_noise(struct cable *cable, uint32_t n)
{
    static uint32_t numbers[MOST_FLIPS];
    const struct list toward_b = {numbers, MOST_FLIPS};
    const struct list toward_a = {NULL, 0};

    for (uint32_t i = 0; i < MOST_FLIPS; i++)
        numbers[i] = (i + 1) * n - 1; /* at most 4,095,999,999 */
    return cable_set_flips(cable, toward_b, toward_a);
}

/* ---- A run: its figures ---- */

/* C: the phi clocks of a character back to back, q x H x (2 + 2 x (L + P) + stop half-bits) */
static uint32_t character_clocks(const struct study_case *study)
{
    struct format format = control_format(study->control);
    uint32_t bits = format.data_bits + (format.parity ? 1 : 0);

    return control_q(study->control) * half_bit_count(study->rate) * (2 + 2 * bits + format.stop_half_bits);
}

/* W = length x C */
static uint32_t label_clocks(const struct study_case *study)
{
    return study->length * character_clocks(study);
}

/* s = look + work */
static uint32_t slack(const struct study_case *study)
{
    return study->look + study->work;
}

/* I = W + s x (16 - k) / 8, rounded down */
static uint32_t interval_of_run(const struct study_case *study, uint32_t k)
{
    return label_clocks(study) + slack(study) * (16 - k) / 8;
}

/* D */
static uint32_t cable_delay(const struct study_case *study)
{
    return study->cable == DELAY ? study->cable_number : 0;
}

/* E = 20 x I + W + s + D + 64 */
static uint32_t moments_of_run(const struct study_case *study, uint32_t interval)
{
    return TOTES * interval + label_clocks(study) + slack(study) + cable_delay(study) + MARGIN;
}

/* ---- A run: its state ---- */

/* All characters of a run are numbered from 0 in the order in which they join the queue: character i of label j is j x length + i. */
enum fate { NOT_READ, READ_UNDAMAGED, READ_DAMAGED, OVERWRITTEN, MISSED, NEVER_READ };

struct loss {
    uint32_t clock; /* that the moment left in which it was lost */
    uint32_t character;
    enum fate fate;
    bool rbrl, rfer, rover, rper; /* of B after that moment */
};

struct run {
    const struct study_case *study;
    uint32_t interval;
    uint32_t moments;
    struct bench *bench;
    uint32_t joined; /* how many characters have joined the queue */
    uint32_t loaded; /* and how many have left it */
    uint32_t stored; /* how many have been stored at B */
    uint32_t at_work_up_to;
    enum fate fates[MOST_CHARACTERS];
    bool has_loss;
    struct loss first_loss;
};

static uint32_t characters_of_run(const struct run *run)
{
    return TOTES * run->study->length;
}

/* The bench refuses nothing that is asked of it here. */
static void must(struct refusal refusal)
{
    if (refusal.cause != 0)
        give_up("the bench has refused a call");
}

static uint32_t get(const struct run *run, uint32_t end, uint32_t address, uint32_t count)
{
    uint32_t answer = 0;

    must(bench_get(run->bench, end, address, count, &answer));
    return answer;
}

static bool bit(const struct run *run, uint32_t end, uint32_t address)
{
    return get(run, end, address, 1) == 1;
}

/* ---- A run opens the bench anew over a new cable, at clock 0 ---- */

static void new_cable(struct cable *cable, const struct study_case *study)
{
    switch (study->cable) {
    case STRAIGHT:
        cable_straight(cable);
        break;
    case DELAY:
        cable_delaying(cable);
        must(cable_set_lengths(cable, study->cable_number, study->cable_number));
        break;
    case NOISE:
        cable_disturbed(cable);
        must(set_noise(cable, study->cable_number));
        break;
    }
}

/* Both directions have this rate, the interval register is 0. */
static void open_run(struct run *run, const struct study_case *study, uint32_t k)
{
    static struct cable cable;
    static struct bench bench;

    memset(run, 0, sizeof *run); /* so every fate is NOT_READ, and the board is at work before no moment from 1 on */
    run->study = study;
    run->interval = interval_of_run(study, k);
    run->moments = moments_of_run(study, run->interval);
    run->bench = &bench;
    new_cable(&cable, study);
    bench_new(&bench, &cable);
    must(bench_open(&bench, 0, study->control, study->rate, study->rate, 0));
}

/* Moment 0 has two events: 1 is written to output bit 16 of A and then of B. */
static void moment_0(struct run *run)
{
    struct event events[] = {{END_A, WRITE, RTSON, 1, 0}, {END_B, WRITE, RTSON, 1, 0}};

    must(bench_moment(run->bench, events, 2));
}

/* ---- Before each moment t from 1 on ---- */

/* 1. A tote j, from 0 to 19, comes at t = 1 + j x I: its characters join the back of the scanner's queue. */
static void tote_comes(struct run *run, uint32_t t)
{
    if ((t - 1) % run->interval == 0 && (t - 1) / run->interval < TOTES)
        run->joined += run->study->length;
}

/* Character i of a label, from 0, has the code i. */
static uint32_t code_of(const struct run *run, uint32_t character)
{
    return character % run->study->length;
}

/* 2. If the queue has a character and A's XBRE is 1, the first of the queue is loaded at A. */
static void load_the_first(struct run *run)
{
    if (run->loaded < run->joined && bit(run, END_A, XBRE)) {
        must(bench_load(run->bench, END_A, code_of(run, run->loaded)));
        run->loaded++;
    }
}

/* It is damaged if its code is not the one that was loaded (cut to L bits), or RPER or RFER is 1. */
static bool is_damaged(const struct run *run, uint32_t character)
{
    uint32_t code = code_of(run, character) % (UINT32_C(1) << control_format(run->study->control).data_bits);

    return get(run, END_B, 0, 8) != code || bit(run, END_B, RPER) || bit(run, END_B, RFER);
}

static bool is_last_of_label(const struct run *run, uint32_t character)
{
    return code_of(run, character) == run->study->length - 1;
}

/* The one in the receive buffer is the one that was stored last. What is stored once all characters of the run have been belongs to
 * none; the board reads it, and writes bit 18, all the same. */
static void read_the_buffer(struct run *run, uint32_t t)
{
    uint32_t character = run->stored - 1;

    if (character >= characters_of_run(run))
        return;
    run->fates[character] = is_damaged(run, character) ? READ_DAMAGED : READ_UNDAMAGED;
    /* At work before each moment up to t + work, that one included. */
    if (is_last_of_label(run, character))
        run->at_work_up_to = t + run->study->work;
}

/* 3. If the board is not at work and t is a multiple of look, it looks: if B's RBRL is 1 it reads. Answers whether moment t has an event. */
static bool look(struct run *run, uint32_t t)
{
    if (t <= run->at_work_up_to || t % run->study->look != 0)
        return false;
    if (!bit(run, END_B, RBRL))
        return false;
    read_the_buffer(run, t);
    return true;
}

/* ---- Moment t ---- */

/* The first loss has what stands after the moment in which the character was lost. */
static void lose(struct run *run, uint32_t character, enum fate fate)
{
    run->fates[character] = fate;
    if (run->has_loss)
        return;
    run->has_loss = true;
    run->first_loss.clock = run->bench->clock;
    run->first_loss.character = character;
    run->first_loss.fate = fate;
    run->first_loss.rbrl = bit(run, END_B, RBRL);
    run->first_loss.rfer = bit(run, END_B, RFER);
    run->first_loss.rover = bit(run, END_B, ROVER);
    run->first_loss.rper = bit(run, END_B, RPER);
}

/* Overwritten unread: another is stored while it has not been read. One that was missed is lost already. */
static void overwrite_the_one_before(struct run *run)
{
    if (run->stored == 0 || run->stored > characters_of_run(run))
        return;
    if (run->fates[run->stored - 1] == NOT_READ)
        lose(run, run->stored - 1, OVERWRITTEN);
}

/* Characters are stored at B in the order in which they were loaded. Noise may have B store when nothing was sent, or store nothing of
 * what was sent; here the nth that is stored counts as the nth of the run, whether it was loaded or not. */
static void store(struct run *run, bool has_event)
{
    overwrite_the_one_before(run);
    /* Missed: it is stored in the very moment whose event writes bit 18 for the one before it. */
    if (has_event && run->stored < characters_of_run(run))
        lose(run, run->stored, MISSED);
    run->stored++;
}

/* Moment t has one event, 0 is written to output bit 18 of B, or none. One is stored in a moment in which B's RSBD goes from 1 to 0. */
static void moment_t(struct run *run, bool has_event)
{
    struct event event = {END_B, WRITE, RIENB, 0, 0};
    bool before = bit(run, END_B, RSBD);

    must(bench_moment(run->bench, &event, has_event ? 1 : 0));
    if (before && !bit(run, END_B, RSBD))
        store(run, has_event);
}

/* Lost when the run ends before it was read: in the last moment. */
static void end_run(struct run *run)
{
    for (uint32_t character = 0; character < characters_of_run(run); character++) {
        if (run->fates[character] == NOT_READ)
            lose(run, character, NEVER_READ);
    }
}

static void do_run(struct run *run, const struct study_case *study, uint32_t k)
{
    open_run(run, study, k);
    moment_0(run);
    for (uint32_t t = 1; t < run->moments; t++) {
        tote_comes(run, t);
        load_the_first(run);
        moment_t(run, look(run, t));
    }
    end_run(run);
}

/* ---- Labels ---- */

struct result {
    uint32_t interval;
    uint32_t whole, lost, damaged;
    uint32_t moments;
};

static bool was_lost(enum fate fate)
{
    return fate == OVERWRITTEN || fate == MISSED || fate == NEVER_READ;
}

static bool was_damaged(enum fate fate)
{
    return fate == READ_DAMAGED;
}

/* Was one of the label's characters? */
static bool one_of_label(const struct run *run, uint32_t label, bool (*was)(enum fate fate))
{
    for (uint32_t i = 0; i < run->study->length; i++) {
        if (was(run->fates[label * run->study->length + i]))
            return true;
    }
    return false;
}

/* A label is lost if one of its characters was lost; else it is damaged if one of them was; else it is whole. */
static struct result result_of(const struct run *run)
{
    struct result result = {run->interval, 0, 0, 0, run->moments};

    for (uint32_t label = 0; label < TOTES; label++) {
        if (one_of_label(run, label, was_lost))
            result.lost++;
        else if (one_of_label(run, label, was_damaged))
            result.damaged++;
        else
            result.whole++;
    }
    return result;
}

/* ---- The output ---- */

/* The cable is told as `straight cable`, `cable with a delay of N` or `cable that inverts every Nth step`. It is 1th, 2th and 3th. */
static void print_cable(const struct study_case *study)
{
    switch (study->cable) {
    case STRAIGHT:
        printf("straight cable");
        break;
    case DELAY:
        printf("cable with a delay of %" PRIu32, study->cable_number);
        break;
    case NOISE:
        printf("cable that inverts every %" PRIu32 "th step", study->cable_number);
        break;
    }
}

static void print_head(const struct study_case *study)
{
    printf("control %" PRIu32 ", rate %" PRIu32 ", ", study->control, study->rate);
    print_cable(study);
    printf(", labels of %" PRIu32 ", a look every %" PRIu32 ", work %" PRIu32 "\n", study->length, study->look, study->work);
    printf("  a character takes %" PRIu32 " phi clocks, a label %" PRIu32 "\n", character_clocks(study), label_clocks(study));
    printf("%*s%10s%10s%10s%12s\n", FIRST_COLUMN, "interval", "whole", "lost", "damaged", "moments");
}

/* The interval, the labels that were whole, lost and damaged, and the moments run, each right-aligned */
static void print_row(const struct result *result)
{
    printf("%*" PRIu32 "%10" PRIu32 "%10" PRIu32 "%10" PRIu32 "%12" PRIu32 "\n", FIRST_COLUMN, result->interval, result->whole,
           result->lost, result->damaged, result->moments);
}

/* The number of runs, from the largest interval on, before the first in which a label was lost. Runs at equal intervals are equal. */
static uint32_t runs_before_loss(const struct result results[RUNS])
{
    uint32_t k = 0;

    while (k < RUNS && results[k].lost == 0)
        k++;
    return k;
}

/* The smallest I such that no label was lost in its run and in those of all larger intervals */
static void print_shortest(const struct result results[RUNS])
{
    uint32_t without_loss = runs_before_loss(results);

    if (without_loss == 0)
        printf("  labels are lost at every interval\n");
    else if (without_loss == RUNS)
        printf("  no label is lost: the line is busy all the time before the board is\n");
    else
        printf("  shortest interval with none lost: %" PRIu32 "\n", results[without_loss - 1].interval);
}

static const char *fate_words(enum fate fate)
{
    switch (fate) {
    case OVERWRITTEN:
        return "was overwritten";
    case MISSED:
        return "was missed: bit 18 was written on the clock of its stop sample, as event 1";
    default:
        return "was never read";
    }
}

/* The character's number in its label and the label's, both from 0 */
static void print_loss(const struct study_case *study, uint32_t interval, const struct loss *loss)
{
    printf("  first loss, at interval %" PRIu32 ": clock %" PRIu32 ", character %" PRIu32 " of label %" PRIu32 " %s", interval, loss->clock,
           loss->character % study->length, loss->character / study->length, fate_words(loss->fate));
    printf("; RBRL %d, RFER %d, ROVER %d, RPER %d\n", loss->rbrl, loss->rfer, loss->rover, loss->rper);
}

/* The first loss is that of the first run, in the order of the table, in which a label was lost. */
static void print_study(const struct study_case *study)
{
    static struct run run;
    struct result results[RUNS];
    struct loss first_loss;
    bool has_loss = false;

    print_head(study);
    for (uint32_t k = 0; k < RUNS; k++) {
        do_run(&run, study, k);
        results[k] = result_of(&run);
        print_row(&results[k]);
        if (run.has_loss && !has_loss) {
            has_loss = true;
            first_loss = run.first_loss;
        }
    }
    print_shortest(results);
    /* Left out where no label was lost. */
    if (has_loss)
        print_loss(study, results[runs_before_loss(results)].interval, &first_loss);
}

/* ---- Lines ---- */

/* Which of the two is said of a field that is no number or no cable. Here a line that is not of the form has not seven fields. */
static void answer_line(struct text line, uint64_t number)
{
    struct study_case study;

    if (!read_case(line, &study))
        printf("line %" PRIu64 ": the case has seven fields\n", number);
    else if (!is_in_range(&study))
        printf("line %" PRIu64 ": a number, a length or a list is outside its range (cause 5, event index 0, no end)\n", number);
    else
        print_study(&study);
}

struct buffer {
    char *bytes;
    size_t length;
    size_t capacity;
};

static void append(struct buffer *buffer, char byte)
{
    if (buffer->length == buffer->capacity) {
        buffer->capacity = buffer->capacity == 0 ? 256 : 2 * buffer->capacity;
        buffer->bytes = realloc(buffer->bytes, buffer->capacity);
        if (buffer->bytes == NULL)
            give_up("out of memory");
    }
    buffer->bytes[buffer->length] = byte;
    buffer->length++;
}

/* Up to byte 10, which is not kept. What is behind the last byte 10 is a line if it has a byte. */
static bool read_line(struct buffer *line)
{
    int byte;

    line->length = 0;
    while ((byte = getchar()) != EOF) {
        if (byte == 10)
            return true;
        append(line, (char)byte);
    }
    return line->length > 0;
}

int main(void)
{
    struct buffer line = {NULL, 0, 0};

    for (uint64_t number = 1; read_line(&line); number++) {
        struct text text = {line.bytes, line.length};

        answer_line(text, number);
    }
    free(line.bytes);
    if (ferror(stdin) || fflush(stdout) != 0 || ferror(stdout))
        give_up("cannot read or write");
    return EXIT_SUCCESS;
}
