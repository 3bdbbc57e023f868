/* One TMS 9902A, written from docs/chip.md alone. See chip.h. */

#include "chip.h"

#include <assert.h>
#include <string.h>

/* ---- Registers ---- */

unsigned control_q(unsigned control)
{
    return (control & 0x08) != 0 ? 4 : 3;
}

static unsigned control_stop_half_bits(unsigned control)
{
    switch (control & 0xC0) {
    case 0x00:
        return 3;
    case 0x40:
        return 4;
    default:
        return 2;
    }
}

struct format control_format(unsigned control)
{
    struct format format;

    format.data_bits = 5 + (control & 0x03);
    format.parity = (control & 0x20) != 0;
    format.odd = (control & 0x10) != 0;
    format.stop_half_bits = control_stop_half_bits(control);
    return format;
}

/* H = m x n, where n 0 counts as 1024. */
unsigned half_bit_count(unsigned rate)
{
    unsigned m = (rate & 0x400) != 0 ? 8 : 1;
    unsigned n = rate & 0x3FF;

    if (n == 0)
        n = 1024;
    return m * n;
}

/* P as a number */
static unsigned parity_bits(const struct format *format)
{
    return format->parity ? 1 : 0;
}

/* ---- What never happens ---- */

static void check(const struct chip *chip)
{
    assert(chip->divider <= 3);
    assert(chip->receive_countdown <= 32768);
    assert(chip->transmit_countdown <= 32768);
    assert(chip->sample_count <= MOST_SAMPLES);
    assert(chip->bits_begun <= 8);
    assert(chip->control <= CONTROL_MAX);
    assert(chip->receive_rate <= RATE_MAX);
    assert(chip->transmit_rate <= RATE_MAX);
    assert(chip->interval <= INTERVAL_MAX);
    assert(chip->transmit_buffer <= CHARACTER_MAX);
    assert(chip->receive_buffer <= CHARACTER_MAX);
    (void)chip;
}

/* ---- Status change ---- */

static void serve_status_change(struct chip *chip)
{
    if (chip->cts != chip->compared_cts)
        chip->dsch = true;
    if (chip->dsr != chip->compared_dsr)
        chip->dsch = true;
    chip->compared_cts = chip->cts;
    chip->compared_dsr = chip->dsr;
}

/* ---- Interval timer ---- */

static void timer_reaches_zero(struct chip *chip)
{
    chip->timer = chip->interval;
    if (chip->timelp)
        chip->timerr = true;
    chip->timelp = true;
}

static void serve_timer(struct chip *chip)
{
    unsigned limit = chip->tstmd ? 2 : 64;

    chip->prescaler = chip->prescaler + 1;
    if (chip->prescaler < limit)
        return;
    chip->prescaler = 0;
    if (chip->timer == 0)
        return;
    chip->timer = chip->timer - 1;
    if (chip->timer == 0)
        timer_reaches_zero(chip);
}

/* A write of LDIR. Falling from 1 to 0 loads the timer and zeroes the prescaler. */
static void write_ldir(struct chip *chip, bool bit)
{
    bool falls = chip->ldir && !bit;

    chip->ldir = bit;
    if (falls) {
        chip->timer = chip->interval;
        chip->prescaler = 0;
    }
}

/* ---- Receiver ---- */

/* The countdown falls by one; does it come to 0? */
static bool lower(unsigned *countdown)
{
    assert(*countdown > 0);
    *countdown = *countdown - 1;
    return *countdown == 0;
}

static void receiver_idle(struct chip *chip, enum level now)
{
    if (chip->seen == MARK && now == SPACE) {
        chip->receiver = RECEIVER_HALF;
        chip->receive_countdown = half_bit_count(chip->receive_rate);
    }
}

static void receiver_start_sample(struct chip *chip, enum level now)
{
    if (now == MARK) {
        chip->receiver = RECEIVER_IDLE;
        return;
    }
    chip->receiver = RECEIVER_CHARACTER;
    chip->receive_countdown = 2 * half_bit_count(chip->receive_rate);
    chip->receive_format = control_format(chip->control);
    chip->sample_count = 0;
    chip->rsbd = true;
}

static unsigned received_character(const struct chip *chip)
{
    unsigned character = 0;

    for (unsigned i = 0; i < chip->receive_format.data_bits; i++) {
        if (chip->samples[i] == MARK)
            character += 1u << i;
    }
    return character;
}

/* Counts the ones among the L + P samples. */
static bool received_parity_is_wrong(const struct chip *chip)
{
    unsigned ones = 0;

    if (!chip->receive_format.parity)
        return false;
    for (unsigned i = 0; i < chip->sample_count; i++) {
        if (chip->samples[i] == MARK)
            ones++;
    }
    return chip->receive_format.odd ? ones % 2 != 1 : ones % 2 != 0;
}

static void receiver_stop_sample(struct chip *chip, enum level now)
{
    chip->receive_buffer = received_character(chip);
    chip->rover = chip->rbrl;
    chip->rper = received_parity_is_wrong(chip);
    chip->rfer = now == SPACE;
    chip->rbrl = true;
    chip->rsbd = false;
    chip->rfbd = false;
    chip->receiver = RECEIVER_IDLE;
    chip->sample_count = 0;
}

static void receiver_bit_sample(struct chip *chip, enum level now)
{
    chip->samples[chip->sample_count] = now;
    chip->sample_count++;
    chip->rfbd = true;
    chip->receive_countdown = 2 * half_bit_count(chip->receive_rate);
}

static void receiver_sample(struct chip *chip, enum level now)
{
    const struct format *format = &chip->receive_format;

    if (chip->sample_count == format->data_bits + parity_bits(format))
        receiver_stop_sample(chip, now);
    else
        receiver_bit_sample(chip, now);
}

static void serve_receiver(struct chip *chip)
{
    enum level now = chip->rin;

    switch (chip->receiver) {
    case RECEIVER_IDLE:
        receiver_idle(chip, now);
        break;
    case RECEIVER_HALF:
        if (lower(&chip->receive_countdown))
            receiver_start_sample(chip, now);
        break;
    case RECEIVER_CHARACTER:
        if (lower(&chip->receive_countdown))
            receiver_sample(chip, now);
        break;
    }
    chip->seen = now;
}

/* ---- Transmitter ---- */

static void start_element(struct chip *chip, enum transmitter_state element, enum level level, unsigned half_bits)
{
    chip->transmitter = element;
    chip->xout = level;
    chip->transmit_countdown = half_bits * half_bit_count(chip->transmit_rate);
}

static void begin_start(struct chip *chip)
{
    chip->transmit_format = control_format(chip->control);
    chip->bits_begun = 0;
    start_element(chip, SENDING_START, SPACE, 2);
}

static void begin_data_bit(struct chip *chip)
{
    unsigned bit = (chip->shift_register >> chip->bits_begun) & 1;

    chip->bits_begun++;
    start_element(chip, SENDING_DATA, bit == 1 ? MARK : SPACE, 2);
}

/* Even parity makes the number of ones even, odd parity makes it odd, over the L bits that are sent. */
static void begin_parity_bit(struct chip *chip)
{
    unsigned ones = 0;
    bool bit;

    for (unsigned i = 0; i < chip->transmit_format.data_bits; i++)
        ones += (chip->shift_register >> i) & 1;
    if (chip->transmit_format.odd)
        bit = ones % 2 == 0;
    else
        bit = ones % 2 == 1;
    start_element(chip, SENDING_PARITY, bit ? MARK : SPACE, 2);
}

static void begin_stop(struct chip *chip)
{
    start_element(chip, SENDING_STOP, MARK, chip->transmit_format.stop_half_bits);
}

static void end_stop(struct chip *chip)
{
    chip->transmitter = TRANSMITTER_IDLE;
    chip->xsre = true;
}

static void after_data_bit(struct chip *chip)
{
    if (chip->bits_begun < chip->transmit_format.data_bits)
        begin_data_bit(chip);
    else if (chip->transmit_format.parity)
        begin_parity_bit(chip);
    else
        begin_stop(chip);
}

static void next_element(struct chip *chip)
{
    switch (chip->transmitter) {
    case SENDING_START:
        begin_data_bit(chip);
        break;
    case SENDING_DATA:
        after_data_bit(chip);
        break;
    case SENDING_PARITY:
        begin_stop(chip);
        break;
    case SENDING_STOP:
        end_stop(chip);
        break;
    case TRANSMITTER_IDLE:
        assert(false);
        break;
    }
}

static void move_buffer_to_shift_register(struct chip *chip)
{
    chip->shift_register = chip->transmit_buffer;
    chip->xsre = false;
    chip->xbre = true;
}

/* The first rule that fits. */
static void idle_rules(struct chip *chip)
{
    bool may_send = chip->rts && chip->cts;
    bool stood = chip->break_stood;

    chip->break_stood = false;
    if (chip->brkon && chip->xbre && may_send) {
        chip->xout = SPACE;
        chip->break_stood = true;
        return;
    }
    if (stood) {
        chip->xout = MARK;
        return;
    }
    if (!chip->xbre && may_send) {
        move_buffer_to_shift_register(chip);
        begin_start(chip);
        return;
    }
    chip->xout = MARK;
}

static void serve_transmitter(struct chip *chip)
{
    if (chip->transmitter != TRANSMITTER_IDLE) {
        if (lower(&chip->transmit_countdown))
            next_element(chip);
    }
    /* Also where a stop ended in this clock. */
    if (chip->transmitter == TRANSMITTER_IDLE)
        idle_rules(chip);
    if (!chip->rtson && chip->xsre && chip->xbre && !chip->brkon)
        chip->rts = false;
}

/* ---- One phi clock ---- */

static void take_lines(struct chip *chip, enum level rin, bool cts)
{
    if (chip->tstmd) {
        chip->cts = chip->rts;
        chip->rin = chip->xout;
        chip->dsr = true;
    } else {
        chip->cts = cts;
        chip->rin = rin;
        chip->dsr = chip->dsr_setting;
    }
}

static void recover(struct chip *chip)
{
    if (chip->recovery > 0)
        chip->recovery = chip->recovery - 1;
}

/* Does the chip have an internal clock? */
static bool advance_divider(struct chip *chip)
{
    chip->divider = chip->divider + 1;
    if (chip->divider >= control_q(chip->control)) {
        chip->divider = 0;
        return true;
    }
    return false;
}

void chip_clock(struct chip *chip, enum level rin, bool cts)
{
    take_lines(chip, rin, cts);
    recover(chip);
    if (advance_divider(chip)) {
        serve_status_change(chip);
        serve_timer(chip);
        serve_receiver(chip);
        serve_transmitter(chip);
    }
    check(chip);
}

/* ---- Output bits ---- */

static unsigned with_bit(unsigned value, unsigned address, bool bit)
{
    unsigned weight = 1u << address;

    if (bit)
        return value | weight;
    return value & ~weight;
}

static void write_control_bit(struct chip *chip, unsigned address, bool bit)
{
    if (address > 7)
        return;
    chip->control = with_bit(chip->control, address, bit);
    if (address == 7)
        chip->ldctrl = false;
}

static void write_interval_bit(struct chip *chip, unsigned address, bool bit)
{
    if (address > 7)
        return;
    chip->interval = with_bit(chip->interval, address, bit);
    if (address == 7)
        write_ldir(chip, false);
}

static void write_rate_bit(struct chip *chip, unsigned address, bool bit)
{
    if (chip->lrdr)
        chip->receive_rate = with_bit(chip->receive_rate, address, bit);
    if (chip->lxdr)
        chip->transmit_rate = with_bit(chip->transmit_rate, address, bit);
    if (address == 10)
        chip->lrdr = false;
}

static void write_buffer_bit(struct chip *chip, unsigned address, bool bit)
{
    if (address > 7)
        return;
    chip->transmit_buffer = with_bit(chip->transmit_buffer, address, bit);
    if (address == 7)
        chip->xbre = false;
}

static void write_register_bit(struct chip *chip, unsigned address, bool bit)
{
    if (chip->ldctrl)
        write_control_bit(chip, address, bit);
    else if (chip->ldir)
        write_interval_bit(chip, address, bit);
    else if (chip->lrdr || chip->lxdr)
        write_rate_bit(chip, address, bit);
    else if (!chip->brkon)
        write_buffer_bit(chip, address, bit);
}

static void write_rtson(struct chip *chip, bool bit)
{
    chip->rtson = bit;
    if (bit)
        chip->rts = true;
}

static void write_rienb(struct chip *chip, bool bit)
{
    chip->rienb = bit;
    chip->rbrl = false;
}

static void write_timenb(struct chip *chip, bool bit)
{
    chip->timenb = bit;
    chip->timelp = false;
    chip->timerr = false;
}

static void write_dscenb(struct chip *chip, bool bit)
{
    chip->dscenb = bit;
    chip->dsch = false;
}

static void reset(struct chip *chip)
{
    chip->tstmd = false;
    chip->rtson = false;
    chip->brkon = false;
    chip->rienb = false;
    chip->xbienb = false;
    chip->timenb = false;
    chip->dscenb = false;

    chip->dsch = false;
    chip->timelp = false;
    chip->timerr = false;
    chip->rbrl = false;
    chip->rsbd = false;
    chip->rfbd = false;
    chip->rfer = false;
    chip->rover = false;
    chip->rper = false;

    chip->xsre = true;
    chip->xbre = true;
    chip->ldctrl = true;
    chip->ldir = true;
    chip->lrdr = true;
    chip->lxdr = true;

    chip->rts = false;
    chip->xout = MARK;
    chip->transmitter = TRANSMITTER_IDLE;
    chip->transmit_countdown = 0;
    chip->break_stood = false;
    chip->receiver = RECEIVER_IDLE;
    chip->receive_countdown = 0;
    chip->sample_count = 0;
    chip->seen = SPACE;

    chip->timer = 0;
    chip->prescaler = 0;
    chip->divider = 0;
    chip->recovery = 11;
}

void chip_output_bit(struct chip *chip, unsigned address, bool bit)
{
    if (address <= 10) {
        write_register_bit(chip, address, bit);
        return;
    }
    switch (address) {
    case 11:
        chip->lxdr = bit;
        break;
    case 12:
        chip->lrdr = bit;
        break;
    case 13:
        write_ldir(chip, bit);
        break;
    case 14:
        chip->ldctrl = bit;
        break;
    case 15:
        chip->tstmd = bit;
        break;
    case 16:
        write_rtson(chip, bit);
        break;
    case 17:
        chip->brkon = bit;
        break;
    case 18:
        write_rienb(chip, bit);
        break;
    case 19:
        chip->xbienb = bit;
        break;
    case 20:
        write_timenb(chip, bit);
        break;
    case 21:
        write_dscenb(chip, bit);
        break;
    case 31:
        reset(chip);
        break;
    default: /* 22 to 30 */
        break;
    }
}

/* ---- Input bits ---- */

static bool dscint(const struct chip *chip)
{
    return chip->dsch && chip->dscenb;
}

static bool timint(const struct chip *chip)
{
    return chip->timelp && chip->timenb;
}

static bool xbint(const struct chip *chip)
{
    return chip->xbre && chip->xbienb;
}

static bool rbint(const struct chip *chip)
{
    return chip->rbrl && chip->rienb;
}

bool chip_int(const struct chip *chip)
{
    return dscint(chip) || timint(chip) || xbint(chip) || rbint(chip);
}

static bool flag(const struct chip *chip)
{
    return chip->ldctrl || chip->ldir || chip->lrdr || chip->lxdr || chip->brkon;
}

static bool rcverr(const struct chip *chip)
{
    return chip->rfer || chip->rover || chip->rper;
}

bool chip_input_bit(const struct chip *chip, unsigned address)
{
    if (address <= 7)
        return ((chip->receive_buffer >> address) & 1) == 1;
    switch (address) {
    case 9:
        return rcverr(chip);
    case 10:
        return chip->rper;
    case 11:
        return chip->rover;
    case 12:
        return chip->rfer;
    case 13:
        return chip->rfbd;
    case 14:
        return chip->rsbd;
    case 15:
        return chip->rin == MARK;
    case 16:
        return rbint(chip);
    case 17:
        return xbint(chip);
    case 19:
        return timint(chip);
    case 20:
        return dscint(chip);
    case 21:
        return chip->rbrl;
    case 22:
        return chip->xbre;
    case 23:
        return chip->xsre;
    case 24:
        return chip->timerr;
    case 25:
        return chip->timelp;
    case 26:
        return chip->rts;
    case 27:
        return chip->dsr;
    case 28:
        return chip->cts;
    case 29:
        return chip->dsch;
    case 30:
        return flag(chip);
    case 31:
        return chip_int(chip);
    default: /* 8 and 18 */
        return false;
    }
}

/* ---- Calls ---- */

static bool bits_in_range(unsigned address, unsigned count)
{
    return count >= 1 && count <= 16 && address <= 31 && address + count <= 32;
}

int chip_put(struct chip *chip, unsigned address, unsigned count, uint32_t number)
{
    if (!bits_in_range(address, count) || number > 65535)
        return -OUT_OF_RANGE;
    if (chip->recovery > 0)
        return -RECOVERING;
    for (unsigned i = 0; i < count; i++)
        chip_output_bit(chip, address + i, ((number >> i) & 1) == 1);
    check(chip);
    return 0;
}

int32_t chip_get(const struct chip *chip, unsigned address, unsigned count)
{
    int32_t bits = 0;

    if (!bits_in_range(address, count))
        return -OUT_OF_RANGE;
    if (chip->recovery > 0)
        return -RECOVERING;
    for (unsigned i = 0; i < count; i++) {
        if (chip_input_bit(chip, address + i))
            bits += (int32_t)1 << i;
    }
    return bits;
}

int chip_load(struct chip *chip, unsigned character)
{
    if (character > CHARACTER_MAX)
        return -OUT_OF_RANGE;
    if (chip->recovery > 0)
        return -RECOVERING;
    if (flag(chip))
        return -BUFFER_NOT_ENABLED;
    if (!chip->xbre)
        return -BUFFER_FULL;
    chip->transmit_buffer = character;
    chip->xbre = false;
    check(chip);
    return 0;
}

int chip_take(struct chip *chip, struct taken *answer)
{
    if (chip->recovery > 0)
        return -RECOVERING;
    if (!chip->rbrl)
        return -NOTHING_RECEIVED;
    answer->character = chip->receive_buffer;
    answer->rfer = chip->rfer;
    answer->rover = chip->rover;
    answer->rper = chip->rper;
    chip->rbrl = false;
    return 0;
}

void chip_set_dsr(struct chip *chip, bool active)
{
    chip->dsr_setting = active;
}

/* ---- As open leaves a chip ---- */

int chip_open(struct chip *chip, unsigned control, unsigned receive_rate, unsigned transmit_rate, unsigned interval)
{
    if (control > CONTROL_MAX || receive_rate > RATE_MAX || transmit_rate > RATE_MAX || interval > INTERVAL_MAX)
        return -OUT_OF_RANGE;

    /* All flags, both buffers and all counts 0; RTS, CTS and DSR, as taken, as compared and as set, inactive. */
    memset(chip, 0, sizeof *chip);

    chip->control = control;
    chip->receive_rate = receive_rate;
    chip->transmit_rate = transmit_rate;
    chip->interval = interval;

    chip->xsre = true;
    chip->xbre = true;
    chip->transmitter = TRANSMITTER_IDLE;
    chip->receiver = RECEIVER_IDLE;
    chip->seen = MARK;
    chip->xout = MARK;
    chip->rin = MARK;
    chip->timer = interval;
    check(chip);
    return 0;
}
