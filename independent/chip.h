/* One TMS 9902A, written from docs/chip.md alone. It is plain on purpose: every flag that the page names is kept as a flag of its own, and
 * the functions follow the page's sentences in their order. It shares nothing with the implementation that it is compared with. */

#ifndef CHIP_H
#define CHIP_H

#include <stdbool.h>
#include <stdint.h>

enum level { SPACE = 0, MARK = 1 };

/* A refused call answers its cause negated. */
enum cause {
    OUT_OF_RANGE = 5,
    RECOVERING = 11,
    BUFFER_NOT_ENABLED = 12,
    BUFFER_FULL = 13,
    NOTHING_RECEIVED = 14
};

enum { CONTROL_MAX = 255, RATE_MAX = 2047, INTERVAL_MAX = 255, CHARACTER_MAX = 255, MOST_SAMPLES = 9 };

/* What the control register says of a character. */
struct format {
    unsigned data_bits; /* L */
    bool parity;        /* P is 1 */
    bool odd;           /* says nothing without parity */
    unsigned stop_half_bits;
};

enum receiver_state { RECEIVER_IDLE, RECEIVER_HALF, RECEIVER_CHARACTER };

enum transmitter_state { TRANSMITTER_IDLE, SENDING_START, SENDING_DATA, SENDING_PARITY, SENDING_STOP };

struct chip {
    /* Registers */
    unsigned control;
    unsigned receive_rate;
    unsigned transmit_rate;
    unsigned interval;
    unsigned transmit_buffer;
    unsigned receive_buffer;

    /* Load flags, modes and enables */
    bool ldctrl, ldir, lrdr, lxdr;
    bool tstmd, rtson, brkon;
    bool rienb, xbienb, timenb, dscenb;

    /* Status flags */
    bool dsch, timelp, timerr;
    bool xsre, xbre, rbrl;
    bool rsbd, rfbd, rfer, rover, rper;

    /* Lines: as taken last, as compared last, as set from outside */
    bool cts, dsr;
    enum level rin;
    bool compared_cts, compared_dsr;
    bool dsr_setting;

    /* Pins */
    bool rts;
    enum level xout;

    /* Counts */
    unsigned divider;
    unsigned recovery;
    unsigned prescaler;
    unsigned timer;

    /* Receiver */
    enum receiver_state receiver;
    enum level seen; /* the level at the preceding internal clock */
    unsigned receive_countdown;
    struct format receive_format;
    enum level samples[MOST_SAMPLES];
    unsigned sample_count;

    /* Transmitter */
    enum transmitter_state transmitter;
    unsigned transmit_countdown;
    struct format transmit_format;
    unsigned shift_register; /* the whole character, which is not shifted */
    unsigned bits_begun;     /* data bits whose element has begun */
    bool break_stood;        /* at the preceding internal clock */
};

/* The answer of take. */
struct taken {
    unsigned character;
    bool rfer, rover, rper;
};

/* Reading of the registers. */
unsigned control_q(unsigned control);
struct format control_format(unsigned control);
unsigned half_bit_count(unsigned rate);

/* Each answers 0, or a cause negated and then has changed nothing. get answers the bits, 0 to 65535. */
int chip_open(struct chip *chip, unsigned control, unsigned receive_rate, unsigned transmit_rate, unsigned interval);
int chip_put(struct chip *chip, unsigned address, unsigned count, uint32_t number);
int32_t chip_get(const struct chip *chip, unsigned address, unsigned count);
int chip_load(struct chip *chip, unsigned character);
int chip_take(struct chip *chip, struct taken *answer);

/* DSR as it is set from outside; the chip takes it at its next phi clock. */
void chip_set_dsr(struct chip *chip, bool active);

/* One phi clock. */
void chip_clock(struct chip *chip, enum level rin, bool cts);

/* An input bit, 0 to 31, and an output bit, 0 to 31, whatever the recovery count is. */
bool chip_input_bit(const struct chip *chip, unsigned address);
void chip_output_bit(struct chip *chip, unsigned address, bool bit);

/* The INT pin. */
bool chip_int(const struct chip *chip);

#endif
