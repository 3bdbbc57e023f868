/* Cables, written from docs/cables.md alone. A cable is what the page says that it means: for each direction a list of pairs that wait and a
 * list of flips. One step serves all three cables; they differ in what their lists hold, and so in how they are made. */

#ifndef CABLE_H
#define CABLE_H

#include "chip.h"
#include "refusal.h"

#include <stddef.h>

enum { MOST_WAITING = 64, MOST_FLIPS = 4096 };

/* Toward B (from A) comes first wherever both are named. */
enum direction { TOWARD_B = 0, TOWARD_A = 1 };

/* A data level and a control line. */
struct pair {
    enum level level;
    bool active;
};

/* Place and position count from the pair that is handed out next, which is number 0. */
struct flip {
    size_t place;      /* where on the cable it stands: at most the delay */
    uint32_t position; /* how far the pair that it meets is from being handed out: at least the place */
};

struct channel {
    struct pair waiting[MOST_WAITING + 1]; /* the next to be handed out first; one more within a step */
    size_t delay;                          /* how many wait */
    struct flip flips[MOST_FLIPS];
    size_t flip_count;
};

struct cable {
    struct channel toward[2];
};

/* Positions for set_flips. */
struct list {
    const uint32_t *numbers;
    size_t count;
};

/* What a cable does. Its call delay is left out: the bench does not ask it. */
struct pair cable_step(struct cable *cable, enum direction direction, struct pair entering);
bool cable_clear(const struct cable *cable);

/* The three cables. set_lengths is for a delaying one, set_flips for a disturbed one. */
void cable_straight(struct cable *cable);
void cable_delaying(struct cable *cable);
struct refusal cable_set_lengths(struct cable *cable, uint32_t toward_b, uint32_t toward_a);
void cable_disturbed(struct cable *cable);
struct refusal cable_set_flips(struct cable *cable, struct list toward_b, struct list toward_a);

#endif
