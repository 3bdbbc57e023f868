/* Cables, written from docs/cables.md alone. See cable.h. */

#include "cable.h"

#include <assert.h>

/* ---- What a cable is ---- */

/* The place of a flip is at most the delay, and its position is at least its place. */
static void check(const struct channel *channel)
{
    assert(channel->delay <= MOST_WAITING);
    assert(channel->flip_count <= MOST_FLIPS);
    for (size_t i = 0; i < channel->flip_count; i++) {
        assert(channel->flips[i].place <= channel->delay);
        assert(channel->flips[i].position >= channel->flips[i].place);
    }
    (void)channel;
}

/* ---- Step ---- */

/* 1. The entering pair joins the back of the waiting pairs. */
static void join_the_back(struct channel *channel, struct pair entering)
{
    channel->waiting[channel->delay] = entering;
}

static void turn_over(struct pair *pair)
{
    pair->level = pair->level == MARK ? SPACE : MARK;
}

/* 2. Each flip whose position equals its place turns over the level of the pair at its place, and is struck off. The position of every
 * other flip falls by one. */
static void meet_the_flips(struct channel *channel)
{
    size_t left = 0;

    for (size_t i = 0; i < channel->flip_count; i++) {
        struct flip flip = channel->flips[i];

        if (flip.position == flip.place) {
            turn_over(&channel->waiting[flip.place]);
        } else {
            flip.position = flip.position - 1;
            channel->flips[left] = flip;
            left++;
        }
    }
    channel->flip_count = left;
}

/* 3. The front pair is handed out. */
static struct pair hand_out_the_front(struct channel *channel)
{
    struct pair front = channel->waiting[0];

    for (size_t i = 0; i < channel->delay; i++)
        channel->waiting[i] = channel->waiting[i + 1];
    return front;
}

struct pair cable_step(struct cable *cable, enum direction direction, struct pair entering)
{
    struct channel *channel = &cable->toward[direction];

    join_the_back(channel, entering);
    meet_the_flips(channel);
    return hand_out_the_front(channel);
}

/* ---- Clear ---- */

static bool channel_clear(const struct channel *channel)
{
    for (size_t i = 0; i < channel->delay; i++) {
        if (channel->waiting[i].level != MARK)
            return false;
    }
    return true;
}

bool cable_clear(const struct cable *cable)
{
    return channel_clear(&cable->toward[TOWARD_B]) && channel_clear(&cable->toward[TOWARD_A]);
}

/* ---- The three cables ---- */

/* All waiting pairs are mark and inactive. */
static void set_waiting(struct channel *channel, size_t delay)
{
    const struct pair at_rest = {MARK, false};

    channel->delay = delay;
    for (size_t i = 0; i < delay; i++)
        channel->waiting[i] = at_rest;
}

/* All flips at place 0. */
static void set_positions(struct channel *channel, struct list positions)
{
    channel->flip_count = positions.count;
    for (size_t i = 0; i < positions.count; i++) {
        channel->flips[i].place = 0;
        channel->flips[i].position = positions.numbers[i];
    }
    check(channel);
}

static void make(struct cable *cable, size_t delay)
{
    const struct list none = {NULL, 0};

    for (int direction = TOWARD_B; direction <= TOWARD_A; direction++) {
        set_waiting(&cable->toward[direction], delay);
        set_positions(&cable->toward[direction], none);
    }
}

/* It hands out each pair in the step in which it enters. */
void cable_straight(struct cable *cable)
{
    make(cable, 0);
}

/* It has one pair each way. */
void cable_delaying(struct cable *cable)
{
    make(cable, 1);
}

static bool is_length(uint32_t length)
{
    return length >= 1 && length <= MOST_WAITING;
}

struct refusal cable_set_lengths(struct cable *cable, uint32_t toward_b, uint32_t toward_a)
{
    if (!is_length(toward_b) || !is_length(toward_a))
        return refused(OUT_OF_RANGE, 0, NO_END);
    set_waiting(&cable->toward[TOWARD_B], toward_b);
    set_waiting(&cable->toward[TOWARD_A], toward_a);
    return accepted();
}

/* It has no flips. */
void cable_disturbed(struct cable *cable)
{
    make(cable, 0);
}

/* At most 4,096 numbers, each above the one before it. */
static bool is_list_of_flips(struct list list)
{
    if (list.count > MOST_FLIPS)
        return false;
    for (size_t i = 1; i < list.count; i++) {
        if (list.numbers[i] <= list.numbers[i - 1])
            return false;
    }
    return true;
}

struct refusal cable_set_flips(struct cable *cable, struct list toward_b, struct list toward_a)
{
    if (!is_list_of_flips(toward_b) || !is_list_of_flips(toward_a))
        return refused(OUT_OF_RANGE, 0, NO_END);
    set_positions(&cable->toward[TOWARD_B], toward_b);
    set_positions(&cable->toward[TOWARD_A], toward_a);
    return accepted();
}
