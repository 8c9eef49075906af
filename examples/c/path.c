/* A path from C: builds a chain's bytes, solves and divides a path in one call, and prints it as document 01 has it: the number of
 * poses, how many were inserted and the cable numbers, then for each pose its index and the bits of position and angles. A refusal
 * prints `refused`, its number and, where there is one, the pose.
 *
 * It prints three: document 01's example, a tilt on two tables that needs insertions, and a pose that is refused. Every buffer is
 * of the very size that is lent to solve it, so that a memory checker sees a word too far. C11, no libraries but this one. */
#include "maztubel.h"

#include <inttypes.h>
#include <stdio.h>
#include <stdlib.h>
#include <string.h>

enum { POSE = 6, JOINTS = 5, SPACE = 700, ROTARY_BYTES = 72 };

struct rotary {
    char letter;
    uint8_t carrier; /* 0 a table, 1 a head */
    uint8_t limited;
    double axis[3], pivot[3], limits[2]; /* limits are +0.0 where it has none */
};

struct chain {
    uint8_t count;
    struct rotary rotaries[2];
    double spindle[3];
};

static void *buffer(size_t count, size_t size) {
    void *all = calloc(count, size);
    if (all == NULL) {
        fputs("no memory\n", stderr);
        exit(1);
    }
    return all;
}

static uint64_t bits_of(double number) {
    uint64_t bits;
    memcpy(&bits, &number, sizeof bits);
    return bits;
}

/* Little-endian on every machine. */
static uint8_t *put_numbers(uint8_t *at, const double *numbers, size_t count) {
    for (size_t i = 0; i < count; i++)
        for (int shift = 0; shift < 64; shift += 8)
            *at++ = (uint8_t)(bits_of(numbers[i]) >> shift);
    return at;
}

static uint8_t *put_rotary(uint8_t *at, const struct rotary *rotary) {
    *at++ = (uint8_t)rotary->letter;
    *at++ = rotary->carrier;
    *at++ = rotary->limited;
    memset(at, 0, 5);
    at = put_numbers(at + 5, rotary->axis, 3);
    at = put_numbers(at, rotary->pivot, 3);
    return put_numbers(at, rotary->limits, 2);
}

static size_t chain_length(const struct chain *chain) {
    return 8 + (size_t)ROTARY_BYTES * chain->count + 24;
}

static uint8_t *chain_bytes(const struct chain *chain) {
    uint8_t *bytes = buffer(chain_length(chain), 1), *at = bytes;
    *at = chain->count;
    at += 8;
    for (uint8_t i = 0; i < chain->count; i++)
        at = put_rotary(at, &chain->rotaries[i]);
    put_numbers(at, chain->spindle, 3);
    return bytes;
}

static void print_path(const double *joints, size_t count, uint64_t inserted, const uint64_t *turns) {
    printf("poses %zu inserted %" PRIu64 " turns %" PRIu64 " %" PRIu64 "\n", count, inserted, turns[0], turns[1]);
    for (size_t i = 0; i < count; i++) {
        printf("%zu", i);
        for (size_t k = 0; k < JOINTS; k++)
            printf(" %016" PRIX64, bits_of(joints[JOINTS * i + k]));
        putchar('\n');
    }
}

/* The cable numbers of both rotaries, or what one of them is refused with. */
static uint32_t cable_numbers(const uint8_t *chain, size_t length, const double *joints, size_t count, uint64_t *turns) {
    uint64_t at;
    uint8_t letter;
    uint32_t number = maztubel_cable_number(chain, length, joints, JOINTS * count, 0, &turns[0], &at, &letter);
    if (number != MAZTUBEL_SERVED)
        return number;
    return maztubel_cable_number(chain, length, joints, JOINTS * count, 1, &turns[1], &at, &letter);
}

/* 23 to 26 always have a pose. 16 and 17 have one where the outputs were cleared: before its first pose a call keeps them. */
static void print_refusal(uint32_t number, uint64_t pose, int cleared) {
    printf("refused %" PRIu32, number);
    if ((number >= MAZTUBEL_BRANCH_FLIPS && number <= MAZTUBEL_ANGLE_TOO_LARGE) ||
        ((number == MAZTUBEL_NOT_FINITE || number == MAZTUBEL_TOO_LARGE) && cleared))
        printf(" pose %" PRIu64, pose);
    putchar('\n');
}

static void run(const struct chain *chain, const double *given, size_t count, double cone, double chord, double axis) {
    uint8_t *bytes = chain_bytes(chain);
    double *poses = buffer(POSE * count, sizeof *poses);
    double *out_poses = buffer(POSE * SPACE, sizeof *out_poses);
    double *out_joints = buffer(JOINTS * SPACE, sizeof *out_joints);
    uint64_t inserted, at, turns[2];
    uint8_t letter;
    memcpy(poses, given, POSE * count * sizeof *poses);
    out_joints[0] = 1.0;
    uint32_t number = maztubel_solve_and_divide(bytes, chain_length(chain), poses, POSE * count, NULL, 0, cone, chord, axis,
                                                out_poses, POSE * SPACE, out_joints, JOINTS * SPACE, &inserted, &at, &letter);
    int cleared = number != MAZTUBEL_SERVED && out_joints[0] == 0.0;
    if (number == MAZTUBEL_SERVED)
        number = cable_numbers(bytes, chain_length(chain), out_joints, count + inserted, turns);
    if (number == MAZTUBEL_SERVED)
        print_path(out_joints, count + inserted, inserted, turns);
    else
        print_refusal(number, at, cleared);
    free(bytes);
    free(poses);
    free(out_poses);
    free(out_joints);
}

static const struct chain head_c = {
    1, {{'C', 1, 0, {0, 0, 1}, {0, 0, 0}, {0, 0}}}, {0, 0, 1}};

static const struct chain tables = {
    2,
    {{'A', 0, 1, {1, 0, 0}, {0, 0, -100}, {-120, 30}}, {'C', 0, 0, {0, 0, 1}, {0, 0, -100}, {0, 0}}},
    {0, 0, 1}};

static double sine_of(double radians) {
    double answer = 0.0;
    maztubel_sine(radians, &answer);
    return answer;
}

static double cosine_of(double radians) {
    double answer = 0.0;
    maztubel_cosine(radians, &answer);
    return answer;
}

/* Around a cylinder of 40 mm about x, the tool square to it but for a lean along x. */
static void tilt(double *poses, size_t count) {
    for (size_t i = 0; i < count; i++) {
        double radians = 0.25 * (double)(i + 1), y = -sine_of(radians), z = cosine_of(radians);
        const double pose[POSE] = {5.0 * (double)i, 40.0 * y, 40.0 * z, 0.125, y, z};
        memcpy(poses + POSE * i, pose, sizeof pose);
    }
}

int main(void) {
    const double two[2 * POSE] = {1, 2, 3, 0, 0, 1, 3, 2, 3, 0, 0, 1};
    const double sideways[2 * POSE] = {1, 2, 3, 0, 0, 1, 3, 2, 3, 1, 0, 0};
    double around[4 * POSE];
    tilt(around, 4);
    run(&head_c, two, 2, 1.0, 0.5, 0.5);
    run(&tables, around, 4, 1.0, 0.25, 2.0);
    run(&head_c, sideways, 2, 1.0, 0.5, 0.5);
    return 0;
}
