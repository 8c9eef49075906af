/* A job from C: writes one into a buffer, reads it back, and prints what was read and the bytes, which are those of
 * examples/jobs/example.job: a head C that turns without end, two poses, a cone of 1 degree, and tolerances of 0.5
 * mm and 0.5 degrees. Then it writes again into a buffer that is a byte too short, which is refused. C11, no
 * libraries but this one. */
#include "maztubel.h"

#include <inttypes.h>
#include <stdio.h>
#include <stdlib.h>
#include <string.h>

enum { CHAIN = 104, POSE = 6, POSES = 2, TRAILER = 40, JOB = CHAIN + POSES * POSE * 8 + TRAILER };

static const double cone = 1.0, chord = 0.5, axis = 0.5;

/* Little-endian on every machine. */
static void put_number(uint8_t *at, double number) {
    uint64_t bits;
    memcpy(&bits, &number, sizeof bits);
    for (int i = 0; i < 8; i++)
        at[i] = (uint8_t)(bits >> 8 * i);
}

/* All that is not set is zero: no limits, the pivot at the origin. */
static void put_chain(uint8_t *chain) {
    memset(chain, 0, CHAIN);
    chain[0] = 1;
    chain[8] = 'C';
    chain[9] = 1;
    put_number(chain + 32, 1.0); /* the axis along z */
    put_number(chain + 96, 1.0); /* the spindle along z */
}

static uint32_t write_job(const double *poses, uint8_t *job, size_t room, uint64_t *length) {
    uint8_t chain[CHAIN], letter;
    uint64_t at;
    put_chain(chain);
    return maztubel_write_job(chain, CHAIN, poses, POSE * POSES, cone, chord, axis, job, room, length, &at, &letter);
}

static void print_bytes(const uint8_t *bytes, uint64_t length) {
    for (uint64_t i = 0; i < length; i++)
        printf("%02X%c", bytes[i], i % 16 == 15 ? '\n' : ' ');
}

/* Whether the job has the numbers that were written, bit for bit. */
static int read_back(const uint8_t *job, size_t length, const double *poses) {
    uint64_t chain_at, chain_length, poses_at, count, at;
    double numbers[3], read[POSE * POSES];
    const double given[3] = {cone, chord, axis};
    uint32_t number = maztubel_read_job(job, length, &chain_at, &chain_length, &poses_at, &count, &numbers[0],
                                        &numbers[1], &numbers[2], &at);
    if (number != MAZTUBEL_SERVED || maztubel_job_poses(job, length, read, POSE * POSES, &at) != MAZTUBEL_SERVED)
        return 0;
    printf("chain at %" PRIu64 ", %" PRIu64 " bytes, %" PRIu64 " poses at %" PRIu64 "\n", chain_at, chain_length, count,
           poses_at);
    return memcmp(numbers, given, sizeof given) == 0 && memcmp(read, poses, sizeof read) == 0;
}

int main(void) {
    const double poses[POSE * POSES] = {1, 2, 3, 0, 0, 1, 3, 2, 3, 0, 0, 1};
    uint8_t *job = malloc(JOB), *shorter = malloc(JOB - 1);
    uint64_t length;
    if (job == NULL || shorter == NULL)
        return 1;
    uint32_t number = write_job(poses, job, JOB, &length);
    printf("number %" PRIu32 ", %" PRIu64 " bytes\n", number, length);
    if (number != MAZTUBEL_SERVED || !read_back(job, length, poses))
        return 1;
    print_bytes(job, length);
    number = write_job(poses, shorter, JOB - 1, &length);
    printf("number %" PRIu32 ", %" PRIu64 " bytes\n", number, length);
    free(job);
    free(shorter);
    return 0;
}
