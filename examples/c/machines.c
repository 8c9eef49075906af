/* The worked machines of docs/CONVENTIONS.md from C. For each it prints the chain, the tool, a pose and every joint set
 * that reaches the pose, as the document has them, to six decimals. tests/machines.rs of bindings/rust compares these
 * lines with the document's.
 *
 * It tries each joint set three ways, to 1e-9: maztubel_choose finds it next to its angles, maztubel_forward leads from
 * it back to the pose, and maztubel_solve_path reaches it with the tool's length put into the chain. A miss ends the
 * program with status 1. */
#include "maztubel.h"

#include <stdio.h>
#include <stdlib.h>
#include <string.h>

enum { POSE = 6, JOINTS = 5, MOST_SETS = 50, TABLE = 0, HEAD = 1 };

#define ROOT_3_HALVED 0.86602540378443865 /* the cosine of 30 degrees */

/* On a little-endian machine the bytes of a chain are these two structs as they lie in memory. */
struct rotary {
    char letter;
    uint8_t carrier, limited, zeros[5];
    double axis[3], pivot[3], limits[2]; /* limits are +0.0 where it has none */
};

struct chain {
    uint8_t count, zeros[7];
    struct rotary rotaries[2];
    double spindle[3];
};

_Static_assert(sizeof(struct rotary) == 72 && sizeof(struct chain) == 176, "no padding");
_Static_assert(__BYTE_ORDER__ == __ORDER_LITTLE_ENDIAN__, "bytes in the library's order");

/* A pose, and the angles of every joint set that reaches it. */
struct machine {
    const char *name;
    struct chain chain;
    double tool, pose[POSE];
    size_t sets;
    double angles[4][2];
};

static const struct machine machines[] = {
    {.name = "table",
     .chain = {.count = 1, .rotaries = {{.letter = 'A', .carrier = TABLE, .axis = {1, 0, 0}}}, .spindle = {0, 0, 1}},
     .tool = 100,
     .pose = {0, 0, 100, 0, 0.5, ROOT_3_HALVED},
     .sets = 1,
     .angles = {{30, 0}}},
    {.name = "head",
     .chain = {.count = 1,
               .rotaries = {{.letter = 'A', .carrier = HEAD, .axis = {1, 0, 0}, .pivot = {0, 0, 150}}},
               .spindle = {0, 0, 1}},
     .tool = 100,
     .pose = {0, 125, 0, 0, -0.5, ROOT_3_HALVED},
     .sets = 1,
     .angles = {{30, 0}}},
    {.name = "table-table",
     .chain = {.count = 2,
               .rotaries = {{'A', TABLE, 1, {0}, {1, 0, 0}, {0, 220, 50}, {-45, 110}},
                            {'C', TABLE, 0, {0}, {0, 0, 1}, {300, 200, 0}, {0, 0}}},
               .spindle = {0, 0, 1}},
     .tool = 100,
     .pose = {320, 180, 10, 0.5, 0, ROOT_3_HALVED},
     .sets = 2,
     .angles = {{30, 90}, {-30, -90}}},
    {.name = "head-table",
     .chain = {.count = 2,
               .rotaries = {{'C', TABLE, 1, {0}, {0, 0, 1}, {400, 300, 0}, {-360, 360}},
                            {'B', HEAD, 1, {0}, {0, 1, 0}, {0, 0, 150}, {-110, 110}}},
               .spindle = {0, 0, 1}},
     .tool = 100,
     .pose = {450, 280, 20, 0, -0.5, ROOT_3_HALVED},
     .sets = 4,
     .angles = {{90, 30}, {-90, -30}, {-270, 30}, {270, -30}}},
    {.name = "head-head",
     .chain = {.count = 2,
               .rotaries = {{'C', HEAD, 1, {0}, {0, 0, 1}, {0, 0, 0}, {-200, 200}},
                            {'A', HEAD, 1, {0}, {1, 0, 0}, {0, 20, 200}, {-100, 100}}},
               .spindle = {0, 0, 1}},
     .tool = 100,
     .pose = {100, 50, 25, 0.5, 0, ROOT_3_HALVED},
     .sets = 2,
     .angles = {{90, 30}, {-90, -30}}},
};

static void fail(const char *machine, const char *what) {
    fprintf(stderr, "%s: %s\n", machine, what);
    exit(1);
}

static void must_serve(uint32_t number, const char *machine, const char *what) {
    if (number != MAZTUBEL_SERVED)
        fail(machine, what);
}

static void must_be_near(const double *left, const double *right, size_t count, const char *machine,
                         const char *what) {
    for (size_t i = 0; i < count; i++)
        if (!(left[i] - right[i] < 1e-9 && right[i] - left[i] < 1e-9))
            fail(machine, what);
}

/* A chain of one has no second record between its rotary and its spindle. Returns the number of bytes. */
static size_t chain_bytes(const struct chain *chain, uint8_t *bytes) {
    size_t rotaries = 8 + sizeof(struct rotary) * chain->count;
    memcpy(bytes, chain, rotaries);
    memcpy(bytes + rotaries, chain->spindle, sizeof chain->spindle);
    return rotaries + sizeof chain->spindle;
}

/* A path is solved at tool length 0, so the gauge point moves to the tip. Seen from there a head's pivot is farther
 * along the spindle axis, here a unit vector, by the tool's length. A table's pivot stays. */
static struct chain with_tool(struct chain chain, double length) {
    for (uint8_t i = 0; i < chain.count; i++)
        for (size_t k = 0; k < 3 && chain.rotaries[i].carrier == HEAD; k++)
            chain.rotaries[i].pivot[k] += length * chain.spindle[k];
    return chain;
}

/* Six decimals; what rounds to zero has no sign. */
static void print_numbers(const char *word, const double *numbers, size_t count) {
    printf(" %s", word);
    for (size_t i = 0; i < count; i++)
        printf(" %.6f", numbers[i] > -5e-7 && numbers[i] < 5e-7 ? 0.0 : numbers[i]);
}

static void print_machine(const struct machine *machine) {
    printf("machine %s\n", machine->name);
    for (uint8_t i = 0; i < machine->chain.count; i++) {
        const struct rotary *rotary = &machine->chain.rotaries[i];
        printf("rotary %c %s", rotary->letter, rotary->carrier == TABLE ? "table" : "head");
        print_numbers("axis", rotary->axis, 3);
        print_numbers("pivot", rotary->pivot, 3);
        if (rotary->limited)
            print_numbers("limits", rotary->limits, 2);
        putchar('\n');
    }
    printf("spindle");
    print_numbers("axis", machine->chain.spindle, 3);
    printf("\ntool");
    print_numbers("length", &machine->tool, 1);
    printf("\npose");
    print_numbers("tip", machine->pose, 3);
    print_numbers("axis", machine->pose + 3, 3);
    putchar('\n');
}

static void print_joints(const double *joints) {
    printf("joints");
    print_numbers("position", joints, 3);
    print_numbers("angles", joints + 3, 2);
    putchar('\n');
}

/* The joint set next to these angles: there and back. */
static void reach(const struct machine *machine, const double *angles, double *joints) {
    uint8_t bytes[sizeof(struct chain)], letter;
    size_t length = chain_bytes(&machine->chain, bytes);
    uint64_t at;
    double pose[POSE];
    must_serve(maztubel_choose(bytes, length, machine->pose, POSE, machine->tool, MAZTUBEL_NEAREST, angles, 2, joints,
                               JOINTS, &at, &letter),
               machine->name, "choose refuses");
    must_be_near(joints + 3, angles, 2, machine->name, "choose has other angles");
    must_serve(maztubel_forward(bytes, length, joints, JOINTS, machine->tool, pose, POSE, &at, &letter), machine->name,
               "forward refuses");
    must_be_near(pose, machine->pose, POSE, machine->name, "forward does not lead back to the pose");
}

/* The same joint set as a path of one pose that starts at its angles. */
static void follow(const struct machine *machine, const double *joints) {
    struct chain chain = with_tool(machine->chain, machine->tool);
    uint8_t bytes[sizeof(struct chain)], letter;
    size_t length = chain_bytes(&chain, bytes);
    uint64_t at;
    double solved[JOINTS];
    must_serve(maztubel_solve_path(bytes, length, machine->pose, POSE, joints, JOINTS, 1.0, solved, JOINTS, &at,
                                   &letter),
               machine->name, "solve_path refuses");
    for (size_t k = 0; k < 3; k++)
        solved[k] += machine->tool * chain.spindle[k]; /* from the tip back to the gauge point */
    must_be_near(solved, joints, JOINTS, machine->name, "solve_path has other joints");
}

static void run(const struct machine *machine) {
    uint8_t bytes[sizeof(struct chain)], letter;
    size_t length = chain_bytes(&machine->chain, bytes);
    uint64_t at, count;
    double list[MOST_SETS * JOINTS], joints[JOINTS];
    const double hint[2] = {0, 0};
    print_machine(machine);
    must_serve(maztubel_inverse(bytes, length, machine->pose, POSE, machine->tool, hint, 2, list, MOST_SETS * JOINTS,
                                &count, &at, &letter),
               machine->name, "inverse refuses");
    if (count != machine->sets)
        fail(machine->name, "inverse has another number of joint sets");
    for (size_t i = 0; i < machine->sets; i++) {
        reach(machine, machine->angles[i], joints);
        follow(machine, joints);
        print_joints(joints);
    }
}

int main(void) {
    for (size_t i = 0; i < sizeof machines / sizeof *machines; i++)
        run(&machines[i]);
    return 0;
}
