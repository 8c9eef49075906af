/* Two builds of the library in one process: each row of the table is one entry over the same inputs, in turns, the best
 * round of many, and the number of answers that are not the same bits in both. `run` makes the four shared libraries,
 * `repeat` runs this many times. */
#define _POSIX_C_SOURCE 200809L
#include <dlfcn.h>
#include <math.h>
#include <stdint.h>
#include <stdio.h>
#include <stdlib.h>
#include <string.h>
#include <time.h>

enum { ARGUMENTS = 4096, POSES = 5000, SPACE = POSES + 10000, SETS = 250, TURNS = 20, RANDOM_BITS = 1000000 };
static const double PI = 3.14159265358979323846, TOOL_LENGTH = 120.0, CONE = 1.0;

typedef uint32_t One(double, double *);
typedef uint32_t Two(double, double, double *);
typedef uint32_t Pair(double, double *, double *);
typedef uint32_t Forward(const uint8_t *, size_t, const double *, size_t, double, double *, size_t, uint64_t *,
                         uint8_t *);
typedef uint32_t Inverse(const uint8_t *, size_t, const double *, size_t, double, const double *, size_t, double *,
                         size_t, uint64_t *, uint64_t *, uint8_t *);
typedef uint32_t Solve(const uint8_t *, size_t, const double *, size_t, const double *, size_t, double, double *, size_t,
                       uint64_t *, uint8_t *);
typedef uint32_t Subdivide(const uint8_t *, size_t, const double *, size_t, const double *, size_t, double, double,
                           double *, size_t, double *, size_t, uint64_t *, uint64_t *, uint8_t *);
typedef uint32_t Both(const uint8_t *, size_t, const double *, size_t, const double *, size_t, double, double, double,
                      double *, size_t, double *, size_t, uint64_t *, uint64_t *, uint8_t *);

/* The entries of one build. A build before turns went by degrees has no `turn`: its pair is that of the radians. */
typedef struct {
    One *sine, *cosine, *arccosine;
    Two *arctangent;
    Pair *pair, *turn;
    double (*to_radians)(double);
    Forward *forward;
    Inverse *inverse;
    Solve *solve;
    Subdivide *subdivide;
    Both *both;
} Build;

/* What every round reads, and what it writes. */
typedef struct {
    double arguments[2 * ARGUMENTS], joint_sets[5 * ARGUMENTS], poses[6 * POSES], joints[5 * POSES];
    double chord, axis;
    uint8_t chain[176];
    size_t chain_length;
} Input;

typedef struct {
    double numbers[11 * SPACE];
    size_t count;
    uint32_t refused;
} Output;

typedef void Round(const Build *, const Input *, Output *);

static uint64_t state = 0x9e3779b97f4a7c15;

static uint64_t any_bits(void) {
    state ^= state << 13;
    state ^= state >> 7;
    state ^= state << 17;
    return state;
}

/* From -most to most. */
static double within(double most) {
    return most * (2.0 * ((double)(any_bits() >> 11) * 0x1p-53) - 1.0);
}

static void *entry(void *library, const char *name) {
    void *found = dlsym(library, name);
    if (!found) {
        fprintf(stderr, "%s is not in the build\n", name);
        exit(1);
    }
    return found;
}

static void *opened(const char *folder, const char *side, const char *name) {
    char path[4096];
    snprintf(path, sizeof path, "%s/%s-%s.so", folder, side, name);
    void *library = dlopen(path, RTLD_NOW | RTLD_LOCAL);
    if (!library) {
        fprintf(stderr, "%s\n", dlerror());
        exit(1);
    }
    return library;
}

/* POSIX hands functions out as objects; this is its way to store one. */
#define TAKE(field, library, name) (*(void **)&(field) = entry(library, name))

static Build build(const char *folder, const char *side) {
    void *maztubel = opened(folder, side, "maztubel"), *probe = opened(folder, side, "probe");
    Build b;
    TAKE(b.sine, maztubel, "maztubel_sine");
    TAKE(b.cosine, maztubel, "maztubel_cosine");
    TAKE(b.arctangent, maztubel, "maztubel_arctangent");
    TAKE(b.arccosine, maztubel, "maztubel_arccosine");
    TAKE(b.forward, maztubel, "maztubel_forward");
    TAKE(b.inverse, maztubel, "maztubel_inverse");
    TAKE(b.solve, maztubel, "maztubel_solve_path");
    TAKE(b.subdivide, maztubel, "maztubel_subdivide_path");
    TAKE(b.both, maztubel, "maztubel_solve_and_divide");
    TAKE(b.pair, probe, "probe_sine_cosine");
    TAKE(b.to_radians, probe, "probe_to_radians");
    *(void **)&b.turn = dlsym(probe, "probe_turn");
    return b;
}

/* ---- rounds */

static void sines(const Build *b, const Input *in, Output *out) {
    for (size_t i = 0; i < ARGUMENTS; i++) out->refused |= b->sine(in->arguments[i], &out->numbers[i]);
    out->count = ARGUMENTS;
}

static void cosines(const Build *b, const Input *in, Output *out) {
    for (size_t i = 0; i < ARGUMENTS; i++) out->refused |= b->cosine(in->arguments[i], &out->numbers[i]);
    out->count = ARGUMENTS;
}

static void arctangents(const Build *b, const Input *in, Output *out) {
    const double *y = in->arguments, *x = in->arguments + ARGUMENTS;
    for (size_t i = 0; i < ARGUMENTS; i++) out->refused |= b->arctangent(y[i], x[i], &out->numbers[i]);
    out->count = ARGUMENTS;
}

static void arccosines(const Build *b, const Input *in, Output *out) {
    for (size_t i = 0; i < ARGUMENTS; i++) out->refused |= b->arccosine(in->arguments[i], &out->numbers[i]);
    out->count = ARGUMENTS;
}

static void pairs(const Build *b, const Input *in, Output *out) {
    double *to = out->numbers;
    for (size_t i = 0; i < ARGUMENTS; i++) out->refused |= b->pair(in->arguments[i], to + 2 * i, to + 2 * i + 1);
    out->count = 2 * ARGUMENTS;
}

static void turns(const Build *b, const Input *in, Output *out) {
    double *to = out->numbers;
    for (size_t i = 0; i < ARGUMENTS; i++) {
        double degrees = in->arguments[i];
        out->refused |= b->turn ? b->turn(degrees, to + 2 * i, to + 2 * i + 1)
                                : b->pair(b->to_radians(degrees), to + 2 * i, to + 2 * i + 1);
    }
    out->count = 2 * ARGUMENTS;
}

static void forwards(const Build *b, const Input *in, Output *out) {
    uint64_t at;
    uint8_t letter;
    for (size_t i = 0; i < ARGUMENTS; i++)
        out->refused |= b->forward(in->chain, in->chain_length, in->joint_sets + 5 * i, 5, TOOL_LENGTH,
                                   out->numbers + 6 * i, 6, &at, &letter);
    out->count = 6 * ARGUMENTS;
}

/* The poses of the path, each for itself: the answers fold into the front of the output. */
static void inverses(const Build *b, const Input *in, Output *out) {
    static const double hint[2] = {0.0, 0.0};
    uint64_t at, count;
    uint8_t letter;
    for (size_t i = 0; i < 500; i++)
        out->refused |= b->inverse(in->chain, in->chain_length, in->poses + 6 * i, 6, TOOL_LENGTH, hint, 2,
                                   out->numbers + SETS * (i % 100), SETS, &count, &at, &letter);
    out->count = SETS * 100;
}

static void solves(const Build *b, const Input *in, Output *out) {
    uint64_t at;
    uint8_t letter;
    out->refused |= b->solve(in->chain, in->chain_length, in->poses, 6 * POSES, NULL, 0, CONE, out->numbers, 5 * POSES,
                             &at, &letter);
    out->count = 5 * POSES;
}

static uint32_t subdivided(const Build *b, const Input *in, Output *out, uint64_t *inserted) {
    uint64_t at;
    uint8_t letter;
    return b->subdivide(in->chain, in->chain_length, in->poses, 6 * POSES, in->joints, 5 * POSES, in->chord, in->axis,
                        out->numbers, 6 * SPACE, out->numbers + 6 * SPACE, 5 * SPACE, inserted, &at, &letter);
}

static void subdivides(const Build *b, const Input *in, Output *out) {
    uint64_t inserted;
    out->refused |= subdivided(b, in, out, &inserted);
    out->count = 11 * SPACE;
}

static void both(const Build *b, const Input *in, Output *out) {
    uint64_t inserted, at;
    uint8_t letter;
    out->refused |= b->both(in->chain, in->chain_length, in->poses, 6 * POSES, NULL, 0, CONE, in->chord, in->axis,
                            out->numbers, 6 * SPACE, out->numbers + 6 * SPACE, 5 * SPACE, &inserted, &at, &letter);
    out->count = 11 * SPACE;
}

/* ---- inputs */

static void draw_arguments(Input *in, double most) {
    for (size_t i = 0; i < 2 * ARGUMENTS; i++) in->arguments[i] = within(most);
}

static uint8_t *put(uint8_t *to, const double *numbers, size_t count) {
    memcpy(to, numbers, 8 * count);
    return to + 8 * count;
}

static uint8_t *put_rotary(uint8_t *to, char letter, char carrier, const double axis[3]) {
    static const double pivot[3] = {10.0, -20.0, 300.0};
    memset(to, 0, 72);
    to[0] = (uint8_t)letter;
    to[1] = carrier == 'h';
    put(put(to + 8, axis, 3), pivot, 3);
    return to + 72;
}

/* One letter for each rotary, t a table and h a head: A about x or a slanted axis, and C about z. Of two heads C is the
 * outer one, or it would not move the tool. */
static void take_machine(Input *in, const char *carriers, double slant) {
    const double a[3] = {1.0, slant, 0.0}, c[3] = {0.0, 0.0, 1.0};
    int heads = carriers[0] == 'h' && carriers[1] == 'h';
    uint8_t *to = in->chain;
    memset(to, 0, 8);
    to[0] = (uint8_t)strlen(carriers);
    to = heads ? put_rotary(to + 8, 'C', 'h', c) : put_rotary(to + 8, 'A', carriers[0], a);
    if (carriers[1]) to = heads ? put_rotary(to, 'A', 'h', a) : put_rotary(to, 'C', carriers[1], c);
    in->chain_length = (size_t)(put(to, c, 3) - in->chain);
}

static void draw_joint_sets(Input *in) {
    for (size_t i = 0; i < ARGUMENTS; i++) {
        double *set = in->joint_sets + 5 * i;
        for (size_t n = 0; n < 3; n++) set[n] = within(500.0);
        set[3] = within(120.0);
        set[4] = within(360.0);
    }
}

/* Passes to and fro over a part, the tool tilted by 10 to 40 degrees. */
static void lay_path(Input *in) {
    for (size_t i = 0; i < POSES; i++) {
        double along = (double)(i % 100), pass = (double)(i / 100);
        double x = pass - floor(0.5 * pass) * 2.0 < 1.0 ? along : 99.0 - along;
        double tilt = (25.0 + 15.0 * sin(0.05 * x + 0.1 * pass)) * PI / 180.0, toward = 0.02 * x + 0.03 * pass;
        double pose[6] = {x, pass, 20.0 * sin(0.03 * x), sin(tilt) * cos(toward), sin(tilt) * sin(toward), cos(tilt)};
        memcpy(in->poses + 6 * i, pose, sizeof pose);
    }
}

/* The joints of the path, as the first build solves it, for a division in both; and the tightest of a row of tolerances
 * under which it inserts at most as many poses as are given. */
static void take_path(const Build *b, Input *in, Output *out) {
    uint64_t inserted = 0;
    out->refused = 0;
    solves(b, in, out);
    memcpy(in->joints, out->numbers, 5 * POSES * sizeof(double));
    for (in->chord = 1e-5; in->chord < 1.0; in->chord *= 1.1) {
        in->axis = 10.0 * in->chord;
        if (!subdivided(b, in, out, &inserted) && inserted <= POSES) return;
    }
    fprintf(stderr, "no tolerance divides the path\n");
    exit(1);
}

/* ---- the table */

static double seconds(void) {
    struct timespec now;
    clock_gettime(CLOCK_MONOTONIC, &now);
    return (double)now.tv_sec + 1e-9 * (double)now.tv_nsec;
}

static double shortest(Round *round, const Build *b, const Input *in, Output *out, int rounds) {
    double least = INFINITY;
    for (int i = 0; i < rounds; i++) {
        double start = seconds();
        round(b, in, out);
        least = fmin(least, seconds() - start);
    }
    return least;
}

static size_t differing(const double *one, const double *other, size_t count) {
    size_t differ = 0;
    for (size_t i = 0; i < count; i++) differ += memcmp(one + i, other + i, sizeof *one) != 0;
    return differ;
}

static int refusals = 0;

/* `calls` is the number of inputs of a round, so that times are of one call or one pose. */
static void row(const char *words, Round *round, const Build builds[2], const Input *in, double calls, int rounds) {
    static Output out[2];
    double least[2] = {INFINITY, INFINITY};
    for (int side = 0; side < 2; side++) out[side].refused = 0;
    for (int turn = 0; turn < TURNS; turn++)
        for (int side = 0; side < 2; side++)
            least[side] = fmin(least[side], shortest(round, &builds[side], in, &out[side], rounds));
    size_t differ = differing(out[0].numbers, out[1].numbers, out[0].count);
    refusals += out[0].refused || out[1].refused;
    printf("| %s | %.1f | %.1f | %.3f | %zu of %zu |%s\n", words, 1e9 * least[0] / calls, 1e9 * least[1] / calls,
           least[1] / least[0], differ, out[0].count, out[0].refused || out[1].refused ? " refused" : "");
}

static void rows_of_functions(const Build builds[2], Input *in) {
    draw_arguments(in, PI);
    row("sine, within pi", sines, builds, in, ARGUMENTS, 200);
    row("cosine, within pi", cosines, builds, in, ARGUMENTS, 200);
    row("sine and cosine, within pi", pairs, builds, in, ARGUMENTS, 200);
    draw_arguments(in, 800.0);
    row("sine, within 800", sines, builds, in, ARGUMENTS, 200);
    row("cosine, within 800", cosines, builds, in, ARGUMENTS, 200);
    row("sine and cosine, within 800", pairs, builds, in, ARGUMENTS, 200);
    row("arctangent", arctangents, builds, in, ARGUMENTS, 200);
    draw_arguments(in, 1.0);
    row("arccosine", arccosines, builds, in, ARGUMENTS, 200);
    draw_arguments(in, 40.0);
    row("the pair of a turn, within 40 degrees", turns, builds, in, ARGUMENTS, 200);
    draw_arguments(in, 360.0);
    row("the pair of a turn, within 360 degrees", turns, builds, in, ARGUMENTS, 200);
    draw_arguments(in, 36000.0);
    row("the pair of a turn, within 36,000 degrees", turns, builds, in, ARGUMENTS, 200);
}

static void rows_of_machines(const Build builds[2], Input *in) {
    static const char *machines[][2] = {
        {"t", "one table"}, {"h", "one head"}, {"tt", "two tables"}, {"ht", "a head and a table"}, {"hh", "two heads"}};
    char words[64];
    draw_joint_sets(in);
    for (size_t i = 0; i < 5; i++) {
        take_machine(in, machines[i][0], 0.25);
        snprintf(words, sizeof words, "forward, %s", machines[i][1]);
        row(words, forwards, builds, in, ARGUMENTS, 20);
    }
    for (size_t i = 2; i < 5; i++) {
        take_machine(in, machines[i][0], 0.0);
        snprintf(words, sizeof words, "inverse, %s", machines[i][1]);
        row(words, inverses, builds, in, 500, 10);
    }
}

static void rows_of_paths(const Build builds[2], Input *in) {
    static const char *machines[][2] = {{"tt", "two tables"}, {"ht", "a head and a table"}, {"hh", "two heads"}};
    static Output out;
    char words[64];
    for (size_t i = 0; i < 3; i++) {
        take_machine(in, machines[i][0], 0.0);
        take_path(&builds[0], in, &out);
        snprintf(words, sizeof words, "solve_path, %s: a pose", machines[i][1]);
        row(words, solves, builds, in, POSES, 4);
        snprintf(words, sizeof words, "subdivide_path, %s: a given pose", machines[i][1]);
        row(words, subdivides, builds, in, POSES, 4);
        snprintf(words, sizeof words, "solve_and_divide, %s: a given pose", machines[i][1]);
        row(words, both, builds, in, POSES, 4);
    }
}

/* ---- bits of the sine and the cosine */

/* Number and answer of sine, cosine and pair in both builds at one argument; an answer that is kept shows too. */
static int alike(const Build builds[2], double x) {
    double answers[2][4];
    uint32_t numbers[2][3];
    for (int side = 0; side < 2; side++) {
        const Build *b = &builds[side];
        for (int i = 0; i < 4; i++) answers[side][i] = -7.0;
        numbers[side][0] = b->sine(x, &answers[side][0]);
        numbers[side][1] = b->cosine(x, &answers[side][1]);
        numbers[side][2] = b->pair(x, &answers[side][2], &answers[side][3]);
    }
    return !memcmp(answers[0], answers[1], sizeof answers[0]) && !memcmp(numbers[0], numbers[1], sizeof numbers[0]);
}

/* Doubles about x, with both signs. */
static size_t about(const Build builds[2], double x, size_t *asked) {
    size_t differ = 0;
    double near[5] = {x, nextafter(x, INFINITY), nextafter(x, -INFINITY), nextafter(x, 0.0), 0.5 * x};
    for (int i = 0; i < 5; i++) {
        differ += !alike(builds, near[i]);
        differ += !alike(builds, -near[i]);
    }
    *asked += 10;
    return differ;
}

static void bits(const Build builds[2]) {
    static const double edges[] = {0.0, 0x1p-1074, 0x1p-1022, 0x1p-540, 0x1p-53, 0x1p-27, 1e-9, 0.5,
                                   0.79, 1.0, 800.0, 801.0, 0x1p53, 0x1p1023, INFINITY, NAN};
    size_t differ = 0, asked = 0;
    for (size_t i = 0; i < sizeof edges / sizeof *edges; i++) differ += about(builds, edges[i], &asked);
    for (int k = 1; k <= 1020; k++) differ += about(builds, (double)k * (0.25 * PI), &asked);
    printf("\nsine, cosine and their pair: %zu edge arguments, %zu differ\n", asked, differ);
    differ = 0;
    for (int i = 0; i < RANDOM_BITS; i++) {
        uint64_t pattern = any_bits();
        double x;
        memcpy(&x, &pattern, sizeof x);
        differ += !alike(builds, within(800.0)) + !alike(builds, within(PI)) + !alike(builds, x);
    }
    printf("sine, cosine and their pair: %d random arguments, %zu differ\n", 3 * RANDOM_BITS, differ);
}

/* FOLDER FIRST SECOND: the two sides in the order in which they are opened. With a fourth word no functions and no
 * bits. */
int main(int count, char **words) {
    static Input in;
    if (count < 4) return fprintf(stderr, "beside FOLDER FIRST SECOND: use tools/beside/run\n"), 2;
    Build builds[2] = {build(words[1], words[2]), build(words[1], words[3])};
    int whole = count == 4;
    lay_path(&in);
    printf("| | %s, ns | %s, ns | %s / %s | numbers that differ |\n|---|---|---|---|---|\n", words[2], words[3],
           words[3], words[2]);
    if (whole) rows_of_functions(builds, &in);
    rows_of_machines(builds, &in);
    rows_of_paths(builds, &in);
    if (whole) bits(builds);
    if (refusals) printf("%d rows were refused\n", refusals);
    return refusals != 0;
}
