/* Conventions; docs/CONVENTIONS.md has them with a picture, how to set up a chain, and worked machines.
 *
 * - Lengths are millimetres, angles degrees. Only the four functions from sine to arccosine have radians.
 * - Frames are right-handed, and a positive angle turns right-handedly about its rotary's axis. A head's turns the tool,
 *   a table's turns the part, so the tool seen from the part turns the other way.
 * - X, Y, Z of a joint set place the gauge point in the machine frame. The part frame is the machine frame at table
 *   angles zero and turns with the tables. The gauge frame is the machine frame moved to the gauge point.
 * - Axes and pivots are those at angles zero. A table's pivot is in machine coordinates, a head's is relative to the
 *   gauge point. The outer rotary comes first: of two tables the one on the machine base, of two heads the one on the
 *   slide.
 * - The tool axis points from the tip toward the spindle. At head angles zero the tip is the gauge point minus the tool
 *   length times the unit spindle axis.
 * - forward maps joints to a pose in the part frame, inverse and choose map a pose to joints, each at a tool length.
 *   Calls on paths map poses to joints at tool length 0: for a tool of length L add L times the unit spindle axis to
 *   each head's pivot beforehand, and to each position afterwards.
 */

/* The exports of the static library maztubel (`tools/archive maztubel` writes target/staticlib/libmaztubel.a).
 *
 * The rotary kinematics of a five-axis postprocessor, in millimetres and degrees; docs/CONVENTIONS.md has frames,
 * pivots, signs and worked machines. Link the library on x86-64 Linux; of the C library it uses only memcpy and
 * memset. It allocates nothing and keeps no pointer and no state, so calls may run on several threads at once.
 *
 * Every function returns 0 and writes its outputs, or returns a refusal number and leaves them unchanged unless
 * stated. An output is kept if the call leaves it unchanged, and cleared if the call sets every number of it to
 * +0.0. Each comment below lists the refusals of a function in the order of its checks, each number with what is at
 * fault; the enum says what must hold. The first that applies is returned.
 *
 * Pass valid pointers; every other bad input returns a refusal number.
 *   - A buffer is a pointer and a length. The length counts elements: bytes of a uint8_t buffer, doubles of a double
 *     buffer, whole numbers of a uint64_t buffer.
 *   - A pointer is aligned for its element. NULL is valid for a buffer of length 0, and nowhere else.
 *   - No two buffers or outputs of one call overlap.
 *
 * Where a function has *at and *letter, every call writes both:
 *   3 to 9    *at is the index of the rotary at fault; 0 for the number of rotaries and for the spindle axis
 *   10 to 13  *at is the index of the link at fault; 0 for the number of links and for a carrier that was asked for
 *   16, 17    at a pose of a path, *at is the index of the pose
 *   23 to 26  *at is the index of the pose; with 24, *letter is the letter of the rotary
 *   29        *at is the offset of the first bad field, in the bytes of the chain, the job or the model
 * All else is 0. Indices count from 0.
 *
 * Start with maztubel_solve_and_divide; examples/c/path.c calls it. docs/SCOPE.md defines the terms and has all
 * checks and refusals, docs/FORMAT.md has the bytes.
 */
#ifndef MAZTUBEL_H
#define MAZTUBEL_H

#include <stddef.h>
#include <stdint.h>

#ifdef __cplusplus
extern "C" {
#endif

/* What a call returns: 0, or why it was refused, as what must hold. */
enum {
    /* the call was served */
    MAZTUBEL_SERVED = 0,
    /* a name must have at least 1 byte */
    MAZTUBEL_NAME_EMPTY = 1,
    /* a name must have at most 256 bytes */
    MAZTUBEL_NAME_TOO_LONG = 2,
    /* a chain must have 1 or 2 rotaries */
    MAZTUBEL_ROTARY_COUNT = 3,
    /* a rotary's letter must be A, B or C */
    MAZTUBEL_ROTARY_LETTER = 4,
    /* two rotaries must have different letters */
    MAZTUBEL_LETTER_TWICE = 5,
    /* a rotary's axis, pivot and rest angle and the spindle axis must be finite */
    MAZTUBEL_CHAIN_NOT_FINITE = 6,
    /* a rotary's axis must have a direction (a component above 1e-15 in size, a length that does not overflow) */
    MAZTUBEL_ROTARY_AXIS_ZERO = 7,
    /* a rotary's limits must be finite, the lower below the upper */
    MAZTUBEL_LIMITS_REFUSED = 8,
    /* the spindle axis must have a direction (a component above 1e-15 in size, a length that does not overflow) */
    MAZTUBEL_SPINDLE_ZERO = 9,
    /* a model must have at most 64 links */
    MAZTUBEL_TOO_MANY_LINKS = 10,
    /* the links of a model must have different names */
    MAZTUBEL_LINK_NAME_TWICE = 11,
    /* a carrier must be base, table, head or the letter of a rotary of the chain */
    MAZTUBEL_CARRIER_UNKNOWN = 12,
    /* a solid must be finite, a box with max above min in x, y and z, a cylinder with a radius and a length above 0
     * and an axis that has a direction */
    MAZTUBEL_SOLID_BAD = 13,
    /* the tool length must be finite and not below 0 mm */
    MAZTUBEL_TOOL_LENGTH = 14,
    /* the tool axis must have a direction (finite, a component above 1e-15 in size, a length that does not overflow) */
    MAZTUBEL_TOOL_AXIS_ZERO = 15,
    /* joints, start, hint, tips and an angle that is asked for must be finite, in a division and in a job that is
     * written tool axes too */
    MAZTUBEL_NOT_FINITE = 16,
    /* sizes must be at most 100,000 mm (tip, pivot, tool length, and a solid where links meet), 10,000,000 mm (joint
     * position), 36,000 degrees (angle, rest angle, hint), 100,000 poses, 65,536 bytes (a job that is written),
     * 1,000,000,000 inserted poses (a balance), 800 radians (sine, cosine), 1 (arccosine), and finite (arctangent) */
    MAZTUBEL_TOO_LARGE = 17,
    /* the cone must be finite, above 0 and at most 10 degrees */
    MAZTUBEL_CONE = 18,
    /* the chord tolerance (mm), the axis tolerance (degrees) and the tolerance of a tooth (degrees) must be finite and
     * above 0 */
    MAZTUBEL_TOLERANCE = 19,
    /* buffers must hold whole records, lengths that belong together must be equal, a choice must be 0, 1 or 2, an index
     * must be that of a joint set, the rotary that is asked for must be 0 or 1, there must be 32 balances, a dispatcher
     * must have 145 words and 368 numbers, and a turn must be lent outputs as long as those of the admission */
    MAZTUBEL_LENGTHS_DIFFER = 20,
    /* the rotaries must reach the tool axis */
    MAZTUBEL_NOT_REACHABLE = 21,
    /* the rotaries must reach the tool axis within their limits, without limits above -180 and at most 180 degrees,
     * with at most 2 turns added or taken away */
    MAZTUBEL_OUTSIDE_LIMITS = 22,
    /* a pose must keep the rotary branch, its angles at most 90 degrees from the solution closest to the pose before */
    MAZTUBEL_BRANCH_FLIPS = 23,
    /* a pose must keep every rotary within its limits */
    MAZTUBEL_LEAVES_AXIS = 24,
    /* a pose's tool axis must have a direction that the rotaries reach */
    MAZTUBEL_POSE_UNREACHABLE = 25,
    /* a pose's angles must be at most 36,000 degrees in size */
    MAZTUBEL_ANGLE_TOO_LARGE = 26,
    /* a division must insert at most 10,000 poses */
    MAZTUBEL_TOO_MANY_INSERTIONS = 27,
    /* the outputs must have space for every pose, and for the job that is written, and the scratch of a quotation for
     * 10,000 joint sets and tips */
    MAZTUBEL_NO_SPACE = 28,
    /* the bytes of a chain, a job or a model must have the form of docs/FORMAT.md */
    MAZTUBEL_MALFORMED = 29,
    /* on a path two rotaries must not be parallel: the cross product of their unit axes must have a length of at least
     * 1e-9 */
    MAZTUBEL_PARALLEL_ROTARIES = 30,
    /* on the nearest teeth every rotary must be within its limits, and the tool axis within the tolerance */
    MAZTUBEL_TOOTH_MISSES = 31,
    /* a dispatcher must have at most 16 paths at a time */
    MAZTUBEL_QUEUE_FULL = 32,
    /* a path number must be that of an admitted path */
    MAZTUBEL_NOT_ADMITTED = 33,
    /* a shop must be 0 to 31 */
    MAZTUBEL_UNKNOWN_SHOP = 34,
    /* a shop's balance must not be below the count of a division that is charged to it */
    MAZTUBEL_BALANCE_SHORT = 35
};

/* ---- Sine, cosine, arctangent, arccosine, in radians */

/* Writes the sine of x radians, within 2^-50 of the sum S(x) that docs/SCOPE.md defines.
 * Returns 17 if x is not from -800 to 800, or is a NaN. */
uint32_t maztubel_sine(double x, double *answer);

/* Writes the cosine of x radians, within 2^-50 of the sum C(x) that docs/SCOPE.md defines.
 * Returns 17 if x is not from -800 to 800, or is a NaN. */
uint32_t maztubel_cosine(double x, double *answer);

/* Writes the angle of the point (x, y) in radians, from -pi to pi and with the sign bit of y, as atan2 does.
 * Returns 17 if y or x is not finite. */
uint32_t maztubel_arctangent(double y, double x, double *answer);

/* Writes the angle in radians, from 0 to pi, whose cosine is c.
 * Returns 17 if c is not from -1 to 1, or is a NaN. */
uint32_t maztubel_arccosine(double c, double *answer);

/* The next four do the same for every element: answers[i] has the bits that the function above gives for the
 * arguments at i. Every argument is tested before the first answer is written. Refusals, all of which keep the
 * answers:
 *   20  the lengths differ
 *   17  an argument is refused */

/* The sine of each of xs, in radians. */
uint32_t maztubel_sines(const double *xs, size_t xs_length, double *answers, size_t answers_length);

/* The cosine of each of xs, in radians. */
uint32_t maztubel_cosines(const double *xs, size_t xs_length, double *answers, size_t answers_length);

/* The angle of each point (xs[i], ys[i]), in radians. */
uint32_t maztubel_arctangents(const double *ys, size_t ys_length, const double *xs, size_t xs_length, double *answers,
                              size_t answers_length);

/* The angle of each cosine of cs, in radians. */
uint32_t maztubel_arccosines(const double *cs, size_t cs_length, double *answers, size_t answers_length);

/* ---- Chains
 *
 * A chain is one or two rotaries and the spindle axis. It is passed as bytes, all numbers as little-endian doubles.
 * Each rotary is a record of w bytes: 72, or 80 with its rest angle. The length of the chain says which: 104 bytes with
 * one rotary and 176 with two have no rest angles, 112 and 192 have them. Without them every rest angle is +0.0.
 *
 *   offset     bytes  field
 *   0          1      n, the number of rotaries: 1 or 2
 *   1          7      zero
 *   8          w      the first rotary
 *   8 + w      w      the second rotary, if n is 2
 *   8 + w n    24     the spindle axis: the tool axis at head angles of zero, from the tip toward the spindle
 *
 * and each rotary, from its own first byte:
 *
 *   0          1      the letter: 'A', 'B' or 'C'
 *   1          1      the carrier: 0 a table, which moves the part; 1 a head, which moves the tool
 *   2          1      1 if it has limits, else 0
 *   3          5      zero
 *   8          24     the axis; a positive angle turns right-handed about it
 *   32         24     the pivot, a point on the axis, in mm at angles of zero: a table's in machine coordinates, a
 *                     head's relative to the gauge point
 *   56         8      the lower limit in degrees, +0.0 if it has none
 *   64         8      the upper limit in degrees, +0.0 if it has none
 *   72         8      if w is 80: the rest angle in degrees, at which the cable hangs free. Cable turns are counted from
 *                     it (maztubel_cable_number); nothing else depends on it
 *
 * Of two tables the first stands on the machine's base and carries the second. Of two heads the first hangs on the Z
 * slide and carries the second. A table and a head stand in any order. Axes need not be unit vectors.
 * examples/c/path.c has a function that writes these bytes. */

/* Checks a chain: returns 0 if the other functions can serve it.
 * Refusals:
 *   29      the bytes
 *   3 to 9  the chain
 *   17      a number of a pivot is above 100,000 mm in size, or a rest angle above 36,000 degrees */
uint32_t maztubel_check_chain(const uint8_t *chain, size_t chain_length, uint64_t *at, uint8_t *letter);

/* From joints to the pose of the tool.
 *
 *   joints       5 doubles: the position of the gauge point in the machine frame in mm, and the angle of each rotary
 *                in degrees. With one rotary the second angle is not used, but is checked all the same
 *   tool_length  the distance from the gauge point to the tip in mm, along the spindle axis
 *   pose         output, 6 doubles: the tip in mm and the unit tool axis from the tip toward the spindle, in the
 *                part frame
 *
 * Refusals, all of which keep the pose:
 *   20      joints is not 5 doubles, or pose not 6
 *   29      the chain's bytes
 *   14      the tool length
 *   3 to 9  the chain
 *   16      a joint is not finite
 *   17      a position is above 10,000,000 mm in size, an angle or a rest angle above 36,000 degrees, a pivot or the
 *           tool length above 100,000 mm */
uint32_t maztubel_forward(const uint8_t *chain, size_t chain_length, const double *joints, size_t joints_length,
                          double tool_length, double *pose, size_t pose_length, uint64_t *at, uint8_t *letter);

/* ---- The inverse map: from the pose of the tool to joints
 *
 *   pose         6 doubles in the part frame: the tip in mm, and the tool axis from the tip toward the spindle, of
 *                any length
 *   tool_length  as in maztubel_forward
 *   hint         2 angles in degrees; a rotary whose angle the tool axis leaves free takes its hint
 *
 * Refusals of the next two functions that keep the outputs:
 *   20      the length of a buffer, see each function
 *   29      the chain's bytes
 *   14      the tool length
 *   15      the tool axis is not finite, is zero, or its length overflows
 *   3 to 9  the chain
 *   16      the tip or the hint is not finite
 *   17      a tip, a pivot or the tool length is above 100,000 mm in size, or a hint or a rest angle above 36,000
 *           degrees
 * and that clear the outputs:
 *   21      the rotaries do not reach the tool axis
 *   22      they reach it only outside their limits */

/* Writes every joint set that reaches the pose.
 *
 *   list   output, 250 doubles, 50 joint sets of 5 as in maztubel_forward; those behind *count are +0.0. Each angle
 *          is tried with up to two whole turns added or taken away, and must lie within its limits, without limits
 *          above -180 and at most 180 degrees. The order is by the size of the first angle, then the first angle,
 *          then the second. An angle can be as large as 36,900 degrees
 *   count  output, how many joint sets, 1 to 50
 *
 * Refusals, beside those above:
 *   20      pose is not 6 doubles, hint not 2, or list not 250
 *   21, 22  clear the list and set *count to 0; all other refusals keep both */
uint32_t maztubel_inverse(const uint8_t *chain, size_t chain_length, const double *pose, size_t pose_length,
                          double tool_length, const double *hint, size_t hint_length, double *list, size_t list_length,
                          uint64_t *count, uint64_t *at, uint8_t *letter);

/* Which of the joint sets of maztubel_inverse to take. */
enum {
    /* the nearest to the hint, by the larger of the two angle differences; of equals the first */
    MAZTUBEL_NEAREST = 0,
    /* the first whose first angle is at least -1e-9 degrees; if there is none, the first of all */
    MAZTUBEL_FIRST_POSITIVE = 1,
    /* the first whose first angle is at most 1e-9 degrees; if there is none, the first of all */
    MAZTUBEL_FIRST_NEGATIVE = 2
};

/* Writes one of the joint sets of maztubel_inverse.
 *
 *   choice  one of the three above. MAZTUBEL_NEAREST also takes the hint for free angles; the other two take zero
 *           for them, and do not read the hint, which must be 2 doubles all the same
 *   joints  output, 5 doubles, as in maztubel_forward
 *
 * Refusals, beside those above:
 *   20      pose is not 6 doubles, hint not 2, joints not 5, or choice not 0, 1 or 2
 *   21, 22  clear the joints; all other refusals keep them */
uint32_t maztubel_choose(const uint8_t *chain, size_t chain_length, const double *pose, size_t pose_length,
                         double tool_length, uint32_t choice, const double *hint, size_t hint_length, double *joints,
                         size_t joints_length, uint64_t *at, uint8_t *letter);

/* Writes the joint set of maztubel_choose on the teeth of a Hirth table, which stand half a degree apart.
 *
 *   choice     as in maztubel_choose
 *   tolerance  how far the tool axis that is reached on the teeth may be from the one that was asked for, in degrees,
 *              finite and above 0
 *   joints     output, 5 doubles, as in maztubel_forward: each angle of the joint set that maztubel_choose writes, at
 *              its nearest half degree, a half away from zero and zero as +0.0; and the position that holds the tip
 *              there. With one rotary the second angle is +0.0
 *
 * Refusals, in this order:
 *   19      the tolerance, before all other checks
 *           those of maztubel_choose, which leave the joints as maztubel_choose does
 *   31      on the teeth a rotary is outside its limits, or the tool axis is off by more than the tolerance
 * 19 and 31 keep the joints. No other joint set is tried where the nearest teeth of the chosen one miss. */
uint32_t maztubel_choose_tooth(const uint8_t *chain, size_t chain_length, const double *pose, size_t pose_length,
                               double tool_length, uint32_t choice, const double *hint, size_t hint_length,
                               double tolerance, double *joints, size_t joints_length, uint64_t *at, uint8_t *letter);

/* ---- Models: the shapes of a machine, and where they stand
 *
 * A model is bytes, one link after another to their end; no bytes are a model without links. A link, all numbers
 * little-endian:
 *
 *   bytes  field
 *   2      n, the length of its name
 *   n      the name, any bytes
 *   2      k, the length of its carrier
 *   k      the carrier: "base", "table", "head", or the letter of a rotary of the chain
 *   1      the kind: 0 a box, 1 a cylinder
 *   64     8 doubles in mm. A box: its lower corner (3), its upper corner (3), +0.0, +0.0. A cylinder: the middle of
 *          its base (3), its axis (3), its radius, its length
 *
 *   name   the chain's name, 1 to 256 bytes; no other function takes one
 *
 * Chain and model are read whole before any check: 29 with an offset in the chain's bytes, then 29 with one in the
 * model's. The answer does not say in which: call maztubel_check_chain with the same chain. If that returns 29 too,
 * the offset is in the chain's bytes, else in the model's. */

/* Checks a chain with its model: returns 0 if both can be served.
 * Refusals:
 *   29      the bytes
 *   1, 2    the chain's name
 *   3 to 9  the chain
 *   10      there are more than 64 links
 *           for each link in turn:
 *   1, 2    its name, with *at 0
 *   11      an earlier link has its name
 *   12      its carrier
 *   13      its solid
 *           after the last link:
 *   17      a pivot is above 100,000 mm in size, or a rest angle above 36,000 degrees */
uint32_t maztubel_check_model(const uint8_t *name, size_t name_length, const uint8_t *chain, size_t chain_length,
                              const uint8_t *model, size_t model_length, uint64_t *at, uint8_t *letter);

/* Where the links of a carrier stand in the machine frame.
 *
 *   joints   5 doubles, as in maztubel_forward
 *   carrier  bytes, as in a link
 *   frame    output, 12 doubles: an origin in mm and three axes. A point (x, y, z) of a link, as the model has it at
 *            joints of zero, stands at origin + x * first axis + y * second axis + z * third axis
 *
 * Refusals, all of which keep the frame:
 *   20      joints is not 5 doubles, or frame not 12
 *           the refusals of maztubel_check_model without 17
 *   16      a joint is not finite
 *   12      the carrier, with *at 0
 *   17      a position is above 10,000,000 mm in size, an angle or a rest angle above 36,000 degrees, a pivot above
 *           100,000 mm */
uint32_t maztubel_link_world(const uint8_t *name, size_t name_length, const uint8_t *chain, size_t chain_length,
                             const uint8_t *model, size_t model_length, const double *joints, size_t joints_length,
                             const uint8_t *carrier, size_t carrier_length, double *frame, size_t frame_length, uint64_t *at,
                             uint8_t *letter);

/* The same in the part frame: the inverse of the table's frame, applied to the frame of maztubel_link_world. */
uint32_t maztubel_link_in_part(const uint8_t *name, size_t name_length, const uint8_t *chain, size_t chain_length,
                               const uint8_t *model, size_t model_length, const double *joints, size_t joints_length,
                               const uint8_t *carrier, size_t carrier_length, double *frame, size_t frame_length, uint64_t *at,
                               uint8_t *letter);

/* ---- Paths
 *
 * A path is poses in order, 6 doubles each: the tip in mm and the tool axis, in the part frame. Its joint sets are 5
 * doubles each, as in maztubel_forward. On a path the tool length is 0: the gauge point is the tool tip at head
 * angles of zero, and a head's pivot is relative to it. */

/* Writes the joints of every pose of a path, each continuous with the pose before.
 *
 *   start   5 doubles, the joints before the first pose, of which the angles are used; or 0 doubles, for angles of
 *           zero
 *   cone    in degrees, above 0 and at most 10. Where the tool axis is within the cone of the singular direction or
 *           its opposite, the rotary on that direction keeps its angle, and the other one brings the tool axis as
 *           near as it can. If a rotary would leave its limits so, the exact solution is taken; 24 stands only if there
 *           is none either
 *   joints  output, one joint set for each pose, and +0.0 behind them
 *
 * Refusals before the first pose, which keep the joints:
 *   20      no whole records, or a start of neither 0 nor 5 doubles
 *   29      the chain's bytes
 *   18      the cone
 *   3 to 9  the chain
 *   30      the two rotaries are parallel, also for a path without poses
 *   16      the start is not finite
 *   17      a pivot is above 100,000 mm in size, the start's position above 10,000,000 mm, a rest angle or an angle of
 *           the start above 36,000 degrees, or there are more than 100,000 poses
 *   28      there is no space for the joints; *at is 0
 * Refusals at a pose, each pose in turn, with *at its index. They clear the whole output:
 *   25      its axis is not finite, is zero, or its length overflows
 *   16      its tip is not finite
 *   17      its tip is above 100,000 mm in size
 *   25      the rotaries do not reach its axis
 *   23      only another branch of the rotaries lies within the limits
 *   24      a rotary leaves its limits; *letter is its letter
 *   26      an angle is above 36,000 degrees in size */
uint32_t maztubel_solve_path(const uint8_t *chain, size_t chain_length, const double *poses, size_t poses_length,
                             const double *start, size_t start_length, double cone, double *joints, size_t joints_length,
                             uint64_t *at, uint8_t *letter);

/* ---- Division
 *
 * Inserts poses halfway between two neighbours until both tolerances hold at the middle of every two neighbours; in
 * maztubel_subdivide_strict at both quarters too. Two neighbours that fail stay as they are where their midpoint would
 * be within 1e-12 of one of them.
 *
 *   chord       how far the tip may be off, in mm, finite and above 0
 *   axis        how far the tool axis may be off, in degrees, finite and above 0
 *   out_poses   output, the poses of the divided path, 6 doubles each, and +0.0 behind them. The given poses are
 *               among them, in order and bit for bit
 *   out_joints  output, the joint set of each, 5 doubles, and +0.0 behind them
 *   inserted    output of every call: the number of poses inserted; with 27 and 28 the number so far; with any other
 *               refusal 0
 *
 * The space is the smaller of the two outputs, counted in records. Space for 10,000 more poses than given is always
 * enough. */

/* Divides given poses with their given joints.
 *
 * Refusals that keep both outputs:
 *   20      no whole records
 *   29      the chain's bytes
 *   19      a tolerance
 *   20      not one joint set for each pose
 *   3 to 9  the chain
 *   30      the two rotaries are parallel, also for a path without poses
 *   16      a number of a pose or a joint set is not finite
 *   17      a pivot or a tip is above 100,000 mm in size, a position above 10,000,000 mm, an angle or a rest angle above
 *           36,000 degrees, or there are more than 100,000 poses
 * Refusals that clear both outputs:
 *   28      there is no space for the given poses; *inserted is 0
 *   27      an insertion would be the 10,001st
 *   28      there is no space for the next pose */
uint32_t maztubel_subdivide_path(const uint8_t *chain, size_t chain_length, const double *poses, size_t poses_length,
                                 const double *joints, size_t joints_length, double chord, double axis, double *out_poses,
                                 size_t out_poses_length, double *out_joints, size_t out_joints_length, uint64_t *inserted,
                                 uint64_t *at, uint8_t *letter);

/* Divides as maztubel_subdivide_path does, by the strict test: both tolerances must hold at one quarter and at three
 * quarters of the way between two neighbours too. On a long arc the tip can be right at the middle and wrong at both
 * quarters; such a pair is divided here, and not there.
 *
 * A pair passes exactly if it passes the test of maztubel_subdivide_path, and the tip (mm) and the tool axis (degrees)
 * are within chord and axis at 0.25 and at 0.75. Two neighbours pass, as there, if no joint differs by more than 1e-12.
 * Poses are inserted halfway, as there.
 *
 * Where this call serves a path, the other one does too, for the same arguments and with the same space: it inserts no
 * more, and only what is inserted here, in the same order. So 27 and 28 can come here where that one serves.
 *
 * Refusals: those of maztubel_subdivide_path, in the same order, which keep or clear both outputs as there. */
uint32_t maztubel_subdivide_strict(const uint8_t *chain, size_t chain_length, const double *poses, size_t poses_length,
                                   const double *joints, size_t joints_length, double chord, double axis,
                                   double *out_poses, size_t out_poses_length, double *out_joints,
                                   size_t out_joints_length, uint64_t *inserted, uint64_t *at, uint8_t *letter);

/* Solves poses as maztubel_solve_path does, and divides them with the joints that it gives.
 *
 * Refusals that keep both outputs:
 *   20      no whole records, or a start of neither 0 nor 5 doubles
 *           29, 18, 3 to 9, 30, 16 and 17 of maztubel_solve_path, before its first pose
 *   28      there is no space for the given poses; *inserted is 0
 * Refusals that clear both outputs:
 *           the refusals of maztubel_solve_path at a pose
 *   19      a tolerance
 *   27      an insertion would be the 10,001st
 *   28      there is no space for the next pose */
uint32_t maztubel_solve_and_divide(const uint8_t *chain, size_t chain_length, const double *poses, size_t poses_length,
                                   const double *start, size_t start_length, double cone, double chord, double axis,
                                   double *out_poses, size_t out_poses_length, double *out_joints, size_t out_joints_length,
                                   uint64_t *inserted, uint64_t *at, uint8_t *letter);

/* ---- Quotation
 *
 * The figures of a division before the path exists: what maztubel_subdivide_path inserts for the same arguments, with
 * space for it, exactly; and 27 for exactly the same arguments. No path is written.
 *
 *   poses, joints, chord, axis  as in maztubel_subdivide_path
 *   scratch_joints  working space for 10,000 joint sets of 5 doubles: at least 50,000 doubles, whole sets
 *   scratch_tips    the same for their tips, 3 doubles each: at least 30,000 doubles, whole tips
 *   inserted        output of every call: the number of poses inserted; with 27 10,000; with any other refusal 0
 *   poses_out       output of every call: the number of poses of the divided path; with a refusal 0
 *   evaluations     output of every call: the number of forward evaluations; with a refusal 0. Each two poses that
 *                   ever are neighbours are tested once. A test counts three evaluations, or none where no joint
 *                   differs by more than 1e-12, and each insertion counts one
 *
 * What the scratch holds before the call does not matter. Refusals that keep it, in this order:
 *   20      no whole records, of the scratch too
 *   29      the chain's bytes
 *   19      a tolerance
 *   20      not one joint set for each pose
 *   3 to 9  the chain
 *   30      the two rotaries are parallel, also for a path without poses
 *   16      a number of a pose or a joint set is not finite
 *   17      a pivot or a tip is above 100,000 mm in size, a position above 10,000,000 mm, an angle or a rest angle above
 *           36,000 degrees, or there are more than 100,000 poses
 * Every other answer leaves +0.0 in the whole scratch, these refusals too:
 *   28      a scratch is shorter than that, also for a path without poses
 *   27      an insertion would be the 10,001st */
uint32_t maztubel_quote(const uint8_t *chain, size_t chain_length, const double *poses, size_t poses_length,
                        const double *joints, size_t joints_length, double chord, double axis,
                        double *scratch_joints, size_t scratch_joints_length, double *scratch_tips,
                        size_t scratch_tips_length, uint64_t *inserted, uint64_t *poses_out, uint64_t *evaluations,
                        uint64_t *at, uint8_t *letter);

/* The same of maztubel_subdivide_strict: what it inserts for the same arguments, exactly. A test counts five
 * evaluations, also one that fails at the middle already, or none where no joint differs by more than 1e-12; each
 * insertion counts one.
 *
 * Arguments, outputs, scratch and refusals are those of maztubel_quote, in the same order. */
uint32_t maztubel_quote_strict(const uint8_t *chain, size_t chain_length, const double *poses, size_t poses_length,
                               const double *joints, size_t joints_length, double chord, double axis,
                               double *scratch_joints, size_t scratch_joints_length, double *scratch_tips,
                               size_t scratch_tips_length, uint64_t *inserted, uint64_t *poses_out,
                               uint64_t *evaluations, uint64_t *at, uint8_t *letter);

/* ---- Jobs
 *
 * A job is a file of 40 to 65,536 bytes with a chain, poses, a cone and tolerances. Its last 40 bytes are the
 * trailer, four u32 and three doubles, little-endian as all numbers of a job:
 *
 *   offset in the trailer  field
 *   0                      offset of the chain, whose bytes are as above
 *   4                      offset of the poses, 48 bytes each: 3 doubles of the tip, 3 of the axis
 *   8                      number of poses
 *   12                     1 if each rotary of the chain has a rest angle, 0 if none has
 *   16                     the cone in degrees
 *   24                     the chord tolerance in mm
 *   32                     the axis tolerance in degrees
 *
 * Chain and poses lie before the trailer and do not overlap; all other bytes are ignored. The reader judges only the
 * form of the bytes: it reads a chain or a number that no other function serves. */

/* Reads a job.
 *
 *   chain_at      offset of the chain
 *   chain_length  how many bytes the chain has: 104 or 112 with one rotary, 176 or 192 with two. Exactly these bytes
 *                 are the chain for the other functions, which read it as this job's
 *   poses_at      offset of the first pose
 *   count         how many poses, at most 1,362
 *   cone          in degrees
 *   chord         the chord tolerance in mm
 *   axis          the axis tolerance in degrees
 *   at            0 after success
 *
 * Refusals, all of which keep every output but *at:
 *   29  the form of the bytes; *at is the offset of the first bad field, 0 for the length
 *   3   the number of rotaries; *at is 0
 *   4   a rotary's letter; *at is the rotary's index */
uint32_t maztubel_read_job(const uint8_t *job, size_t job_length, uint64_t *chain_at, uint64_t *chain_length,
                           uint64_t *poses_at, uint64_t *count, double *cone, double *chord, double *axis,
                           uint64_t *at);

/* Writes the poses of a job, 6 doubles each as on a path, and +0.0 behind them.
 *
 * Refusals, all of which keep the poses:
 *   20  the length of poses is no multiple of 6
 *       the refusals of maztubel_read_job
 *   28  there is no space for the poses; *at is 0 */
uint32_t maztubel_job_poses(const uint8_t *job, size_t job_length, double *poses, size_t poses_length, uint64_t *at);

/* Writes a job: the chain, the poses and the trailer, in this order and with nothing between them.
 *
 *   chain   the chain, as above
 *   poses   6 doubles each as on a path: the tip in mm and the tool axis, which may have any length, also zero. At most
 *           1,362 poses with one rotary and 1,360 with two
 *   cone    in degrees
 *   chord   the chord tolerance in mm
 *   axis    the axis tolerance in degrees
 *   job     output: the job at its front, the chain, 48 bytes for each pose and 40 for the trailer. The chain has 104
 *           or 176 bytes where every rest angle is +0.0, and 112 or 192 where one is not, -0.0 included. Bytes behind
 *           the job stay. The offset of the poses is the chain's end, also where there are none
 *   length  output of every call: how many bytes the job has, 0 with a refusal
 *
 * maztubel_read_job and maztubel_job_poses give for these bytes what was passed here, bit for bit. What they give for
 * them, passed here again, is written to the same bytes.
 *
 * Refusals, all of which keep every byte of job:
 *   20      the length of poses is no multiple of 6
 *   29      the chain's bytes
 *   3 to 9  the chain
 *   18      the cone
 *   19      the chord tolerance, then the axis tolerance
 *   16      a number of a pose is not finite
 *   17      a pivot or a tip is above 100,000 mm in size, a rest angle above 36,000 degrees, or the job has more than
 *           65,536 bytes
 *   28      there is no space for the job
 * Two parallel rotaries are written: 30 is for the calls on paths. */
uint32_t maztubel_write_job(const uint8_t *chain, size_t chain_length, const double *poses, size_t poses_length,
                            double cone, double chord, double axis, uint8_t *job, size_t job_length, uint64_t *length,
                            uint64_t *at, uint8_t *letter);

/* Writes the cable number of a rotary on a path: the largest whole k with 360 * k at most the size of the difference of
 * some angle of that rotary and its rest angle, in degrees, rounded once. It is 0 on an empty path and for a rotary that
 * the chain does not have.
 *
 *   joints  joint sets of 5 doubles each, any number of them
 *   rotary  the index of the rotary in the chain, from 0
 *
 * Refusals, all of which keep the number:
 *   20      no whole joint sets
 *   29      the chain's bytes
 *   3 to 9  the chain
 *   16      a joint is not finite
 *   17      a position is above 10,000,000 mm in size, an angle or a rest angle above 36,000 degrees, a pivot above
 *           100,000 mm */
uint32_t maztubel_cable_number(const uint8_t *chain, size_t chain_length, const double *joints, size_t joints_length,
                               uint64_t rotary, uint64_t *number, uint64_t *at, uint8_t *letter);

/* ---- Extremes beside a path
 *
 * A summary stands beside the joint sets of a path and is kept by the caller. It has 10 doubles for each group of 64
 * joint sets, the last group maybe smaller: the smallest of each of the five numbers, then the largest of each, by
 * IEEE 754's totalOrder, in which -0.0 stands before +0.0. So n joint sets have (n + 63) / 64 * 10 doubles, divided
 * without a rest. Positions are in mm, angles in degrees. A path may have any number of joint sets.
 *
 *   joints   joint sets of 5 doubles each, as in maztubel_forward
 *   summary  as above; its length must be that of the joints
 *
 * Every refusal changes nothing. After maztubel_build_extremes and any row of maztubel_replace_joints on the same
 * joints and summary, refused calls among them, the summary has the bits that building it anew would give. */

/* Writes the summary of the joints.
 *
 * Refusals, all of which keep the summary:
 *   20  no whole joint sets, or the length of the summary
 *   16  a joint is not finite
 *   17  a position is above 10,000,000 mm in size, or an angle above 36,000 degrees */
uint32_t maztubel_build_extremes(const double *joints, size_t joints_length, double *summary, size_t summary_length);

/* Replaces one joint set, and works the ten numbers of its group out afresh from the joints. No other joint set is
 * checked, and no other group is read or written.
 *
 *   index  which joint set, from 0
 *   fresh  5 doubles: what it becomes
 *
 * Refusals, all of which keep joints and summary:
 *   20  no whole joint sets, the length of the summary, fresh is not 5 doubles, or there is no joint set with that
 *       index
 *   16  a number of fresh is not finite
 *   17  a position of fresh is above 10,000,000 mm in size, or an angle above 36,000 degrees */
uint32_t maztubel_replace_joints(double *joints, size_t joints_length, double *summary, size_t summary_length,
                                 uint64_t index, const double *fresh, size_t fresh_length);

/* The first joint set whose angle of a rotary is above a given one, compared as floats: an angle is not above itself,
 * and +0.0 is not above -0.0. Groups whose largest is not above are skipped, and their joints are not read, whatever
 * they hold. Where the joints are finite and the summary is theirs the answer is that of reading them all.
 *
 *   rotary  0 for the first angle of each joint set, 1 for the second
 *   angle   in degrees
 *   found   output, 1 if there is such a joint set, else 0
 *   index   output, its index from 0; 0 if there is none
 *
 * Refusals, all of which keep both outputs:
 *   20  no whole joint sets, the length of the summary, or a rotary that is not 0 or 1
 *   16  the angle is not finite
 *   17  the angle is above 36,000 degrees in size */
uint32_t maztubel_first_above(const double *joints, size_t joints_length, const double *summary, size_t summary_length,
                              uint64_t rotary, double angle, uint64_t *found, uint64_t *index);

/* ---- Quotas by shop
 *
 * 32 shops, numbered from 0, buy inserted poses in advance. Their balances are 32 whole numbers of the caller's, all 0
 * at first, and no call keeps anything else. A grant adds to a balance, and a division takes its reported count from
 * one; nothing else changes a balance, and a call for one shop changes no other's. After any row of these two calls
 * from balances of 0, refused ones among them, the sum of the amounts that were granted is the sum of the counts that
 * were charged and of all balances; so it is for each shop alone, and no balance is above 1,000,000,000.
 *
 *   balances  32 uint64_t, that of shop 0 first
 *   shop      0 to 31 */

/* Adds an amount to the balance of a shop; 0 counts too.
 *
 * Refusals, all of which keep the balances:
 *   34  the shop is unknown, whatever the balances
 *   20  there are not 32 balances
 *   17  the balance would be above 1,000,000,000 */
uint32_t maztubel_grant(uint64_t *balances, size_t balances_length, uint64_t shop, uint64_t amount);

/* Divides as maztubel_subdivide_path does, and takes *inserted from the balance of a shop. A refused division is
 * charged nothing; one that inserts nothing needs no balance.
 *
 * Refusals, all of which keep the balances, and both outputs but where they are said to clear them:
 *   34      the shop is unknown, whatever else is at fault
 *   20      there are not 32 balances
 *           the refusals of maztubel_subdivide_path, which keep or clear both outputs as there
 *   35      the balance is below the number of poses that were inserted; clears both outputs, and *inserted is 0 */
uint32_t maztubel_divide_for(uint64_t *balances, size_t balances_length, uint64_t shop, const uint8_t *chain,
                             size_t chain_length, const double *poses, size_t poses_length, const double *joints,
                             size_t joints_length, double chord, double axis, double *out_poses, size_t out_poses_length,
                             double *out_joints, size_t out_joints_length, uint64_t *inserted, uint64_t *at,
                             uint8_t *letter);

/* ---- Many paths in turns
 *
 * A dispatcher divides up to 16 paths side by side. Each path is admitted with outputs of its own and gets a number,
 * and then waits. A turn serves the path that has waited longest: it gets 64 tests of two neighbours, with the poses
 * that they insert, and waits again behind the others. A path ends with its last test, or with 27 or 28; one without
 * two neighbours ends in its first turn. It then leaves, and its number is given again. So an unfinished path is served
 * again within 16 turns that are not refused.
 *
 * The dispatcher's state is the caller's, and no call keeps anything else:
 *
 *   words    145 uint64_t
 *   numbers  368 doubles
 *
 * All of them must be zero before the first call: that is a dispatcher without a path, and they are zero again whenever
 * no path is left. What they hold in between is the library's, and only these calls may change it; a state that was
 * changed by something else is refused or served, and does no harm beyond the outputs that are lent.
 *
 * The outputs of a path are lent to its admission and to each of its turns, and nowhere in between, so that they may be
 * moved. Between two turns they hold the divided path as far as it is settled, at the front, and what the path still
 * needs behind it. Where each turn finds them as the admission or the last turn left them, the path ends with the bits,
 * the count and the refusal that maztubel_subdivide_path gives for it alone, whatever the other paths do. Where they
 * hold something else the path comes to something else, and no other path is changed by it.
 *
 * In words: with all words and numbers zero, call maztubel_admit for each path, and keep its outputs under the number
 * that it gets. Then call maztubel_next; if it says 16, no path is left; else call maztubel_turn with the outputs of
 * that number, and where it says that the path has ended, its outputs hold the divided path. New paths may be admitted
 * at any time. */

/* Admits a path, under the smallest number from 0 to 15 that no admitted path has. Nothing is tested and nothing
 * inserted yet.
 *
 *   chain, poses, joints               as in maztubel_subdivide_path; not needed afterwards
 *   chord, axis                        as there, in mm and in degrees
 *   out_poses, out_joints              outputs as there, of any length that is whole; the turns must be lent as many
 *   path                               output of every call, the number; 16 with a refusal
 *
 * Refusals, all of which keep the state, and both outputs but where they are said to clear them:
 *   20      the words are not 145 or the numbers not 368
 *   32      16 paths are admitted, whatever else is at fault; also where word 144 of a changed state is above 16
 *           the refusals of maztubel_subdivide_path before its first test: those that keep both outputs, and
 *   28      there is no space for the given poses; clears both outputs */
uint32_t maztubel_admit(uint64_t *words, size_t words_length, double *numbers, size_t numbers_length,
                        const uint8_t *chain, size_t chain_length, const double *poses, size_t poses_length,
                        const double *joints, size_t joints_length, double chord, double axis, double *out_poses,
                        size_t out_poses_length, double *out_joints, size_t out_joints_length, uint64_t *path,
                        uint64_t *at, uint8_t *letter);

/* Which path is served next.
 *
 *   path  output of every call, the number of the path; 16 if no path is admitted, and with a refusal
 *
 * Refusals:
 *   20  the words are not 145, or word 144 of a changed state is above 16 */
uint32_t maztubel_next(const uint64_t *words, size_t words_length, uint64_t *path);

/* Serves the path that has waited longest, in its outputs.
 *
 *   out_poses, out_joints  as the admission or the last turn left them, and as long
 *   path                   output of every call, the number of the path that was served; 16 if none was
 *   ended                  output of every call, 1 if the path has ended and left, else 0
 *   inserted               output of every call, how many poses are inserted in it so far; 0 if none was served
 *
 * With no path admitted the turn returns 0, whatever outputs it is lent, and changes nothing. A path that has ended
 * without a refusal has its divided path in the outputs, with +0.0 behind it.
 *
 * Refusals that keep the state and both outputs:
 *   20  the words are not 145 or the numbers not 368, or word 144 is above 16; then the outputs are not as long as
 *       those of the admission, or the path's entry in a changed state is none
 * and that end the path, which leaves with both outputs cleared:
 *   27  more than 10,000 poses would be inserted
 *   28  there is no space for the next pose */
uint32_t maztubel_turn(uint64_t *words, size_t words_length, double *numbers, size_t numbers_length, double *out_poses,
                       size_t out_poses_length, double *out_joints, size_t out_joints_length, uint64_t *path,
                       uint8_t *ended, uint64_t *inserted);

/* How many poses are inserted so far in the path of a number.
 *
 *   inserted  output of every call; 0 with a refusal
 *
 * Refusals:
 *   33  no admitted path has that number, whatever the words */
uint32_t maztubel_count(const uint64_t *words, size_t words_length, uint64_t path, uint64_t *inserted);

/* ---- Do links meet?
 *
 * Each link of a model stands for a ball. A box: about its middle, with half its diagonal for a radius. A cylinder:
 * about the middle of its length, reaching its rims. The middles stand where maztubel_link_world places them. Two links
 * meet where their carriers differ, byte for byte, and their middles are nearer than the sum of the radii; where the
 * balls only touch they do not. So a warning may come too soon, since a ball is larger than its solid. */

/* The first joint set of a path at which two links meet, and the first two that do: by the earlier link of the model,
 * then by the later one.
 *
 *   name, chain, model  as in maztubel_check_model
 *   joints              joint sets of 5 doubles each, as in maztubel_forward; any number of them
 *   found               output, 1 if two links meet, else 0
 *   pose                output, the index of the joint set, from 0; 0 if none meet
 *   first, second       outputs, the indices of the two links in the model, from 0, the earlier one first; 0 if none meet
 *
 * An empty path, and a model with fewer than two links, have none, after all checks.
 *
 * Refusals, all of which keep found, pose, first and second:
 *   20      no whole joint sets
 *           the refusals of maztubel_check_model without 17
 *   16      a joint is not finite
 *   17      a pivot is above 100,000 mm in size, a position above 10,000,000 mm, or an angle or a rest angle above
 *           36,000 degrees; or of a solid a coordinate, the radius or the length above 100,000 mm. A cylinder's axis has
 *           no limit */
uint32_t maztubel_links_meet(const uint8_t *name, size_t name_length, const uint8_t *chain, size_t chain_length,
                             const uint8_t *model, size_t model_length, const double *joints, size_t joints_length,
                             uint64_t *found, uint64_t *pose, uint64_t *first, uint64_t *second, uint64_t *at,
                             uint8_t *letter);

#ifdef __cplusplus
}
#endif

#endif
