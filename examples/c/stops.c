/* How near a path comes to its stops: builds the extremes beside the joints of a path on which the table A, with stops
 * at -120 and 120 degrees, tilts up to 119 and back, and asks where it is first within 10, 5, 2 and 1 degrees of its
 * upper stop. Then the joint set that comes nearest is turned back, and the same is asked again: only its group is
 * worked out anew. The least and the largest angle of the whole path are those of the summary. C11, no libraries but
 * this one. */
#include "maztubel.h"

#include <inttypes.h>
#include <stdio.h>
#include <stdlib.h>

enum { SET = 5, GROUP = 64, TEN = 10, SETS = 300, GROUPS = (SETS + GROUP - 1) / GROUP, NEAREST = 150 };

/* Of the table A, which is the first rotary. */
enum { A = 0, SMALLEST_A = 3, LARGEST_A = 8 };

static const double stops[2] = {-120, 120};

static void check(uint32_t number) {
    if (number != MAZTUBEL_SERVED) {
        printf("refused %" PRIu32 "\n", number);
        exit(1);
    }
}

static void tilt(double *joints) {
    for (int i = 0; i < SETS; i++) {
        double *set = joints + SET * i;
        set[0] = 0.5 * i;
        set[1] = set[2] = set[4] = 0.0;
        set[3] = 119 - abs(i - NEAREST);
    }
}

static void print_range(const double *summary) {
    double least = summary[SMALLEST_A], largest = summary[LARGEST_A];
    for (int g = 1; g < GROUPS; g++) {
        if (summary[TEN * g + SMALLEST_A] < least)
            least = summary[TEN * g + SMALLEST_A];
        if (summary[TEN * g + LARGEST_A] > largest)
            largest = summary[TEN * g + LARGEST_A];
    }
    printf("A goes from %.1f to %.1f degrees, its stops are %.1f and %.1f\n", least, largest, stops[0], stops[1]);
}

static void print_nearness(const double *joints, const double *summary) {
    static const double distances[] = {10, 5, 2, 1};
    for (size_t i = 0; i < sizeof distances / sizeof *distances; i++) {
        uint64_t found, index;
        check(maztubel_first_above(joints, SET * SETS, summary, TEN * GROUPS, A, stops[1] - distances[i], &found, &index));
        printf("nearer than %.1f degrees to the upper stop: ", distances[i]);
        if (found)
            printf("first at joint set %" PRIu64 "\n", index);
        else
            puts("never");
    }
}

int main(void) {
    static double joints[SET * SETS], summary[TEN * GROUPS];
    static const double back[SET] = {75, 0, 0, 100, 0};
    tilt(joints);
    check(maztubel_build_extremes(joints, SET * SETS, summary, TEN * GROUPS));
    printf("%d joint sets, %d numbers beside them\n", SETS, TEN * GROUPS);
    print_range(summary);
    print_nearness(joints, summary);
    check(maztubel_replace_joints(joints, SET * SETS, summary, TEN * GROUPS, NEAREST, back, SET));
    printf("joint set %d is turned back to %.1f degrees\n", NEAREST, back[3]);
    print_range(summary);
    print_nearness(joints, summary);
    return 0;
}
