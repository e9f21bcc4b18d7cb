/* What the pictures of runs and of plans share: frames, paths and the colours of zones. */
#ifndef PICTURES_CHART_H
#define PICTURES_CHART_H

#include <stdio.h>

/* A part of a run on paper: its seconds along x, its bytes along y. */
struct frame {
    double x, width, top, foot;
    double from_time, to_time; /* microseconds */
    double low, high;          /* bytes */
};

double frame_x(const struct frame *frame, double time);
double frame_y(const struct frame *frame, double bytes);

/* A path that leaves out points on a straight line between their neighbours. */
struct trail {
    FILE *out;
    int points;
    double kept_x, kept_y, last_x, last_y;
};

void trail_to(struct trail *trail, double x, double y);
void trail_end(struct trail *trail);

/* From the slow inner zone, dark, to the quick outer one, light. */
enum { ZONE_COLOURS = 7 };
extern const char *const zone_colours[ZONE_COLOURS];

/* Bars of two successive blocks: the worst pair, which the plan names, and the others. */
#define WORST_COLOUR "#d62728"
#define PAIR_COLOUR "#9db4c8"

#endif
