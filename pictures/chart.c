#include "chart.h"

const char *const zone_colours[ZONE_COLOURS] = {"#7f1d1d", "#c2410c", "#e08a1e", "#d9b92e", "#7fae4b", "#2f9e8f", "#3b82c4"};

double frame_x(const struct frame *frame, double time)
{
    return frame->x + frame->width * (time - frame->from_time) / (frame->to_time - frame->from_time);
}

double frame_y(const struct frame *frame, double bytes)
{
    return frame->foot - (frame->foot - frame->top) * (bytes - frame->low) / (frame->high - frame->low);
}

static void trail_put(struct trail *trail, double x, double y)
{
    fprintf(trail->out, "%s%.1f %.1f", trail->points++ ? "L" : "M", x, y);
    trail->kept_x = x;
    trail->kept_y = y;
}

void trail_to(struct trail *trail, double x, double y)
{
    if (trail->points == 0) {
        trail_put(trail, x, y);
    } else if (trail->last_x > trail->kept_x || trail->last_y != trail->kept_y) {
        double along = x > trail->kept_x ? (trail->last_x - trail->kept_x) / (x - trail->kept_x) : 0;
        double straight = trail->kept_y + along * (y - trail->kept_y);
        double off = straight - trail->last_y;
        if (off > 0.4 || off < -0.4 || x <= trail->kept_x)
            trail_put(trail, trail->last_x, trail->last_y);
    }
    trail->last_x = x;
    trail->last_y = y;
}

void trail_end(struct trail *trail)
{
    if (trail->points)
        trail_put(trail, trail->last_x, trail->last_y);
}
