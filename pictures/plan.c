/* The picture of a plan: the time of each block as laid, and of each two successive blocks, with worst2. */
#include "chart.h"
#include "film.h"
#include "pictures.h"
#include "svg.h"

enum { WIDTH = 1000, HEIGHT = 700, LEFT = 80, RIGHT = 970, BARS_TOP = 146, BARS_FOOT = 350, PAIRS_TOP = 430, PAIRS_FOOT = 630 };

static double block_x(const struct film *film, double block)
{
    return LEFT + (RIGHT - LEFT) * block / film->card.blocks;
}

/* Height of a time on a scale from `foot` (0) to `top` (`most`). */
static double time_y(double time, double most, double top, double foot)
{
    return foot - (foot - top) * time / most;
}

static void draw_scale(FILE *out, double most, double step, double top, double foot)
{
    for (double time = 0; time <= most; time += step) {
        double y = time_y(time, most, top, foot);
        svg_line(out, LEFT, y, RIGHT, y, time == 0 ? "axis" : "grid");
        svg_text(out, LEFT - 8, y + 4, "note end", "%.0f ms", time / 1000);
    }
}

static void draw_zones(FILE *out, const struct film *film)
{
    svg_text(out, LEFT, 90, "note", "zones, inner to outer:");
    for (uint32_t zone = 0; zone < film->card.zones; zone++) {
        double x = LEFT + 150 + 106.0 * zone;
        svg_rect(out, x, 80, 12, 12, "key", zone_colours[zone]);
        svg_text(out, x + 17, 90, "note", "%u: %.1f ms", zone + 1, film->card.times[zone] / 1000.0);
    }
}

static void draw_bars(FILE *out, const struct film *film)
{
    const double most = 150000;
    svg_text(out, LEFT, BARS_TOP - 18, "head", "Time to read each block, in the order in which the film plays");
    draw_scale(out, most, 50000, BARS_TOP, BARS_FOOT);
    for (uint32_t b = 0; b < film->card.blocks; b++) {
        double y = time_y(laid_time(film, b), most, BARS_TOP, BARS_FOOT);
        svg_rect(out, block_x(film, b) + 1.5, y, block_x(film, 1) - LEFT - 3, BARS_FOOT - y, "block", zone_colours[laid_zone(film, b)]);
        if (b % 4 == 0)
            svg_text(out, block_x(film, b + 0.5), BARS_FOOT + 16, "note mid", "%u", b);
    }
    double half = time_y(film->promise.worst2 / 2.0, most, BARS_TOP, BARS_FOOT);
    svg_line(out, LEFT, half, RIGHT, half, "limit");
    svg_coloured(out, RIGHT, half - 5, "note end", "#d62728", "half of worst2: what a block may take on average");
    svg_text(out, (LEFT + RIGHT) / 2.0, BARS_FOOT + 34, "note mid", "block of the film");
}

static void draw_pairs_of_blocks(FILE *out, const struct film *film)
{
    const double most = 300000;
    const filmdisk_pair worst = filmdisk_worst_pair(film->plan);
    uint32_t slowest = 2 * film->card.times[0];
    svg_text(out, LEFT, PAIRS_TOP - 14, "head", "Time to read two successive blocks together");
    draw_scale(out, most, 100000, PAIRS_TOP, PAIRS_FOOT);
    for (uint32_t b = 0; b < pair_count(film); b++) {
        uint32_t sum = pair_time(film, b);
        must(sum <= film->promise.worst2, "no two successive blocks take more than worst2");
        double y = time_y(sum, most, PAIRS_TOP, PAIRS_FOOT);
        svg_rect(out, block_x(film, b + 0.5) + 3, y, block_x(film, 1) - LEFT - 6, PAIRS_FOOT - y, "pair",
                 b == worst.first ? WORST_COLOUR : PAIR_COLOUR);
    }
    double limit = time_y(film->promise.worst2, most, PAIRS_TOP, PAIRS_FOOT);
    double other = time_y(slowest, most, PAIRS_TOP, PAIRS_FOOT);
    svg_line(out, LEFT, limit, RIGHT, limit, "limit");
    svg_line(out, LEFT, other, RIGHT, other, "other");
    svg_coloured(out, RIGHT, limit - 5, "note end", "#d62728", "worst2: no two successive blocks take longer");
    svg_text(out, LEFT + 8, limit - 5, "note", "worstat %u: blocks %u and %u, the red bar, are the first to take it", worst.first, worst.first,
             worst.second);
    svg_text(out, RIGHT, other - 5, "note end", "twice the slowest zone, %.1f ms: the limit without this laying", slowest / 1000.0);
    svg_text(out, (LEFT + RIGHT) / 2.0, PAIRS_FOOT + 20, "note mid", "blocks 0 and 1, 1 and 2, .. up to %u and %u",
             film->card.blocks - 2, film->card.blocks - 1);
}

void draw_plan(FILE *out)
{
    static struct film film;
    plan_film(&film, &evening_card);
    svg_open(out, WIDTH, HEIGHT, "A plan: the film's blocks as laid",
             "Bars: time to read each block in the order of the film; below, of each two successive blocks, with the limit worst2.");
    svg_text(out, 20, 32, "title", "A plan: %u streams, a buffer of %s for each", film.promise.streams,
             svg_megabytes(film.promise.buffer));
    svg_text(out, 20, 58, "note", "%u blocks of %s on the seven zones of a Barracuda 9, a film of 8 Mbit/s. "
             "Slow and quick blocks take turns; worst2 is %.1f ms.",
             film.card.blocks, svg_megabytes(film.card.bytes), film.promise.worst2 / 1000.0);
    draw_zones(out, &film);
    draw_bars(out, &film);
    draw_pairs_of_blocks(out, &film);
    svg_text(out, 20, HEIGHT - 16, "note", "Drawn by the library's filmdisk_plan. ms: thousandths of a second. MB: a million bytes.");
    svg_close(out);
}
