/* The picture of a looped film: its blocks laid round the circle, and lobby screens that play it three times round. */
#include "chart.h"
#include "lobby_run.h"
#include "pictures.h"
#include "svg.h"

enum { WIDTH = 1000, HEIGHT = 950, MIDDLE_X = 300, MIDDLE_Y = 365, BLOCKS_RADIUS = 80, PAIRS_RADIUS = 205, KEYS = 610 };
enum { LEFT = 140, RIGHT = 975, FIRST_STRIP = 700, STRIP = 70, STRIP_HIGH = 48 };

static const char *const screen_names[SCREENS] = {"Entrance", "Bar", "Pool"};
static const char *const screen_colours[SCREENS] = {"#0072b2", "#d98200", "#008f68"};

/* The bar of the last block with the first. */
#define CLOSING_COLOUR "#6f4aa0"

/* Pixels of a microsecond along a bar of the inner and of the outer ring. */
static const double block_scale = 110.0 / 150000, pair_scale = 75.0 / 300000;

/* A bar of a ring that begins at a radius, in the middle of `turns` blocks from the top. */
static void draw_bar(FILE *out, const struct film *film, double turns, double radius, double length, double width, const char *class,
                     const char *colour)
{
    fprintf(out, "<g transform=\"rotate(%.2f %d %d)\">\n", 360 * turns / film->card.blocks, MIDDLE_X, MIDDLE_Y);
    svg_rect(out, MIDDLE_X - width / 2, MIDDLE_Y - radius - length, width, length, class, colour);
    fputs("</g>\n", out);
}

/* A block's number, upright, at a radius. */
static void draw_number(FILE *out, const struct film *film, uint32_t block, double radius)
{
    double angle = 360 * (block + 0.5) / film->card.blocks;
    fprintf(out, "<text x=\"0\" y=\"4\" class=\"small mid\" transform=\"rotate(%.2f %d %d) translate(%d %.1f) rotate(%.2f)\">%u</text>\n",
            angle, MIDDLE_X, MIDDLE_Y, MIDDLE_X, MIDDLE_Y - radius, -angle, block);
}

static void draw_ring(FILE *out, const struct film *film)
{
    for (uint32_t b = 0; b < film->card.blocks; b++) {
        draw_bar(out, film, b + 0.5, BLOCKS_RADIUS, laid_time(film, b) * block_scale, 7, "block", zone_colours[laid_zone(film, b)]);
        if (b % 4 == 0)
            draw_number(out, film, b, BLOCKS_RADIUS - 11);
    }
    svg_circle(out, MIDDLE_X, MIDDLE_Y, BLOCKS_RADIUS, "axis");
    svg_circle(out, MIDDLE_X, MIDDLE_Y, BLOCKS_RADIUS + film->promise.worst2 / 2.0 * block_scale, "limit");
    svg_text(out, MIDDLE_X, MIDDLE_Y - 6, "head mid", "%u blocks", film->card.blocks);
    svg_text(out, MIDDLE_X, MIDDLE_Y + 12, "note mid", "clockwise,");
    svg_text(out, MIDDLE_X, MIDDLE_Y + 28, "note mid", "round and round");
}

/* The colour of the pair of block b: the last and the first block, the worst pair, or another. */
static const char *pair_colour(const struct film *film, uint32_t b)
{
    if (b + 1 == film->card.blocks)
        return CLOSING_COLOUR;
    return b == filmdisk_worst_pair(film->plan).first ? WORST_COLOUR : PAIR_COLOUR;
}

/* The pairs stand where their two blocks meet; the one of the last and the first block is at the top. */
static void draw_pairs_of_blocks(FILE *out, const struct film *film)
{
    for (uint32_t b = 0; b < pair_count(film); b++) {
        must(pair_time(film, b) <= film->promise.worst2, "no two successive blocks of the loop take more than worst2");
        draw_bar(out, film, b + 1, PAIRS_RADIUS, pair_time(film, b) * pair_scale, 18, "pair", pair_colour(film, b));
    }
    svg_circle(out, MIDDLE_X, MIDDLE_Y, PAIRS_RADIUS, "axis");
    svg_circle(out, MIDDLE_X, MIDDLE_Y, PAIRS_RADIUS + film->promise.worst2 * pair_scale, "limit");
}

static void draw_words(FILE *out, const struct film *film)
{
    const filmdisk_pair worst = filmdisk_worst_pair(film->plan);
    svg_text(out, KEYS, 130, "head", "Inner ring: time to read each block");
    svg_text(out, KEYS, 150, "note", "Dashed: half of worst2. Zones, inner to outer:");
    for (uint32_t zone = 0; zone < film->card.zones; zone++) {
        double y = 172 + 20.0 * zone;
        svg_rect(out, KEYS, y - 10, 12, 12, "key", zone_colours[zone]);
        svg_text(out, KEYS + 18, y, "note", "%u: %.1f ms", zone + 1, film->card.times[zone] / 1000.0);
    }
    svg_text(out, KEYS, 345, "head", "Outer ring: two successive blocks");
    svg_text(out, KEYS, 365, "note", "Dashed: worst2, %.1f ms. None takes longer,", film->promise.worst2 / 1000.0);
    svg_rect(out, KEYS, 375, 12, 12, "key", CLOSING_COLOUR);
    svg_text(out, KEYS + 18, 385, "note", "not even the last block with the first: %.1f ms.", pair_time(film, film->card.blocks - 1) / 1000.0);
    svg_rect(out, KEYS, 395, 12, 12, "key", WORST_COLOUR);
    svg_text(out, KEYS + 18, 405, "note", "worstat %u: blocks %u and %u are the first to take it.", worst.first, worst.first, worst.second);
    svg_text(out, KEYS, 440, "head", "How a loop is laid");
    svg_text(out, KEYS, 460, "note", "Block 0 lies on the slowest position. From there both");
    svg_text(out, KEYS, 476, "note", "ways round quick and slow take turns, from the ends of");
    svg_text(out, KEYS, 492, "note", "the disk to its middle, and meet on the other side.");
}

/* What a screen holds, as a filled line. */
static void draw_level(FILE *out, const struct lobby_run *run, const struct frame *frame, int screen)
{
    struct trail trail = {.out = out};
    fprintf(out, "<path class=\"screen\" style=\"fill:%s;fill-opacity:.25;stroke:%s;stroke-width:1.5\" d=\"", screen_colours[screen],
            screen_colours[screen]);
    for (size_t i = 0; i < run->sample_count; i++)
        trail_to(&trail, frame_x(frame, (double)run->samples[i].time), frame_y(frame, run->samples[i].held[screen]));
    trail_end(&trail);
    fputs("\"/>\n", out);
}

/* The floor as a step line. */
static void draw_floor(FILE *out, const struct lobby_run *run, const struct frame *frame)
{
    struct trail trail = {.out = out};
    double before = -1;
    fputs("<path class=\"floor\" d=\"", out);
    for (size_t i = 0; i < run->sample_count; i++) {
        double x = frame_x(frame, (double)run->samples[i].time), y = frame_y(frame, (double)run->samples[i].floor / 2e6);
        if (before >= 0 && before != y)
            trail_to(&trail, x, before);
        trail_to(&trail, x, y);
        before = y;
    }
    trail_end(&trail);
    fputs("\"/>\n", out);
}

/* A line where the screen has seen the film once more. */
static void draw_rounds(FILE *out, const struct frame *frame, const struct screen *screen)
{
    static const char *const words[LOBBY_ROUNDS] = {"once round", "twice round", "three times round: leaves"};
    for (int round = 0; round < LOBBY_ROUNDS; round++) {
        double x = frame_x(frame, (double)screen->seen[round]);
        svg_line(out, x, frame->top - 12, x, frame->foot, "other");
        svg_text(out, x - 5, frame->top - 4, "small end", "%s", words[round]);
    }
}

static void draw_strip(FILE *out, const struct lobby_run *run, int screen, double until)
{
    double top = FIRST_STRIP + STRIP * screen + 16.0;
    struct frame frame = {LEFT, RIGHT - LEFT, top, top + STRIP_HIGH, 0, until, 0, run->film.promise.buffer};
    svg_rect(out, LEFT, top, RIGHT - LEFT, STRIP_HIGH, "ground", NULL);
    for (double time = 0; time <= until; time += 20e6)
        svg_line(out, frame_x(&frame, time), top, frame_x(&frame, time), frame.foot, "grid");
    draw_level(out, run, &frame, screen);
    draw_floor(out, run, &frame);
    svg_line(out, LEFT, top, RIGHT, top, "top");
    svg_line(out, LEFT, frame.foot, RIGHT, frame.foot, "axis");
    draw_rounds(out, &frame, &run->screens[screen]);
    svg_coloured(out, 20, top + 22, "head", screen_colours[screen], screen_names[screen]);
    svg_text(out, 20, top + 38, "small", "from block %u", run->screens[screen].start);
    svg_text(out, LEFT - 6, top + 5, "small end", "buffer");
    svg_text(out, LEFT - 6, frame.foot + 3, "small end", "0");
}

static void draw_lobby(FILE *out, const struct lobby_run *run)
{
    double until = 20e6 * (double)((run->time + 19999999) / 20000000);
    struct frame axis = {LEFT, RIGHT - LEFT, 0, FIRST_STRIP + STRIP * SCREENS, 0, until, 0, 1};
    svg_text(out, 20, FIRST_STRIP - 32, "head", "Three lobby screens, three times round");
    svg_text(out, 20, FIRST_STRIP - 14, "note", "Each strip: what a screen holds between the sweeps. While it plays it holds at least the floor "
             "(red), never more than the buffer (black).");
    for (int screen = 0; screen < SCREENS; screen++)
        draw_strip(out, run, screen, until);
    for (double time = 0; time <= until; time += 20e6)
        svg_text(out, frame_x(&axis, time), axis.foot + 12, "note mid", "%.0f%s", time / 1e6, time + 20e6 > until ? " s" : "");
}

void draw_loop(FILE *out)
{
    static struct lobby_run run;
    run_lobby(&run);
    const struct film *film = &run.film;
    svg_open(out, WIDTH, HEIGHT, "A looped film: its plan and a lobby",
             "Rings of the blocks' times as laid and of successive pairs, with the limit worst2; three screens that play three times round.");
    svg_text(out, 20, 32, "title", "A looped film: %u streams, a buffer of %s for each", film->promise.streams,
             svg_megabytes(film->promise.buffer));
    svg_text(out, 20, 58, "note", "%u blocks of %s on the seven zones of a Barracuda 9, a film of 8 Mbit/s. "
             "The last block is followed by the first.", film->card.blocks, svg_megabytes(film->card.bytes));
    draw_ring(out, film);
    draw_pairs_of_blocks(out, film);
    draw_words(out, film);
    draw_lobby(out, &run);
    svg_text(out, 20, HEIGHT - 10, "note", "Drawn by the library's filmdisk_plan_loop and %s sweeps. Seconds: the bounds of the sweeps added up. "
             "MB: a million bytes.", svg_thousands(run.sweeps));
    svg_close(out);
}
