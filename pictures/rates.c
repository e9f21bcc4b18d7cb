/* The picture of guaranteed rates: bytes a second over windows of 1 to 64 blocks, for a short film once and as a loop and for a whole disk. */
#include "chart.h"
#include "film.h"
#include "pictures.h"
#include "svg.h"

enum { WIDTH = 1000, HEIGHT = 640, LEFT = 80, RIGHT = 970, TOP = 130, FOOT = 540 };

/* The scale, in bytes a second. */
static const double LEAST = 7e6, MOST = 11e6;

#define WHOLE_COLOUR "#8fb3d1"
#define ONCE_COLOUR "#1f6f8b"
#define LOOP_COLOUR "#6f4aa0"

static double window_x(double blocks)
{
    return LEFT + (RIGHT - LEFT) * blocks / (FILMDISK_MAX_WINDOW + 1);
}

static double rate_y(double rate)
{
    return FOOT - (FOOT - TOP) * (rate - LEAST) / (MOST - LEAST);
}

static double rate_of(double bytes, double time)
{
    return bytes * 1e6 / time;
}

/* The time of so many successive blocks from `first` on. */
static uint32_t time_from(const struct film *film, uint32_t first, uint32_t blocks)
{
    uint32_t sum = 0;
    for (uint32_t i = 0; i < blocks; i++)
        sum += laid_time(film, (first + i) % film->card.blocks);
    return sum;
}

/* The library's window of so many blocks. It takes that time at its place, and an even one no more than its pairs may. */
static filmdisk_window_answer window_of(const struct film *film, uint32_t blocks)
{
    filmdisk_window_answer window = filmdisk_window(film->plan, sizeof film->plan, film->positions, sizeof film->positions, blocks);
    must(window.number == FILMDISK_ACCEPTED, filmdisk_meaning(window.number));
    must(window.bytes == blocks * film->card.bytes, "a window has its blocks' bytes");
    must(window.time == time_from(film, window.first, blocks), "a window takes the times of its blocks");
    must(blocks % 2 == 1 || window.time <= blocks / 2 * film->promise.worst2, "an even window takes half its blocks times worst2 at most");
    must(blocks != 2 || window.time == film->promise.worst2, "two blocks take worst2 at most");
    return window;
}

static uint32_t window_count(const struct film *film)
{
    return film->card.blocks < FILMDISK_MAX_WINDOW ? film->card.blocks : FILMDISK_MAX_WINDOW;
}

static double guaranteed(const struct film *film, uint32_t blocks)
{
    filmdisk_window_answer window = window_of(film, blocks);
    return rate_of(window.bytes, window.time);
}

static void draw_scale(FILE *out)
{
    for (double rate = LEAST; rate <= MOST; rate += 1e6) {
        svg_line(out, LEFT, rate_y(rate), RIGHT, rate_y(rate), rate == LEAST ? "axis" : "grid");
        svg_text(out, LEFT - 8, rate_y(rate) + 4, "note end", "%.0f MB/s", rate / 1e6);
    }
    for (uint32_t k = 4; k <= FILMDISK_MAX_WINDOW; k += 4)
        svg_text(out, window_x(k), FOOT + 16, "note mid", "%u", k);
    svg_text(out, window_x(1), FOOT + 16, "note mid", "1");
    svg_text(out, window_x(2), FOOT + 16, "note mid", "2");
    svg_text(out, (LEFT + RIGHT) / 2.0, FOOT + 36, "note mid", "blocks in a row");
}

/* A line from window to window. */
static void draw_line(FILE *out, const struct film *film, const char *colour)
{
    fprintf(out, "<path fill=\"none\" stroke=\"%s\" stroke-width=\"1\" d=\"", colour);
    for (uint32_t k = 1; k <= window_count(film); k++)
        fprintf(out, "%s%.1f %.1f", k == 1 ? "M" : "L", window_x(k), rate_y(guaranteed(film, k)));
    fprintf(out, "\"/>\n");
}

/* A dot for each window; hollow where `filling` is none. */
static void draw_dots(FILE *out, const struct film *film, const char *class, double radius, const char *colour, const char *filling)
{
    for (uint32_t k = 1; k <= window_count(film); k++)
        fprintf(out, "<circle class=\"%s\" cx=\"%.1f\" cy=\"%.1f\" r=\"%.1f\" stroke=\"%s\" fill=\"%s\"/>\n", class, window_x(k),
                rate_y(guaranteed(film, k)), radius, colour, filling);
}

static void draw_key(FILE *out, double y, double radius, const char *colour, const char *filling, const char *text)
{
    fprintf(out, "<circle cx=\"%d\" cy=\"%.1f\" r=\"%.1f\" stroke=\"%s\" fill=\"%s\"/>\n", LEFT + 10, y - 4, radius, colour, filling);
    svg_text(out, LEFT + 22, y, "note", "%s", text);
}

static void draw_limits(FILE *out, const struct film *film)
{
    double slowest = rate_of(film->card.bytes, film->card.times[0]);
    double pairs = rate_of(2.0 * film->card.bytes, film->promise.worst2);
    svg_line(out, LEFT, rate_y(pairs), RIGHT, rate_y(pairs), "limit");
    svg_line(out, LEFT, rate_y(slowest), RIGHT, rate_y(slowest), "other");
    fprintf(out, "<text x=\"%d\" y=\"%.1f\" class=\"note end\" style=\"fill:" WORST_COLOUR "\">", RIGHT, rate_y(pairs) + 30);
    fprintf(out, "two blocks in worst2: %.2f MB/s, kept by every even number of blocks</text>\n", pairs / 1e6);
    svg_text(out, RIGHT, rate_y(slowest) + 18, "note end", "the slowest zone, %.2f MB/s: on the whole disk all that plain order keeps",
             slowest / 1e6);
}

void draw_rates(FILE *out)
{
    static struct film whole, once, loop;
    plan_film(&whole, &barracuda_card);
    plan_film(&once, &evening_card);
    plan_loop(&loop, &evening_card);
    must(whole.promise.worst2 == once.promise.worst2 && once.promise.worst2 == loop.promise.worst2, "all three have one worst2");
    must(whole.card.positions[0] >= FILMDISK_MAX_WINDOW, "in plain order the longest window lies in the slowest zone");
    svg_open(out, WIDTH, HEIGHT, "Guaranteed rates over 1 to 64 blocks",
             "Bytes a second that a disk keeps over any so many successive blocks, for a short film, the same as a loop, and a whole disk.");
    svg_text(out, 20, 32, "title", "The rate that can be promised: %.2f MB/s over 2 blocks, %.2f over 16, %.2f over 32", guaranteed(&once, 2) / 1e6,
             guaranteed(&once, 16) / 1e6, guaranteed(&once, 32) / 1e6);
    svg_text(out, 20, 56, "note", "The rate that the disk keeps over so many successive blocks of %s, wherever they are in the film, on the seven zones "
             "of a Barracuda 9.", svg_megabytes(once.card.bytes));
    draw_key(out, 80, 2.5, ONCE_COLOUR, ONCE_COLOUR, "film of 48 blocks, shown once");
    draw_key(out, 98, 4.5, LOOP_COLOUR, "none", "the same film as a loop");
    draw_key(out, 116, 2.5, WHOLE_COLOUR, WHOLE_COLOUR, "film of 8,871 blocks, the whole disk");
    draw_scale(out);
    draw_limits(out, &once);
    draw_line(out, &whole, WHOLE_COLOUR);
    draw_dots(out, &whole, "whole", 2.5, WHOLE_COLOUR, WHOLE_COLOUR);
    draw_line(out, &once, ONCE_COLOUR);
    draw_dots(out, &loop, "loop", 4.5, LOOP_COLOUR, "none");
    draw_dots(out, &once, "once", 2.5, ONCE_COLOUR, ONCE_COLOUR);
    svg_text(out, 20, HEIGHT - 32, "note", "One block may be a slowest one. With two its neighbour is a quick one; a third may be slow again. "
             "Long windows come near to the whole film.");
    svg_text(out, 20, HEIGHT - 14, "note", "Drawn by the library's filmdisk_window. Moves of the arm are not in these times. MB: a million bytes. "
             "The scale begins at 7 MB/s.");
    svg_close(out);
}
