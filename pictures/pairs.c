/* The same disk with its blocks whole and with each block as two halves: how they are laid, and the buffer for each number of streams. */
#include "chart.h"
#include "film.h"
#include "pictures.h"
#include "svg.h"

enum { WIDTH = 1000, HEIGHT = 880, LEFT = 80, RIGHT = 970, WHOLE_TOP = 128, WHOLE_FOOT = 268, HALVES_TOP = 340, HALVES_FOOT = 480 };
enum { STEPS_TOP = 572, STEPS_FOOT = 792, FEWEST = 5, MOST = 17 };

#define WHOLE_COLOUR "#8fb3d1"
#define HALVES_COLOUR "#1f6f8b"

static const double most_time = 150000;

static double block_x(const struct film *film, double block)
{
    return LEFT + (RIGHT - LEFT) * block / film->card.blocks;
}

static double time_y(double time, double top, double foot)
{
    return foot - (foot - top) * time / most_time;
}

static void draw_scale(FILE *out, double top, double foot)
{
    for (double time = 0; time <= most_time; time += 50000) {
        double y = time_y(time, top, foot);
        svg_line(out, LEFT, y, RIGHT, y, time == 0 ? "axis" : "grid");
        svg_text(out, LEFT - 8, y + 4, "note end", "%.0f ms", time / 1000);
    }
}

/* The bars of a film's blocks; a block of two halves is a bar of two parts. */
static void draw_blocks(FILE *out, const struct film *film, double top, double foot, const char *class, const char *limit)
{
    uint32_t visits = filmdisk_visits(film->plan);
    draw_scale(out, top, foot);
    for (uint32_t b = 0; b < film->card.blocks; b++) {
        double below = 0;
        for (uint32_t entry = visits * b; entry < visits * (b + 1); entry++) {
            double y = time_y(below + entry_time(film, entry), top, foot);
            svg_rect(out, block_x(film, b) + 1.5, y, block_x(film, 1) - LEFT - 3, time_y(below, top, foot) - y, class,
                     zone_colours[laid_zone(film, entry)]);
            below += entry_time(film, entry);
        }
        if (b % 4 == 0)
            svg_text(out, block_x(film, b + 0.5), foot + 15, "note mid", "%u", b);
    }
    double half = time_y(film->promise.worst2 / 2.0, top, foot);
    svg_line(out, LEFT, half, RIGHT, half, "limit");
    svg_coloured(out, RIGHT, half - 5, "note end", WORST_COLOUR, limit);
}

static void draw_plans(FILE *out, const struct film *whole, const struct film *halves)
{
    svg_text(out, LEFT, WHOLE_TOP - 16, "head", "Whole blocks: %u streams, a buffer of %s. Slow and quick blocks take turns", whole->promise.streams,
             svg_megabytes(whole->promise.buffer));
    draw_blocks(out, whole, WHOLE_TOP, WHOLE_FOOT, "block", "half of worst2: what a block may take on average");
    svg_text(out, LEFT, HALVES_TOP - 30, "head", "Half blocks: %u streams, a buffer of %s. Each block has a slow half and a quick one",
             halves->promise.streams, svg_megabytes(halves->promise.buffer));
    svg_text(out, LEFT, HALVES_TOP - 13, "note", "No block takes longer than p, %.1f ms: no margin, a buffer is three blocks. But a full sweep visits "
             "%u positions, not %u.", halves->promise.worst2 / 2000.0, 2 * halves->promise.streams, halves->promise.streams);
    draw_blocks(out, halves, HALVES_TOP, HALVES_FOOT, "half", "p: no block takes longer");
    svg_text(out, (LEFT + RIGHT) / 2.0, HALVES_FOOT + 32, "note mid", "block of the film, in the order in which it plays");
}

/* What 001 prints for the drive in Table 6.2, in MB of 1,048,576 bytes, from FEWEST users on; 0 where it has none. */
static const double printed_pairing[] = {0.195, 0.261, 0.327, 0.405, 0.517, 0.632, 0.797, 1.020, 1.313, 1.779, 2.538, 4.045, 8.910};
static const double printed_laying[] = {0.124, 0.153, 0.197, 0.243, 0.313, 0.399, 0.498, 0.674, 0.956, 1.470, 2.641, 10.445, 0};

/* Sizes in MB and how high they stand: each twice as large by as much. */
enum { SIZES = 9 };
static const double sizes[SIZES] = {0.05, 0.1, 0.2, 0.5, 1, 2, 5, 10, 20};
static const double heights[SIZES] = {0, 0.1157, 0.2314, 0.3843, 0.5, 0.6157, 0.7686, 0.8843, 1};

static double size_y(double megabytes)
{
    int i = 0;
    while (i + 2 < SIZES && megabytes > sizes[i + 1])
        i++;
    double along = (megabytes - sizes[i]) / (sizes[i + 1] - sizes[i]);
    return STEPS_FOOT - (STEPS_FOOT - STEPS_TOP) * (heights[i] + along * (heights[i + 1] - heights[i]));
}

/* The least blocks with which so many streams are fed, and the buffer of each in MB of 1,048,576 bytes. */
static double least_buffer(uint32_t streams, int as_pairs)
{
    static struct film film;
    for (uint32_t step = 65536, bytes = 65536;; bytes += step) {
        const struct card whole = small_barracuda(bytes), half = halved(&whole);
        if (as_pairs)
            plan_pairs(&film, &half);
        else
            plan_film(&film, &whole);
        if (film.promise.streams < streams)
            continue;
        if (step == 1)
            return film.promise.buffer / 1048576.0;
        bytes -= step;
        step /= 16;
    }
}

static void draw_mark(FILE *out, double x, double megabytes, int is_pairing)
{
    if (megabytes == 0)
        return;
    if (is_pairing)
        fprintf(out, "<path class=\"printed\" d=\"M%.1f %.1fl6 6l-6 6l-6 -6z\"/>\n", x, size_y(megabytes) - 6);
    else
        fprintf(out, "<circle class=\"printed\" cx=\"%.1f\" cy=\"%.1f\" r=\"4\"/>\n", x, size_y(megabytes));
}

/* A bar with its size at its foot, and 001's mark. */
static void draw_size(FILE *out, double x, double megabytes, double printed, int as_pairs)
{
    char words[16];
    double y = size_y(megabytes);
    snprintf(words, sizeof words, "%.2f", megabytes);
    svg_rect(out, x, y, 29, STEPS_FOOT - y, "size", as_pairs ? HALVES_COLOUR : WHOLE_COLOUR);
    svg_coloured(out, x + 14.5, STEPS_FOOT - 6, "small mid", as_pairs ? "#fff" : "#222", words);
    draw_mark(out, x + 14.5, printed, as_pairs);
}

static void draw_buffers(FILE *out)
{
    const double column = (double)(RIGHT - LEFT) / (MOST - FEWEST + 1);
    for (int i = 0; i < SIZES; i++) {
        svg_line(out, LEFT, size_y(sizes[i]), RIGHT, size_y(sizes[i]), i == 0 ? "axis" : "grid");
        svg_text(out, LEFT - 8, size_y(sizes[i]) + 4, "note end", "%g MB", sizes[i]);
    }
    for (uint32_t n = FEWEST; n <= MOST; n++) {
        double x = LEFT + column * (n - FEWEST) + 4, whole = least_buffer(n, 0), halves = least_buffer(n, 1);
        must(whole < halves, "on this disk whole blocks need less memory for as many streams");
        draw_size(out, x, whole, printed_laying[n - FEWEST], 0);
        draw_size(out, x + 31, halves, printed_pairing[n - FEWEST], 1);
        svg_text(out, x + 30, STEPS_FOOT + 16, "note mid", "%u", n);
    }
    svg_text(out, (LEFT + RIGHT) / 2.0, STEPS_FOOT + 33, "note mid", "streams, with the least blocks that feed them");
}

static void draw_keys(FILE *out)
{
    double y = STEPS_TOP - 18;
    svg_text(out, LEFT, y - 18, "head", "Buffer of a stream, for each number of streams at 4 Mbit/s");
    svg_rect(out, LEFT, y - 10, 12, 12, "key", WHOLE_COLOUR);
    svg_text(out, LEFT + 18, y, "note", "whole blocks");
    svg_rect(out, LEFT + 118, y - 10, 12, 12, "key", HALVES_COLOUR);
    svg_text(out, LEFT + 136, y, "note", "half blocks");
    fprintf(out, "<circle class=\"printed\" cx=\"%d\" cy=\"%.1f\" r=\"4\"/>\n", LEFT + 236, y - 4);
    svg_text(out, LEFT + 248, y, "note", "001, Table 6.2: laying (DA2)");
    fprintf(out, "<path class=\"printed\" d=\"M%d %.1fl6 6l-6 6l-6 -6z\"/>\n", LEFT + 458, y - 10);
    svg_text(out, LEFT + 472, y, "note", "001, Table 6.2: track pairing (TB tp); both as printed");
}

void draw_pairs(FILE *out)
{
    static struct film whole, halves;
    const struct card half_card = halved(&evening_card);
    plan_film(&whole, &evening_card);
    plan_pairs(&halves, &half_card);
    svg_open(out, WIDTH, HEIGHT, "The same disk with whole blocks and with half blocks",
             "Bars of the blocks as laid, whole and as two halves; below, the buffer of a stream for 5 to 17 streams in both, beside 001's figures.");
    svg_text(out, 20, 32, "title", "The same disk, once with whole blocks and once with half blocks");
    svg_text(out, 20, 58, "note", "%u blocks of %s on the seven zones of a Barracuda 9, a film of 8 Mbit/s. A half takes half its zone's time. "
             "Dark: the slow inner zones.", whole.card.blocks, svg_megabytes(whole.card.bytes));
    draw_plans(out, &whole, &halves);
    draw_keys(out);
    draw_buffers(out);
    svg_text(out, 20, HEIGHT - 28, "note", "Drawn by the library's filmdisk_plan and filmdisk_plan_pairs. Above, MB are a million bytes; below, "
             "1,048,576 as in 001.");
    svg_text(out, 20, HEIGHT - 12, "note", "001: W.P.A.J. Michiels, Block Placement on Multi-Zone Disks, 1999. Its rates, moves and buffers differ a little: "
             "see PICTURES.md.");
    svg_close(out);
}
