/* A shelf of three films: where they lie on the disk, the times of their blocks and of two successive ones, and what their order decides. */
#include "chart.h"
#include "film.h"
#include "pictures.h"
#include "svg.h"

enum { WIDTH = 1000, HEIGHT = 950, LEFT = 80, RIGHT = 970, DISK_TOP = 118, BARS_TOP = 270, BARS_FOOT = 420, PAIRS_TOP = 520, PAIRS_FOOT = 680 };
enum { ORDERS_TOP = 770, ROW = 22, FILMS = 3, PERMUTATIONS = 6 };

static const char *const film_colours[FILMS] = {"#6a4c93", "#1f6f8b", "#b5838d"};
static const uint32_t shelf_lengths[FILMS] = {8, 14, 22};
static const uint32_t orders[PERMUTATIONS][FILMS] = {{0, 1, 2}, {1, 0, 2}, {0, 2, 1}, {2, 0, 1}, {1, 2, 0}, {2, 1, 0}};

/* The evening's disk with the films in an order. */
static struct card shelf_card(const uint32_t order[FILMS])
{
    struct card card = evening_card;
    card.films = FILMS;
    card.blocks = 0;
    for (uint32_t film = 0; film < FILMS; film++) {
        card.lengths[film] = shelf_lengths[order[film]];
        card.blocks += card.lengths[film];
    }
    return card;
}

static uint32_t places_of(const struct card *card)
{
    uint32_t places = 0;
    for (uint32_t zone = 0; zone < card->zones; zone++)
        places += card->positions[zone];
    return places;
}

/* The film that has a position, or FILMS if none has. */
static uint32_t film_on(const struct film *shelf, uint32_t position)
{
    for (uint32_t b = 0; b < shelf->card.blocks; b++)
        if (filmdisk_word(shelf->positions, b) == position)
            return filmdisk_film_at(shelf->plan, b);
    return FILMS;
}

/* Where a block stands: films are set apart by the width of one. */
static double block_x(const struct film *shelf, uint32_t block, double along)
{
    double all = shelf->card.blocks + FILMS - 1;
    return LEFT + (RIGHT - LEFT) * (block + filmdisk_film_at(shelf->plan, block) + along) / all;
}

static double time_y(double time, double most, double top, double foot)
{
    return foot - (foot - top) * time / most;
}

static void draw_scale(FILE *out, double most, double step, double top, double foot)
{
    for (double time = 0; time <= most; time += step) {
        double y = time_y(time, most, top, foot);
        svg_line(out, LEFT, y, RIGHT, y, time == 0 ? "axis" : "grid");
        svg_text(out, LEFT - 8, y + 4, "note end", "%.0f ms", time / 1000);
    }
}

static double place_x(const struct film *shelf, double position)
{
    return LEFT + (RIGHT - LEFT) * position / places_of(&shelf->card);
}

/* Above each position in the colour of its zone, below in that of its film. */
static void draw_positions(FILE *out, const struct film *shelf)
{
    double width = place_x(shelf, 1) - LEFT;
    for (uint32_t position = 0; position < places_of(&shelf->card); position++) {
        uint32_t film = film_on(shelf, position);
        svg_rect(out, place_x(shelf, position) + 1, DISK_TOP, width - 2, 26, "place", zone_colours[zone_of(&shelf->card, position)]);
        if (film < FILMS)
            svg_rect(out, place_x(shelf, position) + 1, DISK_TOP + 30, width - 2, 26, "taken", film_colours[film]);
    }
}

static void draw_disk(FILE *out, const struct film *shelf)
{
    uint32_t end = places_of(&shelf->card);
    svg_text(out, LEFT, DISK_TOP - 14, "head", "The disk, from its innermost position to the outermost: the zones, and below them the films");
    draw_positions(out, shelf);
    for (uint32_t film = 0; film < FILMS; film++) {
        uint32_t blocks = filmdisk_film_blocks(shelf->plan, film);
        svg_text(out, place_x(shelf, end - blocks / 2.0), DISK_TOP + 74, "note mid", "film %u: %u blocks", film, blocks);
        end -= blocks;
    }
    svg_text(out, place_x(shelf, end / 2.0), DISK_TOP + 74, "note mid", "free");
    svg_text(out, LEFT, DISK_TOP + 96, "note", "Film 0 is laid first, on the outermost positions; each next one on the outermost that are left.");
}

static void draw_blocks(FILE *out, const struct film *shelf)
{
    const double most = 150000;
    svg_text(out, LEFT, BARS_TOP - 14, "head", "Time to read each block, in the order of the lists, which count the blocks of all films through");
    draw_scale(out, most, 50000, BARS_TOP, BARS_FOOT);
    for (uint32_t b = 0; b < shelf->card.blocks; b++) {
        double x = block_x(shelf, b, 0), y = time_y(laid_time(shelf, b), most, BARS_TOP, BARS_FOOT);
        uint32_t within = b - filmdisk_film_start(shelf->plan, filmdisk_film_at(shelf->plan, b));
        svg_rect(out, x + 1.5, y, block_x(shelf, b, 1) - x - 3, BARS_FOOT - y, "block", zone_colours[laid_zone(shelf, b)]);
        if (within % 4 == 0)
            svg_text(out, block_x(shelf, b, 0.5), BARS_FOOT + 15, "note mid", "%u", b);
    }
    double half = time_y(shelf->promise.worst2 / 2.0, most, BARS_TOP, BARS_FOOT);
    svg_line(out, LEFT, half, RIGHT, half, "limit");
    svg_coloured(out, LEFT + 8, half - 5, "note", WORST_COLOUR, "half of worst2: what a block may take on average");
}

/* The names of the films below their blocks, and where each begins. */
static void draw_names(FILE *out, const struct film *shelf)
{
    for (uint32_t film = 0; film < FILMS; film++) {
        uint32_t start = filmdisk_film_start(shelf->plan, film), last = start + filmdisk_film_blocks(shelf->plan, film) - 1;
        double from = block_x(shelf, start, 0), to = block_x(shelf, last, 1);
        svg_rect(out, from, BARS_FOOT + 22, to - from, 5, "name", film_colours[film]);
        svg_text(out, (from + to) / 2, BARS_FOOT + 44, "note mid", "film %u begins at block %u", film, start);
    }
}

/* A film's own worst time, above its bars. */
static void draw_own(FILE *out, const struct film *shelf, uint32_t film, double most)
{
    uint32_t start = filmdisk_film_start(shelf->plan, film), last = start + filmdisk_film_blocks(shelf->plan, film) - 1, own = 0;
    for (uint32_t b = start; b < last; b++)
        own = pair_time(shelf, b) > own ? pair_time(shelf, b) : own;
    double y = time_y(own, most, PAIRS_TOP, PAIRS_FOOT);
    must(own <= shelf->promise.worst2, "worst2 is the greatest of the films' own");
    must((own == shelf->promise.worst2) == (film == FILMS - 1), "on this disk the last film alone takes worst2");
    if (own == shelf->promise.worst2)
        return;
    svg_line(out, block_x(shelf, start, 0), y, block_x(shelf, last, 1), y, "other");
    svg_text(out, (block_x(shelf, start, 0) + block_x(shelf, last, 1)) / 2, y - 5, "note mid", "own worst: %.1f ms", own / 1000.0);
}

static void draw_two_blocks(FILE *out, const struct film *shelf)
{
    const double most = 250000;
    const filmdisk_pair worst = filmdisk_worst_pair(shelf->plan);
    svg_text(out, LEFT, PAIRS_TOP - 30, "head", "Time to read two successive blocks of a film");
    svg_text(out, LEFT, PAIRS_TOP - 13, "note", "The last block of a film and the first of the next are no pair: no screen plays one after the other.");
    draw_scale(out, most, 50000, PAIRS_TOP, PAIRS_FOOT);
    for (uint32_t b = 0; b < shelf->card.blocks; b++) {
        if (!has_pair(shelf, b))
            continue;
        double x = block_x(shelf, b, 0.5), y = time_y(pair_time(shelf, b), most, PAIRS_TOP, PAIRS_FOOT);
        must(pair_time(shelf, b) <= shelf->promise.worst2, "no two successive blocks of a film take more than worst2");
        svg_rect(out, x + 3, y, block_x(shelf, b, 1.5) - x - 6, PAIRS_FOOT - y, "pair", b == worst.first ? WORST_COLOUR : PAIR_COLOUR);
    }
    for (uint32_t film = 0; film < FILMS; film++)
        draw_own(out, shelf, film, most);
    double limit = time_y(shelf->promise.worst2, most, PAIRS_TOP, PAIRS_FOOT);
    svg_line(out, LEFT, limit, RIGHT, limit, "limit");
    svg_coloured(out, RIGHT, limit - 5, "note end", WORST_COLOUR, "worst2, of all films: the leads and the margin go by it");
    uint32_t film = filmdisk_film_at(shelf->plan, worst.first), start = filmdisk_film_start(shelf->plan, film);
    svg_text(out, (LEFT + RIGHT) / 2.0, PAIRS_FOOT + 20, "note mid", "worstat %u, the red bar: blocks %u and %u of film %u", worst.first,
             worst.first - start, worst.second - start, film);
}

/* The same films in each order. */
static void draw_orders(FILE *out)
{
    static struct film shelf;
    const double left = LEFT + 190, scale = 420 / 250000.0;
    svg_text(out, LEFT, ORDERS_TOP - 32, "head", "The same films in every order: worst2, and how many screens the disk feeds");
    svg_text(out, LEFT, ORDERS_TOP - 14, "note", "Blocks of the films, first to last. The last film lies on the slowest positions; a long one has quick ones "
             "among them too.");
    for (uint32_t i = 0; i < PERMUTATIONS; i++) {
        const struct card card = shelf_card(orders[i]);
        double y = ORDERS_TOP + ROW * i;
        plan_film(&shelf, &card);
        must(shelf.promise.streams == (shelf_lengths[orders[i][2]] == 8 ? 7 : 8), "a film of 8 blocks at the end costs a stream");
        svg_text(out, LEFT, y + 14, "note", "%u, %u, then %u blocks", card.lengths[0], card.lengths[1], card.lengths[2]);
        svg_rect(out, left, y + 2, shelf.promise.worst2 * scale, ROW - 6, "order", film_colours[orders[i][2]]);
        svg_text(out, left + shelf.promise.worst2 * scale + 8, y + 14, "note", "%.1f ms: %u streams, a buffer of %s",
                 shelf.promise.worst2 / 1000.0, shelf.promise.streams, svg_megabytes(shelf.promise.buffer));
    }
}

void draw_shelf(FILE *out)
{
    static struct film shelf;
    const struct card card = shelf_card(orders[0]);
    plan_film(&shelf, &card);
    svg_open(out, WIDTH, HEIGHT, "A shelf of three films on one disk",
             "The positions of the disk with their zones and films; bars of the blocks' times and of two successive blocks, film by film; the "
             "same films in other orders.");
    svg_text(out, 20, 32, "title", "A shelf of three films: %u streams, a buffer of %s for each", shelf.promise.streams,
             svg_megabytes(shelf.promise.buffer));
    svg_text(out, 20, 58, "note", "%u, %u and %u blocks of %s on the seven zones of a Barracuda 9, films of 8 Mbit/s. Any screen may watch any film.",
             card.lengths[0], card.lengths[1], card.lengths[2], svg_megabytes(card.bytes));
    draw_disk(out, &shelf);
    draw_blocks(out, &shelf);
    draw_names(out, &shelf);
    draw_two_blocks(out, &shelf);
    draw_orders(out);
    svg_text(out, 20, HEIGHT - 16, "note", "Drawn by the library's filmdisk_plan. ms: thousandths of a second. MB: a million bytes.");
    svg_close(out);
}
