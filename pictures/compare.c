/* The same disks planned by the slowest zone, by the plain order and by the library, with the papers' figures. */
#include "film.h"
#include "pictures.h"
#include "svg.h"

enum { WIDTH = 1000, HEIGHT = 952, LABELS = 135, LEFT_BARS = 150, RIGHT_BARS = 580, BAR_ROOM = 250, FIRST_ROW = 100, ROW = 198 };
enum { SLOWEST, PLAIN, LIBRARY, WAYS };

static const char *const way_names[WAYS] = {"slowest zone", "plain order", "this planner"};
static const char *const way_colours[WAYS] = {"#b9b9b9", "#8fb3d1", "#1f6f8b"};

/* One side of a row: a bar for each way. `published` is the papers' figure for a way, or 0. */
struct bars {
    const char *head;
    double values[WAYS];
    double published[WAYS];
    int decimals;
};

struct row {
    const char *head;
    const char *note;
    const char *below[2]; /* two lines below the bars */
    struct bars left, right;
};

static void draw_bar(FILE *out, const struct bars *bars, int way, double x, double y)
{
    double most = 1;
    for (int other = 0; other < WAYS; other++)
        if (bars->values[other] > most)
            most = bars->values[other];
    double width = BAR_ROOM * bars->values[way] / most;
    svg_rect(out, x, y, width, 20, "bar", way_colours[way]);
    svg_text(out, x + width + 14, y + 15, "head", "%.*f", bars->decimals, bars->values[way]);
    if (bars->published[way] > 0) {
        double at = x + BAR_ROOM * bars->published[way] / most;
        fprintf(out, "<path class=\"printed\" d=\"M%.1f %.1fl6 6l-6 6l-6 -6z\"/>\n", at, y + 4);
    }
}

static void draw_row(FILE *out, const struct row *row, int number)
{
    double y = FIRST_ROW + (double)ROW * number;
    svg_line(out, 20, y - 18, WIDTH - 20, y - 18, "grid");
    svg_text(out, 20, y + 4, "head", "%s", row->head);
    svg_text(out, 20, y + 22, "note", "%s", row->note);
    svg_text(out, LEFT_BARS, y + 46, "note", "%s", row->left.head);
    svg_text(out, RIGHT_BARS, y + 46, "note", "%s", row->right.head);
    for (int way = 0; way < WAYS; way++) {
        double at = y + 54 + 25.0 * way;
        svg_text(out, LABELS, at + 15, "end", "%s", way_names[way]);
        draw_bar(out, &row->left, way, LEFT_BARS, at);
        draw_bar(out, &row->right, way, RIGHT_BARS, at);
    }
    svg_text(out, LEFT_BARS, y + 147, "note", "%s", row->below[0]);
    svg_text(out, LEFT_BARS, y + 164, "note", "%s", row->below[1]);
}

/* What this planner gains over the slowest zone, in plain words. */
static const char *gain_of(const struct promise promises[WAYS])
{
    static char words[96];
    uint32_t rooms = promises[LIBRARY].streams - promises[SLOWEST].streams;
    double larger = 100.0 * promises[LIBRARY].buffer / promises[SLOWEST].buffer - 100;
    snprintf(words, sizeof words, "%u more rooms than by the slowest zone, for buffers %.1f percent larger.", rooms, larger);
    return words;
}

/* The promise of a card by one of the ways. */
static struct promise promise_by(int way, const struct card *card)
{
    static struct film film;
    if (way == SLOWEST)
        return slowest_promise(card);
    if (way == PLAIN)
        return plain_promise(card);
    plan_film(&film, card);
    return film.promise;
}

/* A row of one card: streams and buffers. */
static struct row card_row(const struct card *card, const char *head, const char *note, struct promise promises[WAYS])
{
    struct row row = {
        .head = head,
        .note = note,
        .below = {"", ""},
        .left = {.head = "streams (rooms that may be fed)"},
        .right = {.head = "buffer of a stream, MB", .decimals = 2}
    };
    for (int way = 0; way < WAYS; way++) {
        promises[way] = promise_by(way, card);
        row.left.values[way] = promises[way].streams;
        row.right.values[way] = promises[way].buffer / 1e6;
    }
    return row;
}

static void draw_bench(FILE *out)
{
    struct promise promises[WAYS];
    struct row row = card_row(&bench_card, "Six zones: the bench film",
                              "blocks of 0.26 MB, films of 0.5 MB a second, the block times of 001's example 1", promises);
    row.below[0] = gain_of(promises);
    must(promises[SLOWEST].streams == 14 && promises[LIBRARY].streams == 16, "the scope's 14 and 16 streams of the bench film");
    draw_row(out, &row, 0);
}

static void draw_barracuda(FILE *out)
{
    struct promise promises[WAYS];
    struct row row = card_row(&barracuda_card, "Seven zones: Seagate Barracuda 9, the whole disk",
                              "blocks of 1.05 MB, films of 4 Mbit/s; rates of the zones from 001, Table 6.1", promises);
    row.below[0] = gain_of(promises);
    row.below[1] = "001, Table 6.2, ends at 13 users by the slowest zone (TB) and at 16 with this laying (DA2); "
                   "other block sizes and rates, not recomputed.";
    draw_row(out, &row, 1);
}

static void draw_example(FILE *out)
{
    struct row row = {
        .head = "The same 12 streams with less memory: example 1 of 001",
        .note = "six zones of 60 to 85 Mbit/s, films of 4 Mbit/s; kB of 1,024 bytes as in 001",
        .below = {"Published in 001 for the slowest zone: block 280.19 kB, buffer 840.57 kB. The rest is rounding: times here are whole microseconds.",
                  "001 itself comes to 171 kB and 535.23 kB by looking over longer runs than two blocks: not recomputed."},
        .left = {.head = "least block for 12 streams, kB", .published = {280.19, 0, 0}, .decimals = 2},
        .right = {.head = "buffer of a stream, kB", .published = {840.57, 0, 0}, .decimals = 2}
    };
    for (int way = 0; way < WAYS; way++) {
        struct card card = example_card(150000);
        while (promise_by(way, &card).streams < 12)
            card = example_card(card.bytes + 1);
        row.left.values[way] = card.bytes / 1024.0;
        row.right.values[way] = promise_by(way, &card).buffer / 1024.0;
    }
    draw_row(out, &row, 2);
}

static void draw_deskstar(FILE *out)
{
    static char published[160];
    const struct card *card = &deskstar_card;
    struct promise promises[WAYS];
    struct row row = card_row(card, "One zone: IBM Deskstar 120GXP of 003",
                              "35 MB/s, films of 1.5 Mbit/s, blocks of 1.83 MB. Without zones the three plans are one.", promises);
    uint32_t sweep = promises[LIBRARY].streams * (card->times[0] + card->hop) + card->back;
    snprintf(published, sizeof published, "Published in 003: 150 sessions in a cycle of about 9.8 s. Here the longest sweep takes %.2f s.", sweep / 1e6);
    row.below[0] = published;
    row.below[1] = "003 gives a session two buffers of a cycle each; this desk gives it three blocks, as 001 does.";
    for (int way = 0; way < WAYS; way++)
        row.left.published[way] = 150;
    draw_row(out, &row, 3);
}

void draw_compare(FILE *out)
{
    svg_open(out, WIDTH, HEIGHT, "The same disk planned three ways",
             "Streams and buffers of four disks planned by the slowest zone, by the plain order and by this planner.");
    svg_text(out, 20, 32, "title", "The same disk, planned three ways");
    svg_text(out, 20, 56, "note", "Slowest zone: every block is counted at the slowest time. Plain order: blocks laid one after another. "
             "This planner: slow and quick take turns.");
    fprintf(out, "<path class=\"printed\" d=\"M880 22l6 6l-6 6l-6 -6z\"/>\n");
    svg_text(out, 893, 33, "note", "as published");
    draw_bench(out);
    draw_barracuda(out);
    draw_example(out);
    draw_deskstar(out);
    svg_text(out, 20, HEIGHT - 48, "note", "This planner: filmdisk_plan. The other two: the same formulas over their own block times. MB: a million bytes.");
    svg_text(out, 20, HEIGHT - 32, "note", "001: W.P.A.J. Michiels, Block Placement on Multi-Zone Disks, master's thesis, 1999.");
    svg_text(out, 20, HEIGHT - 16, "note", "003: I. Shin, K. Koh and Y. Won, Practical Issues Related to Disk Scheduling for Video-On-Demand Services.");
    svg_close(out);
}
