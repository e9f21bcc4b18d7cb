/* The picture of an evening: what each room holds against the floor and the buffer size; and who asked and was let in when, before and now. */
#include "chart.h"
#include "desk_run.h"
#include "pictures.h"
#include "svg.h"

#include <string.h>

enum { WIDTH = 1000, HEIGHT = 1170, LEFT = 140, RIGHT = 975, FIRST_STRIP = 112, STRIP = 68, STRIP_HIGH = 48 };
enum { DETAIL_TOP = 752, DETAIL_FOOT = 852 };
enum { ORDER_TOP = 960, LANE = 16, ORDER_FOOT = ORDER_TOP + LANE * ROOMS, ORDER_WIDE = 410 };
/* The seconds in which two rooms skip, with some before and after. */
enum { ORDER_FROM = SKIPS_FROM - 500000, ORDER_TO = SKIPS_TO + 1500000 };

static const char *const room_colours[ROOMS] = {"#0072b2", "#d98200", "#008f68", "#b8578f", "#4a5568", "#8c564b", "#6f4aa0", "#7a8b00"};

/* The floor as a step line. */
static void draw_floor(FILE *out, const struct desk_run *run, const struct frame *frame)
{
    struct trail trail = {.out = out};
    double before = -1;
    fputs("<path class=\"floor\" d=\"", out);
    for (size_t i = 0; i < run->sample_count; i++) {
        const struct sample *sample = &run->samples[i];
        double x = frame_x(frame, (double)sample->time), y = frame_y(frame, (double)sample->floor / 2e6);
        if (before >= 0 && before != y)
            trail_to(&trail, x, before);
        trail_to(&trail, x, y);
        before = y;
        if ((double)sample->time > frame->to_time)
            break;
    }
    trail_end(&trail);
    fputs("\"/>\n", out);
}

/* What one room holds, from its join to its end or leave, as a filled line; a room may come twice. */
static void draw_level(FILE *out, const struct desk_run *run, const struct frame *frame, int room)
{
    struct trail trail = {.out = out};
    fprintf(out, "<path class=\"room\" style=\"fill:%s;fill-opacity:.25;stroke:%s;stroke-width:1.5\" d=\"", room_colours[room], room_colours[room]);
    for (size_t i = 0; i < run->sample_count; i++) {
        const struct sample *sample = &run->samples[i];
        trail_to(&trail, frame_x(frame, (double)sample->time), frame_y(frame, sample->held[room]));
    }
    trail_end(&trail);
    fputs("\"/>\n", out);
}

/* A sign of 8 by 8: an ask ends at x, a grant and a play begin there, so that both can be seen where they are close; others have x in the middle. */
static void draw_sign(FILE *out, double x, double y, enum happening what, const char *colour)
{
    static const char *const shapes[] = {
        [ASKS] = "m-8 -4h8l-4 8z", [SKIPS] = "m-8 -4h8l-4 8z", [PLAYS] = "m0 -4l8 4l-8 4z", [ENDS] = "m-4 -4h8v8h-8z",
        [LEAVES] = "m-4 -4l8 8m0 -8l-8 8", [GRANTED] = "m1 0l4 -4l4 4l-4 4z", [LAST_BLOCK] = "m0 -5v10"
    };
    fprintf(out, "<path class=\"sign\" style=\"fill:%s;stroke:%s;stroke-width:%s\" d=\"M%.1f %.1f%s\"/>\n",
            what == LEAVES ? "none" : colour, colour, what == LEAVES || what == LAST_BLOCK ? "2.5" : "1", x, y, shapes[what]);
}

/* The signs of a room, and a word at what is not plain; while it skips its signs would lie on each other. */
static void draw_events(FILE *out, const struct desk_run *run, const struct frame *frame, int room)
{
    double y = frame->top - 8;
    for (size_t i = 0; i < run->event_count; i++) {
        const struct event *event = &run->events[i];
        double x = frame_x(frame, (double)event->time);
        if (event->room != room || event->what == GRANTED || is_skipping(room, event->time))
            continue;
        draw_sign(out, x, y, event->what, room_colours[room]);
        if (event->what == LEAVES)
            svg_text(out, x + 9, y + 4, "small", "leaves in mid film");
        if (event->what == ENDS)
            svg_text(out, x + 9, y + 4, "small", "film is over");
    }
}

static void draw_habits(FILE *out, const struct frame *frame, int room)
{
    double y = frame->top - 4;
    if (room < SKIPPERS)
        svg_text(out, frame_x(frame, SKIPS_FROM), y, "small", "skips");
    if (room == 1)
        svg_text(out, frame_x(frame, 3e6), y, "small", "draws three quarters of what it may");
    if (room == 2)
        svg_text(out, frame_x(frame, 16e6), y, "small", "stands still from 16 to 26 s: draws nothing");
    if (room == 6)
        svg_text(out, frame_x(frame, 46.5e6), y, "small", "comes back");
    if (room == 7)
        svg_text(out, frame_x(frame, 36e6), y, "small", "starts at block 12");
}

static void draw_strip(FILE *out, const struct desk_run *run, int room, double until)
{
    double top = FIRST_STRIP + STRIP * room + 16.0;
    struct frame frame = {LEFT, RIGHT - LEFT, top, top + STRIP_HIGH, 0, until, 0, run->film.promise.buffer};
    svg_rect(out, LEFT, top, RIGHT - LEFT, STRIP_HIGH, "ground", NULL);
    for (double time = 0; time <= until; time += 10e6)
        svg_line(out, frame_x(&frame, time), top, frame_x(&frame, time), frame.foot, "grid");
    draw_events(out, run, &frame, room);
    draw_level(out, run, &frame, room);
    draw_floor(out, run, &frame);
    svg_line(out, LEFT, top, RIGHT, top, "top");
    svg_line(out, LEFT, frame.foot, RIGHT, frame.foot, "axis");
    draw_habits(out, &frame, room);
    char name[32];
    snprintf(name, sizeof name, "Room %d", 101 + room);
    svg_coloured(out, 20, top + 28, "head", room_colours[room], name);
    svg_text(out, LEFT - 6, top + 5, "small end", "buffer");
    svg_text(out, LEFT - 6, frame.foot + 3, "small end", "0");
}

static void draw_seconds(FILE *out, const struct frame *frame, double step)
{
    for (double time = 0; time <= frame->to_time; time += step)
        svg_text(out, frame_x(frame, time), frame->foot + 16, "note mid", "%.0f%s", time / 1e6,
                 time + step > frame->to_time ? " s" : "");
}

/* The least that any playing room holds, where one plays. */
static void draw_least(FILE *out, const struct desk_run *run, const struct frame *frame)
{
    struct trail trail = {.out = out};
    fputs("<path class=\"least\" d=\"", out);
    for (size_t i = 0; i < run->sample_count; i++) {
        uint32_t least = least_playing(&run->samples[i]);
        if (least > 0) {
            trail_to(&trail, frame_x(frame, (double)run->samples[i].time), frame_y(frame, least));
        } else {
            trail_end(&trail);
            trail = (struct trail){.out = out};
        }
        if ((double)run->samples[i].time > frame->to_time)
            break;
    }
    trail_end(&trail);
    fputs("\"/>\n", out);
}

/* The floor and the least that a playing room holds, in a box of their own that cuts off what is higher. */
static void draw_detail(FILE *out, const struct desk_run *run, const struct frame *frame)
{
    fprintf(out, "<svg x=\"%.1f\" y=\"%.1f\" width=\"%.1f\" height=\"%.1f\" viewBox=\"%.1f %.1f %.1f %.1f\">\n",
            frame->x, frame->top, frame->width, frame->foot - frame->top, frame->x, frame->top, frame->width, frame->foot - frame->top);
    draw_least(out, run, frame);
    draw_floor(out, run, frame);
    fputs("</svg>\n", out);
}

/* Lines at so many blocks, with their bytes. */
static void draw_blocks(FILE *out, const struct desk_run *run, const struct frame *frame, double step)
{
    for (double blocks = 1; blocks * run->film.card.bytes <= frame->high; blocks += step) {
        double bytes = blocks * run->film.card.bytes, y = frame_y(frame, bytes);
        svg_line(out, frame->x, y, frame->x + frame->width, y, "grid");
        svg_text(out, frame->x - 6, y + 4, "small end", "%s", svg_megabytes(bytes));
    }
}

/* The whole evening: how far the emptiest playing room stays above the floor. */
static void draw_margin(FILE *out, const struct desk_run *run, double until)
{
    double bytes = run->film.card.bytes;
    struct frame frame = {LEFT, RIGHT - LEFT, DETAIL_TOP, DETAIL_FOOT, 0, until, bytes * 0.8, run->film.promise.buffer};
    svg_text(out, 20, DETAIL_TOP - 30, "head", "The emptiest playing room, the whole evening");
    svg_text(out, 20, DETAIL_TOP - 13, "small", "Black: the least that any playing room holds. It comes down to the floor where a room "
             "has just begun to play, and never goes below it.");
    svg_rect(out, frame.x, frame.top, frame.width, frame.foot - frame.top, "ground", NULL);
    draw_blocks(out, run, &frame, 1);
    draw_detail(out, run, &frame);
    draw_seconds(out, &frame, 10e6);
}

/* A request: its sign, a band as long as it waits, and the sign of its grant. */
static void draw_request(FILE *out, const struct desk_run *run, const struct frame *frame, size_t request)
{
    const struct event *event = &run->events[request];
    double y = frame->top + LANE * (event->room + 0.5), asked = frame_x(frame, (double)event->time);
    double granted = frame_x(frame, (double)(event->time + wait_of(run, request).time));
    if (granted > asked)
        svg_rect(out, asked, y - LANE / 2.0 + 1, granted - asked, LANE - 2, "wait", NULL);
    draw_sign(out, asked, y, event->what, room_colours[event->room]);
    draw_sign(out, granted, y, GRANTED, room_colours[event->room]);
}

/* A lane for each room, the lowest slot on top, with its requests in the seconds of the frame. */
static void draw_lanes(FILE *out, const struct desk_run *run, const struct frame *frame)
{
    svg_rect(out, frame->x, frame->top, frame->width, frame->foot - frame->top, "ground", NULL);
    for (int room = 0; room < ROOMS; room++) {
        double y = frame->top + LANE * room;
        char name[8];
        snprintf(name, sizeof name, "%d", 101 + room);
        svg_line(out, frame->x, y, frame->x + frame->width, y, "grid");
        svg_coloured(out, frame->x - 28, y + 12, "small", room_colours[room], name);
    }
    for (size_t i = 0; i < run->event_count; i++) {
        double time = (double)run->events[i].time;
        if (is_request(&run->events[i]) && time >= frame->from_time && time <= frame->to_time)
            draw_request(out, run, frame, i);
    }
    for (double time = 1e6 * (ORDER_FROM / 1000000 + 1); time <= frame->to_time; time += 1e6)
        svg_text(out, frame_x(frame, time), frame->foot + 16, "note mid", "%.0f%s", time / 1e6, time + 1e6 > frame->to_time ? " s" : "");
}

/* The wait of the first request of a room. */
static struct wait first_wait(const struct desk_run *run, int room)
{
    size_t first = 0;
    while (run->events[first].room != room || !is_request(&run->events[first]))
        first++;
    return wait_of(run, first);
}

/* As it was: the highest slot waits for lower ones. */
static void draw_before(FILE *out, const struct desk_run *run)
{
    struct frame frame = {60, ORDER_WIDE, ORDER_TOP, ORDER_FOOT, ORDER_FROM, ORDER_TO, 0, 1};
    size_t longest = longest_wait(run);
    const struct event *event = &run->events[longest];
    struct wait wait = wait_of(run, longest);
    svg_text(out, 20, ORDER_TOP - 58, "head", "Before: served by slot");
    svg_text(out, 20, ORDER_TOP - 41, "small", "Room %d asks at %.1f s. Rooms 101 and 102 skip through the film: between any two",
             101 + event->room, (double)event->time / 1e6);
    svg_text(out, 20, ORDER_TOP - 26, "small", "sweeps one of them leaves and asks again, and is let in. As long as they go on room %d",
             101 + event->room);
    svg_text(out, 20, ORDER_TOP - 11, "small", "waits: %.1f s, %u sweeps. (At the start room 106 waited too, for %.1f s.)",
             (double)wait.time / 1e6, wait.sweeps, (double)first_wait(run, 5).time / 1e6);
    draw_lanes(out, run, &frame);
}

/* As it is. */
static void draw_now(FILE *out, const struct desk_run *run)
{
    double x = RIGHT - ORDER_WIDE;
    struct frame frame = {x, ORDER_WIDE, ORDER_TOP, ORDER_FOOT, ORDER_FROM, ORDER_TO, 0, 1};
    svg_text(out, x - 40, ORDER_TOP - 58, "head", "Now: served in the order they asked");
    svg_text(out, x - 40, ORDER_TOP - 41, "small", "The same evening by the library. The eldest is let in first, and while one waits no");
    svg_text(out, x - 40, ORDER_TOP - 26, "small", "room starts to play that would stand in its way. Room 108 is let in with the next");
    svg_text(out, x - 40, ORDER_TOP - 11, "small", "sweep, as is every other. On no evening does the eldest wait for more than one.");
    draw_lanes(out, run, &frame);
}

static int same_event(const struct event *a, const struct event *b)
{
    return a->time == b->time && a->sweeps == b->sweeps && a->room == b->room && a->what == b->what;
}

/* The library lets in at once whoever asks, and the rules in the order they asked follow it event by event; by slot room 108 waits. */
static void compare_runs(const struct desk_run *library, const struct desk_run *by_slot, const struct desk_run *by_place)
{
    must(wait_of(library, longest_wait(library)).sweeps == 0, "no room waits this evening");
    must(by_slot->events[longest_wait(by_slot)].room == ROOMS - 1, "by slot the room of the highest slot waits longest");
    must(first_wait(by_slot, 5).sweeps == 1, "by slot room 106 waits for one sweep");
    must(library->event_count == by_place->event_count, "the rules have as many events");
    for (size_t i = 0; i < library->event_count; i++)
        must(same_event(&library->events[i], &by_place->events[i]), "the rules have the library's events");
    must(memcmp(library->samples, by_place->samples, sizeof library->samples) == 0, "the rules have the library's desks");
}

static void draw_legend(FILE *out)
{
    static const struct { double x; enum happening what; const char *word; } signs[] = {
        {154, ASKS, "asks"}, {196, GRANTED, "is let in"}, {270, PLAYS, "plays"}, {330, LAST_BLOCK, "last block fetched"}, {462, LEAVES, "leaves"},
        {528, ENDS, "film is over"}
    };
    for (size_t i = 0; i < sizeof signs / sizeof signs[0]; i++) {
        int begins = signs[i].what == PLAYS || signs[i].what == GRANTED;
        draw_sign(out, signs[i].x, 94, signs[i].what, "#444");
        svg_text(out, signs[i].x + (begins ? 14 : 10), 98, "note", "%s", signs[i].word);
    }
    svg_rect(out, 634, 88, 12, 12, "wait", NULL);
    svg_text(out, 651, 98, "note", "waits");
    svg_line(out, 700, 94, 725, 94, "top");
    svg_text(out, 731, 98, "note", "buffer size");
    svg_line(out, 820, 94, 845, 94, "floor");
    svg_text(out, 851, 98, "note", "floor");
}

void draw_evening(FILE *out)
{
    static struct desk_run run, by_slot, by_place;
    run_evening(&run, LIBRARY);
    run_evening(&by_slot, RULES_BY_SLOT);
    run_evening(&by_place, RULES_BY_PLACE);
    compare_runs(&run, &by_slot, &by_place);
    double until = 10e6 * (double)((run.time + 9999999) / 10000000);
    struct frame axis = {LEFT, RIGHT - LEFT, 0, FIRST_STRIP + STRIP * ROOMS, 0, until, 0, 1};
    svg_open(out, WIDTH, HEIGHT, "An evening of the desk", "What each of eight rooms holds in its buffer over the evening, against the floor and "
             "the buffer size; and who asked and was let in when.");
    svg_text(out, 20, 32, "title", "An evening of the desk: eight rooms, one film disk");
    svg_text(out, 20, 54, "note", "Each strip: what a room holds between the sweeps. From the moment it plays until its last block is fetched");
    svg_text(out, 20, 70, "note", "it holds at least the floor (red), and never more than the buffer of %s (black).",
             svg_megabytes(run.film.promise.buffer));
    draw_legend(out);
    for (int room = 0; room < ROOMS; room++)
        draw_strip(out, &run, room, until);
    draw_seconds(out, &axis, 10e6);
    draw_margin(out, &run, until);
    draw_before(out, &by_slot);
    draw_now(out, &run);
    svg_text(out, 20, HEIGHT - 32, "note", "%s sweeps of the library. Seconds: the bounds of the sweeps added up. MB: a million bytes.",
             svg_thousands(run.sweeps));
    svg_text(out, 20, HEIGHT - 14, "note", "'Before' is a simulation in the program of this picture, by the desk's rules up to version 0.9.0; "
             "all else is the library's.");
    svg_close(out);
}
