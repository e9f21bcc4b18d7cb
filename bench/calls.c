#include "calls.h"

/* A card is read in full and then refused by 13, for no list is lent. */
filmdisk_answer call_read(const struct twin *t, const struct input *in, struct strings *s, size_t i)
{
    (void)i;
    return t->plan(in->card, in->card_len, s->plan, t->plan_len, NULL, 0, NULL, 0);
}

filmdisk_answer call_plan(const struct twin *t, const struct input *in, struct strings *s, size_t i)
{
    (void)i;
    return t->plan(in->card, in->card_len, s->plan, t->plan_len, s->positions, in->positions_len, s->leads, in->list_len);
}

filmdisk_answer call_plan_loop(const struct twin *t, const struct input *in, struct strings *s, size_t i)
{
    (void)i;
    return t->plan_loop(in->card, in->card_len, s->plan, t->plan_len, s->positions, in->positions_len, s->leads, in->list_len);
}

filmdisk_answer call_plan_pairs(const struct twin *t, const struct input *in, struct strings *s, size_t i)
{
    (void)i;
    return t->plan_pairs(in->card, in->card_len, s->plan, t->plan_len, s->positions, in->positions_len, s->leads, in->list_len);
}

filmdisk_answer call_open(const struct twin *t, const struct input *in, struct strings *s, size_t i)
{
    return t->open(in->plan, t->plan_len, in->positions, in->positions_len, in->leads, in->list_len, s->desks[i],
                   t->desk_len);
}

filmdisk_answer call_join(const struct twin *t, const struct input *in, struct strings *s, size_t i)
{
    return t->join(s->desks[i], t->desk_len, in->positions, in->positions_len, in->leads, in->list_len, last_slot(in), 1, last_film(in));
}

filmdisk_answer call_leave(const struct twin *t, const struct input *in, struct strings *s, size_t i)
{
    return t->leave(s->desks[i], t->desk_len, in->positions, in->positions_len, in->leads, in->list_len, last_slot(in));
}

filmdisk_answer call_begin(const struct twin *t, const struct input *in, struct strings *s, size_t i)
{
    return t->begin(s->desks[i], t->desk_len, in->positions, in->positions_len, in->leads, in->list_len, s->fetches,
                    sizeof s->fetches);
}

filmdisk_answer call_end(const struct twin *t, const struct input *in, struct strings *s, size_t i)
{
    return t->end(s->desks[i], t->desk_len, in->positions, in->positions_len, in->leads, in->list_len, in->draws,
                  in->draws_len);
}

filmdisk_answer call_plan_scratch(const struct twin *t, const struct input *in, struct strings *s, size_t i)
{
    (void)i;
    return t->plan_scratch(in->card, in->card_len, s->plan, t->plan_len, s->positions, in->positions_len, s->scratch, sizeof s->scratch);
}

filmdisk_answer call_plan_loop_scratch(const struct twin *t, const struct input *in, struct strings *s, size_t i)
{
    (void)i;
    return t->plan_loop_scratch(in->card, in->card_len, s->plan, t->plan_len, s->positions, in->positions_len, s->scratch,
                                sizeof s->scratch);
}

filmdisk_answer call_plan_pairs_scratch(const struct twin *t, const struct input *in, struct strings *s, size_t i)
{
    (void)i;
    return t->plan_pairs_scratch(in->card, in->card_len, s->plan, t->plan_len, s->positions, in->positions_len, s->scratch,
                                 sizeof s->scratch);
}

filmdisk_answer call_open_scratch(const struct twin *t, const struct input *in, struct strings *s, size_t i)
{
    return t->open_scratch(in->plan, t->plan_len, in->positions, in->positions_len, s->scratch, sizeof s->scratch, s->desks[i],
                           t->desk_len);
}

filmdisk_answer call_join_scratch(const struct twin *t, const struct input *in, struct strings *s, size_t i)
{
    return t->join_scratch(s->desks[i], t->desk_len, in->positions, in->positions_len, s->scratch, sizeof s->scratch, last_slot(in), 1,
                           last_film(in));
}

filmdisk_answer call_leave_scratch(const struct twin *t, const struct input *in, struct strings *s, size_t i)
{
    return t->leave_scratch(s->desks[i], t->desk_len, in->positions, in->positions_len, s->scratch, sizeof s->scratch, last_slot(in));
}

filmdisk_answer call_begin_scratch(const struct twin *t, const struct input *in, struct strings *s, size_t i)
{
    return t->begin_scratch(s->desks[i], t->desk_len, in->positions, in->positions_len, s->scratch, sizeof s->scratch, s->fetches,
                            sizeof s->fetches);
}

filmdisk_answer call_end_scratch(const struct twin *t, const struct input *in, struct strings *s, size_t i)
{
    return t->end_scratch(s->desks[i], t->desk_len, in->positions, in->positions_len, s->scratch, sizeof s->scratch, in->draws,
                          in->draws_len);
}

filmdisk_answer call_window(const struct twin *t, const struct input *in, struct strings *s, size_t i)
{
    filmdisk_window_answer w = t->window(in->plan, t->plan_len, in->positions, in->positions_len, in->window);
    (void)i;
    s->window[0] = w.time;
    s->window[1] = w.first;
    s->window[2] = w.bytes;
    return (filmdisk_answer){ .number = w.number, .place = w.place };
}
