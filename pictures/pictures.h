/* The seven pictures; each is drawn from calls of the library, the evening beside them from its rules as they were. */
#ifndef PICTURES_PICTURES_H
#define PICTURES_PICTURES_H

#include <stdio.h>

void draw_evening(FILE *out);
void draw_plan(FILE *out);
void draw_shelf(FILE *out);
void draw_loop(FILE *out);
void draw_rates(FILE *out);
void draw_pairs(FILE *out);
void draw_compare(FILE *out);

#endif
