/* A few shapes of SVG, written straight to a file. Texts may hold no '&' and no '<'. */
#ifndef PICTURES_SVG_H
#define PICTURES_SVG_H

#include <stddef.h>
#include <stdint.h>
#include <stdio.h>

/* Opens a picture on a white ground, with a title and a description for readers who cannot see it. */
void svg_open(FILE *out, int width, int height, const char *title, const char *description);
void svg_close(FILE *out);

/* A text of the given class: see the style in svg.c. */
void svg_text(FILE *out, double x, double y, const char *class, const char *format, ...)
    __attribute__((format(printf, 5, 6)));

/* A text in a colour of its own. */
void svg_coloured(FILE *out, double x, double y, const char *class, const char *colour, const char *text);

void svg_line(FILE *out, double x1, double y1, double x2, double y2, const char *class);
/* A circle without a filling. */
void svg_circle(FILE *out, double x, double y, double radius, const char *class);
void svg_rect(FILE *out, double x, double y, double width, double height, const char *class, const char *colour);

/* A number with a comma between thousands. */
const char *svg_thousands(uint64_t number);

/* Bytes as MB, a million each, with two decimals. Of these texts and those of svg_thousands four may be in use at a time. */
const char *svg_megabytes(double bytes);

#endif
