#include "svg.h"

#include <stdarg.h>

static const char style[] =
    "text{font-family:'DejaVu Sans',Verdana,Arial,sans-serif;font-size:13px;fill:#222}\n"
    ".title{font-size:19px;font-weight:bold}\n"
    ".head{font-size:14px;font-weight:bold}\n"
    ".note{font-size:12px;fill:#555}\n"
    ".small{font-size:11px;fill:#444}\n"
    ".end{text-anchor:end}\n"
    ".mid{text-anchor:middle}\n"
    ".axis{stroke:#888;stroke-width:1}\n"
    ".grid{stroke:#e4e4e4;stroke-width:1}\n"
    ".top{stroke:#222;stroke-width:1.5}\n"
    ".floor{stroke:#d62728;stroke-width:1.5;fill:none}\n"
    ".least{stroke:#222;stroke-width:1.5;fill:none}\n"
    ".limit{stroke:#d62728;stroke-width:1.5;stroke-dasharray:7 4}\n"
    ".other{stroke:#777;stroke-width:1.5;stroke-dasharray:2 4}\n"
    ".ground{fill:#f5f5f5}\n"
    ".wait{fill:#ffd24d}\n"
    ".printed{fill:#fff;stroke:#222;stroke-width:1.5}\n";

void svg_open(FILE *out, int width, int height, const char *title, const char *description)
{
    fprintf(out, "<svg xmlns=\"http://www.w3.org/2000/svg\" width=\"%d\" height=\"%d\" viewBox=\"0 0 %d %d\">\n",
            width, height, width, height);
    fprintf(out, "<title>%s</title>\n<desc>%s</desc>\n<style>\n%s</style>\n", title, description, style);
    fprintf(out, "<rect width=\"%d\" height=\"%d\" fill=\"#fff\"/>\n", width, height);
}

void svg_close(FILE *out)
{
    fputs("</svg>\n", out);
}

void svg_text(FILE *out, double x, double y, const char *class, const char *format, ...)
{
    va_list words;
    fprintf(out, "<text x=\"%.1f\" y=\"%.1f\" class=\"%s\">", x, y, class);
    va_start(words, format);
    vfprintf(out, format, words);
    va_end(words);
    fputs("</text>\n", out);
}

void svg_coloured(FILE *out, double x, double y, const char *class, const char *colour, const char *text)
{
    fprintf(out, "<text x=\"%.1f\" y=\"%.1f\" class=\"%s\" style=\"fill:%s\">%s</text>\n", x, y, class, colour, text);
}

void svg_line(FILE *out, double x1, double y1, double x2, double y2, const char *class)
{
    fprintf(out, "<line x1=\"%.1f\" y1=\"%.1f\" x2=\"%.1f\" y2=\"%.1f\" class=\"%s\"/>\n", x1, y1, x2, y2, class);
}

void svg_circle(FILE *out, double x, double y, double radius, const char *class)
{
    fprintf(out, "<circle cx=\"%.1f\" cy=\"%.1f\" r=\"%.1f\" class=\"%s\" fill=\"none\"/>\n", x, y, radius, class);
}

void svg_rect(FILE *out, double x, double y, double width, double height, const char *class, const char *colour)
{
    fprintf(out, "<rect x=\"%.1f\" y=\"%.1f\" width=\"%.1f\" height=\"%.1f\" class=\"%s\"", x, y, width, height, class);
    if (colour)
        fprintf(out, " fill=\"%s\"", colour);
    fputs("/>\n", out);
}

enum { TEXTS = 4, TEXT_ROOM = 32 };

/* Room for one of the texts that are in use. */
static char *text_room(void)
{
    static char texts[TEXTS][TEXT_ROOM];
    static size_t turn;
    return texts[turn = (turn + 1) % TEXTS];
}

const char *svg_megabytes(double bytes)
{
    char *text = text_room();
    snprintf(text, TEXT_ROOM, "%.2f MB", bytes / 1e6);
    return text;
}

const char *svg_thousands(uint64_t number)
{
    char *at = text_room() + TEXT_ROOM - 1;
    *at = '\0';
    for (int digit = 1;; digit++) {
        *--at = (char)('0' + number % 10);
        number /= 10;
        if (number == 0)
            return at;
        if (digit % 3 == 0)
            *--at = ',';
    }
}
