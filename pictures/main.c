/* Writes evening.svg, plan.svg, shelf.svg, loop.svg, rates.svg, pairs.svg and compare.svg into the named folder. */
#include "pictures.h"

#include <stdlib.h>

static void write_picture(const char *folder, const char *name, void (*draw)(FILE *))
{
    char path[4096];
    int length = snprintf(path, sizeof path, "%s/%s.svg", folder, name);
    FILE *out = length > 0 && (size_t)length < sizeof path ? fopen(path, "w") : NULL;
    if (!out) {
        fprintf(stderr, "pictures: cannot write %s.svg into %s\n", name, folder);
        exit(1);
    }
    draw(out);
    int failed = ferror(out);
    if (fclose(out) != 0 || failed) {
        fprintf(stderr, "pictures: %s was not written whole\n", path);
        exit(1);
    }
}

int main(int count, char **words)
{
    if (count != 2) {
        fprintf(stderr, "usage: pictures FOLDER\n");
        return 2;
    }
    write_picture(words[1], "evening", draw_evening);
    write_picture(words[1], "plan", draw_plan);
    write_picture(words[1], "shelf", draw_shelf);
    write_picture(words[1], "loop", draw_loop);
    write_picture(words[1], "rates", draw_rates);
    write_picture(words[1], "pairs", draw_pairs);
    write_picture(words[1], "compare", draw_compare);
    return 0;
}
