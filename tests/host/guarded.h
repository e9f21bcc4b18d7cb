/*
 * Lent strings at the edge of pages that may not be touched: a read or write past the edge faults, and the program says where it was.
 * The bytes beside the string on its other side have a known filling, so that a write there is seen too.
 */
#ifndef GUARDED_H
#define GUARDED_H

#include <stddef.h>
#include <stdint.h>

typedef struct guarded {
    uint8_t *room;   /* whole pages between two that may not be touched */
    size_t capacity; /* bytes of the room */
    uint8_t *bytes;  /* the lent string */
    size_t length;
} guarded;

/* Which end of the lent string touches a forbidden page. */
enum guarded_edge { GUARDED_END = 0, GUARDED_START = 1 };

/* From now on strings are of the heap, of exactly their length: for valgrind, which then sees both edges. Before any room is made. */
void guarded_use_heap(void);

/* Makes room for strings of up to `most` bytes. */
void guarded_make(guarded *string, size_t most);

/* Lends `length` bytes at an edge, with these contents. */
uint8_t *guarded_lend(guarded *string, const uint8_t *contents, size_t length, int edge);

/* How a string is sealed: not at all, not to be written, not to be touched. */
enum guarded_sealing { GUARDED_OPEN = 0, GUARDED_READ = 1, GUARDED_CLOSED = 2 };

/* Forbids writing to the string, or reading it too, or allows both again. */
void guarded_seal(const guarded *string, int sealing);

/* Have the bytes beside the string kept their filling? */
int guarded_beside_kept(const guarded *string);

/* From now on a touched forbidden byte ends the program with the words of the scene and one failed test. */
void guarded_watch(void);
void guarded_scene(const char *words);

#endif
