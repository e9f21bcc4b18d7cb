/* The desk's rules in a few lines, on a desk string: what the library did before version 0.10.0, and what it does now. */
#ifndef PICTURES_SERVED_H
#define PICTURES_SERVED_H

#include "film.h"

/* Requests are granted in slot order, each that can be, as before; or in the order they asked, and none behind one that has to wait. */
enum order { BY_SLOT, BY_PLACE };

/* Calls that the desk accepts; nothing is judged. A begin answers the sweep bound. */
void served_join(uint8_t *desk, uint32_t slot, uint32_t block);
void served_leave(uint8_t *desk, uint32_t slot);
uint32_t served_begin(uint8_t *desk, const struct film *film, enum order order);
void served_end(uint8_t *desk, const struct film *film, const uint8_t *draws);

#endif
