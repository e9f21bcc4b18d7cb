/* The calls of plain.c with a scratch in the lead list's place. */
#define LISTED 0
#include "plain.c"
