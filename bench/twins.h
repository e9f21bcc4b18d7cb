/* The two implementations of the interface that the benchmark runs side by side. */
#ifndef TWINS_H
#define TWINS_H

#include "filmdisk.h"

enum { LIBRARY, PLAIN_C, TWINS };

/*
 * Each implementation is linked three times: as it comes, 16 bytes further, and with each function at a multiple of 32. Where a
 * loop's jumps lie against borders of 32 bytes can nearly double its time, and no caller chooses that.
 */
enum { COPIES = 3 };

struct twin {
    size_t plan_len, desk_len; /* of its strings */
    filmdisk_answer (*plan)(const uint8_t *, size_t, uint8_t *, size_t, uint8_t *, size_t, uint8_t *, size_t);
    filmdisk_answer (*plan_loop)(const uint8_t *, size_t, uint8_t *, size_t, uint8_t *, size_t, uint8_t *, size_t);
    filmdisk_answer (*open)(const uint8_t *, size_t, const uint8_t *, size_t, const uint8_t *, size_t, uint8_t *, size_t);
    filmdisk_answer (*join)(uint8_t *, size_t, const uint8_t *, size_t, const uint8_t *, size_t, uint32_t, uint32_t, uint32_t);
    filmdisk_answer (*leave)(uint8_t *, size_t, const uint8_t *, size_t, const uint8_t *, size_t, uint32_t);
    filmdisk_answer (*begin)(uint8_t *, size_t, const uint8_t *, size_t, const uint8_t *, size_t, uint8_t *, size_t);
    filmdisk_answer (*end)(uint8_t *, size_t, const uint8_t *, size_t, const uint8_t *, size_t, const uint8_t *, size_t);
    filmdisk_window_answer (*window)(const uint8_t *, size_t, const uint8_t *, size_t, uint32_t);
    /* With a scratch in the lead list's place. */
    filmdisk_answer (*plan_scratch)(const uint8_t *, size_t, uint8_t *, size_t, uint8_t *, size_t, uint8_t *, size_t);
    filmdisk_answer (*plan_loop_scratch)(const uint8_t *, size_t, uint8_t *, size_t, uint8_t *, size_t, uint8_t *, size_t);
    filmdisk_answer (*open_scratch)(const uint8_t *, size_t, const uint8_t *, size_t, const uint8_t *, size_t, uint8_t *, size_t);
    filmdisk_answer (*join_scratch)(uint8_t *, size_t, const uint8_t *, size_t, const uint8_t *, size_t, uint32_t, uint32_t, uint32_t);
    filmdisk_answer (*leave_scratch)(uint8_t *, size_t, const uint8_t *, size_t, const uint8_t *, size_t, uint32_t);
    filmdisk_answer (*begin_scratch)(uint8_t *, size_t, const uint8_t *, size_t, const uint8_t *, size_t, uint8_t *, size_t);
    filmdisk_answer (*end_scratch)(uint8_t *, size_t, const uint8_t *, size_t, const uint8_t *, size_t, const uint8_t *, size_t);
    /* For half blocks. */
    filmdisk_answer (*plan_pairs)(const uint8_t *, size_t, uint8_t *, size_t, uint8_t *, size_t, uint8_t *, size_t);
    filmdisk_answer (*plan_pairs_scratch)(const uint8_t *, size_t, uint8_t *, size_t, uint8_t *, size_t, uint8_t *, size_t);
};

extern struct twin twins[TWINS][COPIES];

#endif
