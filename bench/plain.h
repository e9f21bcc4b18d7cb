/* The interface of filmdisk.h under other prefixes; under plain_ it is there in plain C, the yardstick of the benchmark. */
#ifndef PLAIN_H
#define PLAIN_H

#include "filmdisk.h"

#define DECLARE_TWIN(prefix) \
    filmdisk_answer prefix##_plan(const uint8_t *card, size_t card_len, uint8_t *plan, size_t plan_len, \
                                  uint8_t *positions, size_t positions_len, uint8_t *leads, size_t leads_len); \
    filmdisk_answer prefix##_plan_loop(const uint8_t *card, size_t card_len, uint8_t *plan, size_t plan_len, \
                                       uint8_t *positions, size_t positions_len, uint8_t *leads, size_t leads_len); \
    filmdisk_answer prefix##_plan_pairs(const uint8_t *card, size_t card_len, uint8_t *plan, size_t plan_len, \
                                        uint8_t *positions, size_t positions_len, uint8_t *leads, size_t leads_len); \
    filmdisk_answer prefix##_open(const uint8_t *plan, size_t plan_len, const uint8_t *positions, size_t positions_len, \
                                  const uint8_t *leads, size_t leads_len, uint8_t *desk, size_t desk_len); \
    filmdisk_answer prefix##_join(uint8_t *desk, size_t desk_len, const uint8_t *positions, size_t positions_len, \
                                  const uint8_t *leads, size_t leads_len, uint32_t slot, uint32_t block, uint32_t film); \
    filmdisk_answer prefix##_leave(uint8_t *desk, size_t desk_len, const uint8_t *positions, size_t positions_len, \
                                   const uint8_t *leads, size_t leads_len, uint32_t slot); \
    filmdisk_answer prefix##_begin(uint8_t *desk, size_t desk_len, const uint8_t *positions, size_t positions_len, \
                                   const uint8_t *leads, size_t leads_len, uint8_t *fetches, size_t fetches_len); \
    filmdisk_answer prefix##_end(uint8_t *desk, size_t desk_len, const uint8_t *positions, size_t positions_len, \
                                 const uint8_t *leads, size_t leads_len, const uint8_t *draws, size_t draws_len); \
    filmdisk_answer prefix##_plan_scratch(const uint8_t *card, size_t card_len, uint8_t *plan, size_t plan_len, \
                                          uint8_t *positions, size_t positions_len, uint8_t *scratch, size_t scratch_len); \
    filmdisk_answer prefix##_plan_loop_scratch(const uint8_t *card, size_t card_len, uint8_t *plan, size_t plan_len, \
                                               uint8_t *positions, size_t positions_len, uint8_t *scratch, size_t scratch_len); \
    filmdisk_answer prefix##_plan_pairs_scratch(const uint8_t *card, size_t card_len, uint8_t *plan, size_t plan_len, \
                                                uint8_t *positions, size_t positions_len, uint8_t *scratch, size_t scratch_len); \
    filmdisk_answer prefix##_open_scratch(const uint8_t *plan, size_t plan_len, const uint8_t *positions, size_t positions_len, \
                                          const uint8_t *scratch, size_t scratch_len, uint8_t *desk, size_t desk_len); \
    filmdisk_answer prefix##_join_scratch(uint8_t *desk, size_t desk_len, const uint8_t *positions, size_t positions_len, \
                                          const uint8_t *scratch, size_t scratch_len, uint32_t slot, uint32_t block, uint32_t film); \
    filmdisk_answer prefix##_leave_scratch(uint8_t *desk, size_t desk_len, const uint8_t *positions, size_t positions_len, \
                                           const uint8_t *scratch, size_t scratch_len, uint32_t slot); \
    filmdisk_answer prefix##_begin_scratch(uint8_t *desk, size_t desk_len, const uint8_t *positions, size_t positions_len, \
                                           const uint8_t *scratch, size_t scratch_len, uint8_t *fetches, size_t fetches_len); \
    filmdisk_answer prefix##_end_scratch(uint8_t *desk, size_t desk_len, const uint8_t *positions, size_t positions_len, \
                                         const uint8_t *scratch, size_t scratch_len, const uint8_t *draws, size_t draws_len); \
    filmdisk_window_answer prefix##_window(const uint8_t *plan, size_t plan_len, const uint8_t *positions, size_t positions_len, \
                                           uint32_t blocks); \
    uint64_t prefix##_draw_limit(const uint8_t *desk, size_t desk_len, uint32_t slot, uint32_t bound);

DECLARE_TWIN(plain)

#endif
