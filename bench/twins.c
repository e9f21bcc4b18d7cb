#include "twins.h"
#include "plain.h"

/* The copies' entry points, renamed at the build from filmdisk_ and plain_. */
DECLARE_TWIN(library0)
DECLARE_TWIN(library1)
DECLARE_TWIN(library2)
DECLARE_TWIN(plain0)
DECLARE_TWIN(plain1)
DECLARE_TWIN(plain2)

#define LISTED(prefix) \
    prefix##_plan, prefix##_plan_loop, prefix##_open, prefix##_join, prefix##_leave, prefix##_begin, prefix##_end, prefix##_window
#define SCRATCHED(prefix) \
    prefix##_plan_scratch, prefix##_plan_loop_scratch, prefix##_open_scratch, prefix##_join_scratch, prefix##_leave_scratch, \
        prefix##_begin_scratch, prefix##_end_scratch
#define PAIRED(prefix) prefix##_plan_pairs, prefix##_plan_pairs_scratch
#define TWIN(prefix) { FILMDISK_PLAN_BYTES, FILMDISK_DESK_BYTES, LISTED(prefix), SCRATCHED(prefix), PAIRED(prefix) }

struct twin twins[TWINS][COPIES] = {
    { TWIN(library0), TWIN(library1), TWIN(library2) },
    { TWIN(plain0), TWIN(plain1), TWIN(plain2) },
};
