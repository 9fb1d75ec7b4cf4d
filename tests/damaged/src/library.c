#include "library.h"

typedef void any_call(void);

const library right = {
    (run_call *)(any_call *)r6501q_run,
    (step_call *)(any_call *)r6501q_step,
    r6501q_load,
    r6501q_well_formed,
    (run_with_sums_call *)(any_call *)r6501q_run_with_sums,
    (step_with_sums_call *)(any_call *)r6501q_step_with_sums,
    r6501q_load_with_sums,
    r6501q_total,
};
