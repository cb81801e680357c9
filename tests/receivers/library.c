/* On trial: the proved library, through its header. */
#include "../../include/coast.h"
#include "trial.h"

static const struct finder_trial library = {"library", coast_find_sequence};
const struct finder_trial *const finder_trials[] = {&library};
const size_t finder_trial_count = 1;
