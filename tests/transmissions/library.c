/* On trial: the proved library, through its header. */
#include "../../include/coast.h"
#include "trial.h"

static const struct air_trial library = {
    "library", coast_write_character, coast_read_character, coast_write_transmission, coast_read_transmission};
const struct air_trial *const air_trials[] = {&library};
const size_t air_trial_count = 1;
