/* On trial: the proved library, through its header. */
#include "../../include/coast.h"
#include "trial.h"

static const struct trial library = {"library", coast_read_sequence, coast_write_sequence};
const struct trial *const trials[] = {&library};
const size_t trial_count = 1;
