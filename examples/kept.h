/* What the host must not forget, in a file that is whole at every moment: it is written under another name and then renamed.
 *
 * The host writes it after each event that the station accepts, before it does the first action, and again after each action.
 * So, however the host ends, every action is done, in order, and once: but for the one that was under way, which is done again,
 * since nobody can tell how far it got. A charge that is done twice has the same call number. */
#ifndef KEPT_H
#define KEPT_H

#include <coast.h>
#include <stdbool.h>

#define MOST_SLOTS 16u

struct kept {
    uint32_t line;        /* how many lines of the feed were followed to their end */
    uint32_t count, done; /* the actions of the last event, and how many of them are done */
    uint32_t late, rung;  /* how late the timer rings, and when it last rang */
    uint32_t identity;
    uint8_t channels[MOST_SLOTS + 1u]; /* one for each slot, and a 0 behind the last */
    struct coast_lent lent;
};

enum found { NOTHING, DAMAGED, WHOLE };

/* Reads the file of this name, if there is one; hands out only what is WHOLE. */
enum found read_kept(const char *path, struct kept *kept);

/* Puts this in place of what the file holds; false where that failed: then it holds the one or the other. */
bool write_kept(const char *path, const struct kept *kept);

#endif
