/* The file of kept.h: one struct as it lies in memory, with its version before it and a check behind. */
#include "kept.h"

/* As <fcntl.h>, <unistd.h> and <stdio.h> have them. */
extern int open(const char *, int, ...);
extern int creat(const char *, unsigned);
extern long read(int, void *, size_t);
extern long write(int, const void *, size_t);
extern int fsync(int);
extern int close(int);
extern int access(const char *, int);
extern int rename(const char *, const char *);

#define READ_ONLY 0
#define EXISTS 0
#define OWNER_ALONE 0600u

#define KEPT_VERSION 0x324b4352u /* RCK2 in the file; another number whenever the struct changes */
#define PATH_MOST 4000u

struct file {
    uint32_t version;
    struct kept kept;
    uint32_t check;
};
_Static_assert(sizeof(struct file) == 8u * 4u + MOST_SLOTS + 1u + sizeof(struct coast_lent), "no gap of unknown bytes");

/* FNV-1a of all before the check: no change of a single byte leaves it the same. */
static uint32_t check_of(const struct file *file) {
    const uint8_t *bytes = (const uint8_t *)file;
    uint32_t check = 2166136261u;
    for (size_t i = 0; i < offsetof(struct file, check); i++)
        check = (check ^ bytes[i]) * 16777619u;
    return check;
}

static bool counts_fit(const struct kept *kept) {
    return kept->done <= kept->count && kept->count <= COAST_ACTIONS_SIZE / COAST_ONE_ACTION_SIZE &&
           kept->channels[MOST_SLOTS] == 0u;
}

static bool is_whole(const struct file *file) {
    const struct coast_lent *lent = &file->kept.lent;
    return file->version == KEPT_VERSION && file->check == check_of(file) && counts_fit(&file->kept) &&
           coast_answer(coast_clock(lent->station, sizeof lent->station)) == COAST_ANSWER_DONE;
}

enum found read_kept(const char *path, struct kept *kept) {
    struct file file;
    char more;
    int from = open(path, READ_ONLY);
    if (from < 0)
        return access(path, EXISTS) == 0 ? DAMAGED : NOTHING;
    bool whole = read(from, &file, sizeof file) == (long)sizeof file && read(from, &more, 1) == 0 && is_whole(&file);
    close(from);
    if (whole)
        *kept = file.kept;
    return whole ? WHOLE : DAMAGED;
}

/* The front of a path with an ending behind it; false where that is too long. */
static bool join(char *to, const char *path, size_t length, const char *ending) {
    size_t at = 0;
    for (; at < length && at < PATH_MOST; at++)
        to[at] = path[at];
    for (; *ending != '\0' && at < PATH_MOST; ending++)
        to[at++] = *ending;
    to[at] = '\0';
    return at < PATH_MOST;
}

/* What was written is on the disk, also after a power cut; false for -1, a handle that could not be had. */
static bool sync_and_close(int handle) {
    bool good = fsync(handle) == 0;
    return close(handle) == 0 && good;
}

static bool write_file(const char *path, const struct file *file) {
    int to = creat(path, OWNER_ALONE);
    bool good = write(to, file, sizeof *file) == (long)sizeof *file;
    return sync_and_close(to) && good;
}

bool write_kept(const char *path, const struct kept *kept) {
    struct file file = {.version = KEPT_VERSION, .kept = *kept};
    char other[PATH_MOST + 1u], folder[PATH_MOST + 1u];
    size_t length = 0, name = 0;
    file.check = check_of(&file);
    for (; path[length] != '\0'; length++)
        if (path[length] == '/')
            name = length + 1u;
    return join(other, path, length, ".new") && join(folder, path, name, ".") && write_file(other, &file) &&
           rename(other, path) == 0 && sync_and_close(open(folder, READ_ONLY));
}
