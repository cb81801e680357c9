/* The example host, ended at one of its writes: ending FEED KEPT PRINTED OLDER.
 *
 * For each line AT PART KIND of its standard input the host plays the feed, in a process of its own, with its state in KEPT and
 * what it prints in PRINTED. At the AT-th write, and 0 is none, it is ended there and then (KIND 0); or the power is cut, and
 * what was not synced is lost or is not (1); or the write fails (2). A write of bytes gets PART thousandths done before that.
 * KIND 3 starts the host AT times in one process, with the files KEPT-1, KEPT-2 and so on, while it refuses them.
 * Each order is told in a line: how many writes or refusals there were, whether the last rename was lost, and the status as
 * `waitpid` has it. In PRINTED each rename has its line, `=` and a digest of what was written. OLDER is a name for the file that
 * the last rename put away. */
#include <stdarg.h>
#include <stdbool.h>
#include <stddef.h>

/* The build gives the host these names in place of the C library's. */
#undef main
#undef exit
#undef getchar
#undef printf
#undef fflush
#undef creat
#undef write
#undef fsync
#undef rename
extern void *memcpy(void *, const void *, size_t);
extern int snprintf(char *, size_t, const char *, ...);
extern int vsnprintf(char *, size_t, const char *, va_list);
extern int dprintf(int, const char *, ...);
extern int scanf(const char *, ...);
extern int open(const char *, int, ...);
extern int creat(const char *, unsigned);
extern long read(int, void *, size_t);
extern long write(int, const void *, size_t);
extern int dup2(int, int);
extern int link(const char *, const char *);
extern int unlink(const char *);
extern int rename(const char *, const char *);
extern int truncate(const char *, long);
extern unsigned alarm(unsigned);
extern int fork(void);
extern int waitpid(int, int *, int);
extern _Noreturn void _exit(int);

int host_main(int count, char **arguments);
_Noreturn void host_exit(int status);
int host_getchar(void);
int host_printf(const char *format, ...);
int host_fflush(void *stream);
int host_creat(const char *path, unsigned mode);
long host_write(int to, const void *bytes, size_t count);
int host_fsync(int handle);
int host_rename(const char *from, const char *to);

enum kind { ENDED, POWER_CUT, FAILS, REFUSES };
#define REFUSED_STATUS 1
#define ENDED_STATUS 99
#define BROKEN_STATUS 98
#define MOST_TEXT 1000000u
#define MOST_SECONDS 60u /* for one order; a host that takes longer does not end */

static const char *kept_name, *older_name;
static unsigned char feed[MOST_TEXT];
static long feed_length;
static char out[MOST_TEXT]; /* flushed, with a line for each rename; it goes to PRINTED at the end */

static struct {
    long at, part;
    int kind;
} order;

/* What has come of the order so far. */
static struct play {
    long writes, read;
    unsigned digest; /* of the bytes that were written last */
    bool undone;     /* the last rename */
    int to;          /* PRINTED */
    size_t out_length;
    int file;             /* the file that was opened last */
    const char *unsynced; /* its name, while its bytes may be lost */
    long unsynced_bytes;
    bool renamed, was_there; /* a rename that may be lost, and whether it replaced a file */
    size_t length;           /* printed, and not flushed */
    char text[10000];
} play;

_Noreturn void host_exit(int status) {
    if (write(play.to, out, play.out_length) != (long)play.out_length)
        status = BROKEN_STATUS;
    dprintf(1, "%ld %d ", play.writes, play.undone);
    _exit(status);
}

static void lose(void) {
    if (play.unsynced)
        truncate(play.unsynced, play.unsynced_bytes * order.part / 1000);
    play.undone = play.renamed && order.part < 500;
    if (play.undone && play.was_there)
        rename(older_name, kept_name);
    else if (play.undone)
        unlink(kept_name);
}

static bool is_the_one(void) {
    return play.writes + 1 == order.at;
}

static long some_of(long count) {
    return is_the_one() ? count * order.part / 1000 : count;
}

/* Whether this write fails; does not return where it is the one to end at, or where there should be none. */
static bool fails(void) {
    bool one = is_the_one();
    if (order.kind == REFUSES)
        host_exit(BROKEN_STATUS);
    play.writes++;
    if (!one || order.kind == FAILS)
        return one;
    if (order.kind == POWER_CUT)
        lose();
    host_exit(ENDED_STATUS);
}

int host_getchar(void) {
    return play.read < feed_length ? feed[play.read++] : -1;
}

int host_printf(const char *format, ...) {
    va_list values;
    va_start(values, format);
    int more = vsnprintf(play.text + play.length, sizeof play.text - play.length, format, values);
    va_end(values);
    if (more < 0 || play.length + (size_t)more >= sizeof play.text)
        host_exit(BROKEN_STATUS);
    play.length += (size_t)more;
    return more;
}

static void put_out(const char *text, size_t length) {
    if (play.out_length + length > sizeof out)
        host_exit(BROKEN_STATUS);
    memcpy(out + play.out_length, text, length);
    play.out_length += length;
}

/* What was printed is never lost, since no host can take back what was sent; and it does not fail. */
int host_fflush(void *stream) {
    (void)stream;
    put_out(play.text, order.kind == FAILS ? play.length : (size_t)some_of((long)play.length));
    if (play.length > 0u && order.kind != FAILS)
        fails();
    play.length = 0;
    return 0;
}

/* An opened file, as yet without bytes, and a sync show where the power is cut or a call fails, and nowhere else. */
int host_creat(const char *path, unsigned mode) {
    if (order.kind != ENDED && fails())
        return -1;
    play.file = creat(path, mode);
    play.unsynced = path;
    play.unsynced_bytes = 0;
    return play.file;
}

/* Word by word, which is enough for the host's file. */
static unsigned digest_of(const char *bytes, size_t count) {
    unsigned digest = 1, word;
    for (size_t i = 0; i + sizeof word <= count; i += sizeof word) {
        memcpy(&word, bytes + i, sizeof word);
        digest = (digest ^ word) * 2654435761u;
    }
    return digest;
}

long host_write(int to, const void *bytes, size_t count) {
    play.digest = digest_of(bytes, count);
    long done = write(to, bytes, (size_t)some_of((long)count));
    play.unsynced_bytes += done;
    return fails() ? -1 : done;
}

int host_fsync(int handle) {
    if (order.kind != ENDED && fails())
        return -1;
    if (handle == play.file)
        play.unsynced = NULL;
    else
        play.renamed = false;
    return 0;
}

int host_rename(const char *from, const char *to) {
    if (fails())
        return -1;
    if (order.kind == POWER_CUT) {
        unlink(older_name);
        play.was_there = link(to, older_name) == 0;
        play.renamed = true;
    }
    if (play.unsynced)
        play.unsynced = to;
    play.file = -1; /* what is synced next is the folder, whatever its handle */
    char line[20];
    put_out(line, (size_t)snprintf(line, sizeof line, "= %08x\n", play.digest));
    return rename(from, to);
}

static int start(char *kept) {
    static char name[] = "rack";
    char *arguments[] = {name, kept, NULL};
    return host_main(2, arguments);
}

static int start_often(const char *kept) {
    char name[1000];
    int status = REFUSED_STATUS;
    for (long i = 1; i <= order.at && status == REFUSED_STATUS; i++) {
        snprintf(name, sizeof name, "%s-%ld", kept, i);
        status = start(name);
        play.writes += status == REFUSED_STATUS;
    }
    return status;
}

static int follow_order(char *kept, const char *printed) {
    alarm(MOST_SECONDS);
    play = (struct play){.to = creat(printed, 0600u)};
    if (play.to < 0 || dup2(play.to, 2) < 0)
        return BROKEN_STATUS;
    return order.kind == REFUSES ? start_often(kept) : start(kept);
}

int main(int count, char **arguments) {
    if (count != 5)
        return BROKEN_STATUS;
    char *kept = arguments[2], *printed = arguments[3];
    kept_name = kept;
    older_name = arguments[4];
    feed_length = read(open(arguments[1], 0), feed, sizeof feed);
    follow_order(kept, printed); /* once in this process: an emulator then knows the code in all that come of it */
    unlink(kept);
    alarm(0);
    while (scanf("%ld %ld %d", &order.at, &order.part, &order.kind) == 3) {
        int status = -1, child = fork();
        if (child == 0)
            host_exit(follow_order(kept, printed));
        waitpid(child, &status, 0);
        dprintf(1, "%d\n", status);
    }
    return 0;
}
