/* Stands between a program and the host's files. It tells each call, and makes some of them fail.
 *
 *   gcc -shared -fPIC -o host_shim.so tools/host_shim.c
 *   LD_PRELOAD=./host_shim.so HOST_SHIM_LOG=log HOST_SHIM_PLAN='fsync .new 1 1 EIO' uffs format disk.image
 *
 * HOST_SHIM_LOG names a file to which a line is appended for each call: its name, the path of the file, what the call
 * is given, and what it answers, less than 0 for an error of that number. Of reads those alone are told that fail.
 * HOST_SHIM_PLAN has rules with `;` between them, which tell how the host answers. HOST_SHIM_TWIN has rules of the
 * same form, which tell what a wrong program would do in place of a call.
 *
 * A rule is CALL END FIRST LAST ACT. It holds of those calls of that name whose path ends with END, or of all for `*`,
 * counted from 1, from FIRST to LAST. The first rule that holds counts; rules of a wrong program come before others.
 * A path below an open folder, as /proc/self/fd/5/a, is taken as below the name that the folder has, and none has a
 * slash at its end.
 *
 * In a plan ACT is an error, as EIO, with which the call fails; `short`, where half of the bytes are moved; `stop`,
 * where the process is stopped before the call until it is continued; or `swap`, where the two names of HOST_SHIM_SWAP,
 * with a space between them, change places before the call, which is told as a call of its own.
 * Of a wrong program ACT is one of these:
 *   lost           it does not make the call, and goes on
 *   deaf           it makes the call, and goes on as if all of it were done
 *   cut=N          it reads or writes the file as if that ended after N bytes
 *   make, empty    it makes or empties the file that it opens
 *   weak           it takes a file that it opened for reading as one that it may write
 *   mode           it makes the file with the mode 0666
 *   follow         it follows a link where it looks at a name
 *   same           it knows of a name what the first look told
 *   other          it takes what it looks at for another file
 *   hidden, bytes  it passes over the names in a folder that begin with a dot, or that have a byte over 127 */
#define _GNU_SOURCE
#include <dirent.h>
#include <errno.h>
#include <fcntl.h>
#include <limits.h>
#include <signal.h>
#include <stdarg.h>
#include <stdbool.h>
#include <stdio.h>
#include <stdlib.h>
#include <string.h>
#include <sys/file.h>
#include <sys/stat.h>
#include <sys/syscall.h>
#include <sys/uio.h>
#include <unistd.h>

enum { MOST_RULES = 32, MOST_TOLD = 1024, FIRST_OWN = 500 };

enum act { NONE, FAIL, SHORT, STOP, SWAP, LOST, DEAF, CUT, MAKE, EMPTY, WEAK, MODE, FOLLOW, SAME, OTHER, HIDDEN, BYTES };

struct rule {
    char call[16], end[256];
    unsigned first, last, seen;
    enum act act;
    long number;
};

struct rules {
    struct rule all[MOST_RULES];
    size_t count;
};

/* What a wrong program does in a call, and what the host does. */
struct ruling {
    enum act twin, plan;
    long size;
    int error;
};

static struct rules twins, plans;
static int log_file = -1;

static const struct {
    const char *name;
    enum act act;
} ACTS[] = {
    {"short", SHORT}, {"stop", STOP}, {"swap", SWAP}, {"lost", LOST}, {"deaf", DEAF}, {"make", MAKE}, {"empty", EMPTY},
    {"weak", WEAK}, {"mode", MODE}, {"follow", FOLLOW}, {"same", SAME}, {"other", OTHER}, {"hidden", HIDDEN}, {"bytes", BYTES},
};

static const struct {
    const char *name;
    int number;
} ERRORS[] = {{"EIO", EIO}, {"ENOSPC", ENOSPC}, {"EINTR", EINTR}, {"EACCES", EACCES}, {"EDQUOT", EDQUOT}};

static _Noreturn void refuse(const char *text)
{
    fprintf(stderr, "host_shim: no rule: %s\n", text);
    _exit(97);
}

static void read_act(struct rule *rule, const char *act)
{
    for (size_t at = 0; at < sizeof ACTS / sizeof *ACTS; at++) {
        if (strcmp(act, ACTS[at].name) == 0) {
            rule->act = ACTS[at].act;
            return;
        }
    }
    for (size_t at = 0; at < sizeof ERRORS / sizeof *ERRORS; at++) {
        if (strcmp(act, ERRORS[at].name) == 0) {
            rule->act = FAIL;
            rule->number = ERRORS[at].number;
            return;
        }
    }
    if (strncmp(act, "cut=", 4) != 0)
        refuse(act);
    rule->act = CUT;
    rule->number = atol(act + 4);
}

static void read_rules(struct rules *rules, const char *text)
{
    while (text && *text) {
        struct rule *rule = &rules->all[rules->count];
        char act[32];
        if (rules->count == MOST_RULES || sscanf(text, " %15s %255s %u %u %31[^; ]", rule->call, rule->end, &rule->first, &rule->last, act) != 5)
            refuse(text);
        read_act(rule, act);
        rules->count++;
        text = strchr(text, ';');
        text = text ? text + 1 : NULL;
    }
}

__attribute__((constructor)) static void begin(void)
{
    const char *name = getenv("HOST_SHIM_LOG");
    read_rules(&twins, getenv("HOST_SHIM_TWIN"));
    read_rules(&plans, getenv("HOST_SHIM_PLAN"));
    if (!name)
        return;
    int file = (int)syscall(SYS_openat, AT_FDCWD, name, O_WRONLY | O_CREAT | O_APPEND, 0666);
    if (file < 0)
        refuse(name);
    log_file = fcntl(file, F_DUPFD_CLOEXEC, FIRST_OWN);
    close(file);
}

static bool ends_with(const char *path, const char *end)
{
    size_t has = strlen(path), wanted = strlen(end);
    return strcmp(end, "*") == 0 || (has >= wanted && strcmp(path + has - wanted, end) == 0);
}

static const struct rule *find(struct rules *rules, const char *call, const char *path)
{
    const struct rule *found = NULL;
    for (size_t at = 0; at < rules->count; at++) {
        struct rule *rule = &rules->all[at];
        if (strcmp(rule->call, call) != 0 || !ends_with(path, rule->end))
            continue;
        rule->seen++;
        if (!found && rule->first <= rule->seen && rule->seen <= rule->last)
            found = rule;
    }
    return found;
}

/* The path of an open file. */
static void name_of(int file, char path[PATH_MAX])
{
    char link[64];
    snprintf(link, sizeof link, "/proc/self/fd/%d", file);
    ssize_t has = syscall(SYS_readlinkat, AT_FDCWD, link, path, (size_t)PATH_MAX - 1);
    path[has < 0 ? 0 : has] = '\0';
}

/* The path by the name of the open folder that it begins with, if it does with one, and with no slash at its end. */
static const char *plain(const char *path, char room[2 * PATH_MAX])
{
    int file, end = 0;
    room[0] = '\0';
    if (sscanf(path, "/proc/self/fd/%d%n", &file, &end) == 1 && path[end] == '/')
        name_of(file, room);
    else
        end = 0;
    size_t has = strlen(room);
    snprintf(room + has, 2 * PATH_MAX - has, "%s", path + end);
    for (has = strlen(room); has > 1 && room[has - 1] == '/'; has--)
        room[has - 1] = '\0';
    return room;
}

__attribute__((format(printf, 1, 2))) static void tell(const char *form, ...)
{
    static char line[4 * PATH_MAX + 2 * MOST_TOLD + 100];
    int was = errno;
    va_list words;
    if (log_file < 0)
        return;
    va_start(words, form);
    int has = vsnprintf(line, sizeof line - 1, form, words);
    va_end(words);
    line[has] = '\n';
    if (syscall(SYS_write, log_file, line, (size_t)has + 1) != has + 1)
        _exit(98);
    errno = was;
}

/* The answer as it is told. */
static long told(long answer)
{
    return answer < 0 ? -errno : answer;
}

/* Has the two names of HOST_SHIM_SWAP change places. One that is not there is told. */
static void swap_names(void)
{
    char first[PATH_MAX], second[PATH_MAX];
    const char *names = getenv("HOST_SHIM_SWAP");
    if (!names || sscanf(names, "%4095s %4095s", first, second) != 2)
        refuse("swap");
    long done = syscall(SYS_renameat2, AT_FDCWD, first, AT_FDCWD, second, RENAME_EXCHANGE);
    tell("swap %s %s %ld", first, second, told(done));
}

/* What happens in this call. It is where the process is stopped, and where names change places. */
static struct ruling judge(const char *call, const char *path)
{
    struct ruling ruling = {NONE, NONE, 0, 0};
    const struct rule *twin = find(&twins, call, path);
    if (twin) {
        ruling.twin = twin->act;
        ruling.size = twin->number;
        if (twin->act == LOST)
            return ruling;
    }
    const struct rule *plan = find(&plans, call, path);
    if (!plan)
        return ruling;
    ruling.plan = plan->act;
    ruling.error = plan->act == FAIL ? (int)plan->number : 0;
    if (plan->act == STOP)
        raise(SIGSTOP);
    if (plan->act == SWAP)
        swap_names();
    return ruling;
}

/* Tells a call that failed, and no other. */
static void tell_failed(const char *call, const char *path, ssize_t done)
{
    if (done < 0)
        tell("%s %s %ld", call, path, told(done));
}

/* Ends a call that answers 0: fails it as planned, or takes what it answered; tells it. */
#define ENDED(ruling, call, form, ...)                                                     \
    do {                                                                                   \
        long answer = (ruling).error ? (errno = (ruling).error, -1L) : (long)(call);       \
        tell(form " %ld", __VA_ARGS__, told(answer));                                      \
        return (ruling).twin == DEAF ? 0 : (int)answer;                                    \
    } while (0)

/* How many bytes of so many are moved, from this place on. */
static size_t share(struct ruling ruling, long place, size_t count)
{
    if (ruling.twin == CUT && place + (long)count > ruling.size)
        count = place < ruling.size ? (size_t)(ruling.size - place) : 0;
    return ruling.plan == SHORT ? (count + 1) / 2 : count;
}

static long place_in(int file)
{
    long place = syscall(SYS_lseek, file, 0L, SEEK_CUR);
    return place < 0 ? 0 : place;
}

/* The answer of a write of so many bytes, of which some were written: a wrong program takes all as written. */
static ssize_t written(struct ruling ruling, size_t count, ssize_t done)
{
    return ruling.twin == DEAF || ruling.twin == CUT ? (ssize_t)count : done;
}

ssize_t write(int file, const void *bytes, size_t count)
{
    char path[PATH_MAX];
    name_of(file, path);
    struct ruling ruling = judge("write", path);
    if (ruling.twin == LOST)
        return (ssize_t)count;
    errno = ruling.error;
    ssize_t done = ruling.error ? -1 : syscall(SYS_write, file, bytes, share(ruling, place_in(file), count));
    tell("write %s %zu %ld", path, count, told(done));
    return written(ruling, count, done);
}

/* A write of parts is one of the first of them that has bytes: fewer than all may be written. */
ssize_t writev(int file, const struct iovec *parts, int count)
{
    for (int at = 0; at < count; at++) {
        if (parts[at].iov_len)
            return write(file, parts[at].iov_base, parts[at].iov_len);
    }
    return 0;
}

ssize_t pwrite(int file, const void *bytes, size_t count, off_t place)
{
    char path[PATH_MAX], told_bytes[2 * MOST_TOLD + 1] = "";
    const unsigned char *each = bytes;
    name_of(file, path);
    struct ruling ruling = judge("pwrite", path);
    if (ruling.twin == LOST)
        return (ssize_t)count;
    errno = ruling.error;
    ssize_t done = ruling.error ? -1 : syscall(SYS_pwrite64, file, bytes, share(ruling, place, count), place);
    for (ssize_t at = 0; at < done && at < MOST_TOLD; at++)
        snprintf(told_bytes + 2 * at, 3, "%02x", each[at]);
    tell("pwrite %s %ld %zu %s %ld", path, (long)place, count, done > 0 ? told_bytes : "-", told(done));
    return written(ruling, count, done);
}

/* A wrong program that is deaf takes a read of fewer bytes as one of all. */
static ssize_t was_read(struct ruling ruling, size_t count, ssize_t done)
{
    return ruling.twin == DEAF && done != 0 ? (ssize_t)count : done;
}

ssize_t read(int file, void *bytes, size_t count)
{
    char path[PATH_MAX];
    name_of(file, path);
    struct ruling ruling = judge("read", path);
    errno = ruling.error;
    ssize_t done = ruling.error ? -1 : syscall(SYS_read, file, bytes, share(ruling, place_in(file), count));
    tell_failed("read", path, done);
    return was_read(ruling, count, done);
}

ssize_t pread(int file, void *bytes, size_t count, off_t place)
{
    char path[PATH_MAX];
    name_of(file, path);
    struct ruling ruling = judge("pread", path);
    errno = ruling.error;
    ssize_t done = ruling.error ? -1 : syscall(SYS_pread64, file, bytes, share(ruling, place, count), place);
    tell_failed("pread", path, done);
    return was_read(ruling, count, done);
}

int fsync(int file)
{
    char path[PATH_MAX];
    name_of(file, path);
    struct ruling ruling = judge("fsync", path);
    if (ruling.twin == LOST)
        return 0;
    ENDED(ruling, syscall(SYS_fsync, file), "fsync %s", path);
}

int fdatasync(int file)
{
    char path[PATH_MAX];
    name_of(file, path);
    struct ruling ruling = judge("fdatasync", path);
    if (ruling.twin == LOST)
        return 0;
    ENDED(ruling, syscall(SYS_fdatasync, file), "fdatasync %s", path);
}

int fchmod(int file, mode_t mode)
{
    char path[PATH_MAX];
    name_of(file, path);
    struct ruling ruling = judge("fchmod", path);
    if (ruling.twin == LOST)
        return 0;
    ENDED(ruling, syscall(SYS_fchmod, file, mode), "fchmod %s %o", path, mode);
}

int flock(int file, int how)
{
    char path[PATH_MAX];
    name_of(file, path);
    struct ruling ruling = judge("flock", path);
    if (ruling.twin == LOST)
        return 0;
    ENDED(ruling, syscall(SYS_flock, file, how), "flock %s %d", path, how);
}

int rename(const char *path, const char *other)
{
    struct ruling ruling = judge("rename", other);
    if (ruling.twin == LOST)
        return 0;
    ENDED(ruling, syscall(SYS_renameat2, AT_FDCWD, path, AT_FDCWD, other, 0), "rename %s %s", path, other);
}

int mkdir(const char *path, mode_t mode)
{
    char room[2 * PATH_MAX];
    const char *name = plain(path, room);
    struct ruling ruling = judge("mkdir", name);
    ENDED(ruling, syscall(SYS_mkdirat, AT_FDCWD, path, mode), "mkdir %s %o", name, mode);
}

int unlink(const char *path)
{
    struct ruling ruling = judge("unlink", path);
    if (ruling.twin == LOST)
        return 0;
    ENDED(ruling, syscall(SYS_unlinkat, AT_FDCWD, path, 0), "unlink %s", path);
}

int unlinkat(int folder, const char *path, int how)
{
    struct ruling ruling = judge("unlink", path);
    if (ruling.twin == LOST)
        return 0;
    ENDED(ruling, syscall(SYS_unlinkat, folder, path, how), "unlink %s", path);
}

static int opened(int folder, const char *path, int how, mode_t mode)
{
    char room[2 * PATH_MAX];
    const char *name = plain(path, room);
    struct ruling ruling = judge("open", name);
    if (ruling.twin == MAKE)
        how |= O_CREAT, mode = 0666;
    if (ruling.twin == EMPTY)
        how |= O_TRUNC;
    if (ruling.twin == WEAK && (how & O_ACCMODE) == O_RDWR)
        how &= ~O_ACCMODE;
    if (ruling.twin == MODE)
        mode = 0666;
    errno = ruling.error;
    long file = ruling.error ? -1 : syscall(SYS_openat, folder, path, how, mode);
    tell("open %s %x %o %ld", name, (unsigned)how, mode, told(file));
    return (int)file;
}

static mode_t mode_among(int how, va_list words)
{
    return how & O_CREAT ? va_arg(words, mode_t) : 0;
}

int open(const char *path, int how, ...)
{
    va_list words;
    va_start(words, how);
    mode_t mode = mode_among(how, words);
    va_end(words);
    return opened(AT_FDCWD, path, how, mode);
}

int openat(int folder, const char *path, int how, ...)
{
    va_list words;
    va_start(words, how);
    mode_t mode = mode_among(how, words);
    va_end(words);
    return opened(folder, path, how, mode);
}

/* What the first look told, and the error that it met. */
static struct {
    bool is_known;
    int error;
    struct statx found;
} first_look;

/* A look as of the first one. */
static int looked_as_first(struct statx *found)
{
    *found = first_look.found;
    errno = first_look.error;
    return first_look.error ? -1 : 0;
}

int statx(int folder, const char *restrict path, int how, unsigned mask, struct statx *restrict found)
{
    char opened[PATH_MAX], room[2 * PATH_MAX];
    name_of(folder, opened);
    struct ruling ruling = judge("statx", *path ? plain(path, room) : opened);
    if (ruling.twin == SAME && first_look.is_known)
        return looked_as_first(found);
    if (ruling.twin == FOLLOW)
        how &= ~AT_SYMLINK_NOFOLLOW;
    errno = ruling.error;
    int answer = ruling.error ? -1 : (int)syscall(SYS_statx, folder, path, how, mask, found);
    if (ruling.twin == OTHER)
        found->stx_ino = ~found->stx_ino;
    if (ruling.twin == SAME) {
        first_look.is_known = true;
        first_look.error = answer < 0 ? errno : 0;
        first_look.found = *found;
    }
    return answer;
}

static bool is_passed_over(struct ruling ruling, const char *name)
{
    if (ruling.twin == HIDDEN)
        return name[0] == '.';
    for (; ruling.twin == BYTES && *name; name++) {
        if ((unsigned char)*name > 127)
            return true;
    }
    return false;
}

/* The entries of a folder without those that are passed over. A batch of which none is left is followed by the next. */
static ssize_t without_passed_over(struct ruling ruling, char *entries, ssize_t count)
{
    ssize_t kept = 0;
    for (ssize_t at = 0; at < count;) {
        const struct dirent64 *entry = (const void *)(entries + at);
        size_t size = entry->d_reclen;
        bool is_kept = !is_passed_over(ruling, entry->d_name);
        if (is_kept) {
            memmove(entries + kept, entries + at, size);
            kept += (ssize_t)size;
        }
        at += (ssize_t)size;
    }
    return kept;
}

ssize_t getdents64(int folder, void *entries, size_t size)
{
    char path[PATH_MAX];
    name_of(folder, path);
    struct ruling ruling = judge("getdents64", path);
    errno = ruling.error;
    ssize_t count = ruling.error ? -1 : 1, kept = count;
    tell_failed("getdents64", path, count);
    while (!ruling.error && count > 0 && (kept = count = syscall(SYS_getdents64, folder, entries, size)) > 0) {
        kept = without_passed_over(ruling, entries, count);
        if (kept)
            break;
    }
    return kept;
}

/* The same calls by their other names. */
ssize_t pwrite64(int, const void *, size_t, off64_t) __attribute__((alias("pwrite")));
ssize_t pread64(int, void *, size_t, off64_t) __attribute__((alias("pread")));
int open64(const char *, int, ...) __attribute__((alias("open")));
int openat64(int, const char *, int, ...) __attribute__((alias("openat")));
