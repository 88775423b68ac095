/* A folder with undo: this program owns the part, a child `uffs serve` has the file system, and FUSE asks for the folder.
 * docs/folder.md tells what it is for. */
#define _GNU_SOURCE
#include "clock_checkpoints.h"
#include "control.h"
#include "folder.h"
#include "group_writes.h"
#include "part.h"
#include "saves.h"
#include "serving.h"
#include "space.h"
#include "times.h"
#include "time_words.h"
#include "times_file.h"
#include "version_times.h"
#include <errno.h>
#include <fcntl.h>
#include <fuse_lowlevel.h>
#include <signal.h>
#include <stddef.h>
#include <stdio.h>
#include <stdlib.h>
#include <string.h>
#include <syslog.h>
#include <unistd.h>

static const char usage[] = "usage: undofs-fuse PART FOLDER [-f] [-o OPTION,..]\n"
                            "PART: a flat file, which is made where it is missing, or /dev/mtdN\n"
                            "  -f              stay in the foreground\n"
                            "  -o keep         on a full flash forget no version unasked, and refuse with ENOSPC\n"
                            "  -o reserve=N    N blocks are for changes that make nothing longer (a 32nd, 8 at least)\n"
                            "  -o settle=N     what changes is one version until nothing changed for N seconds (2; 0: a version a save)\n"
                            "  -o durable      each save is a version and synced\n"
                            "  -o commit=N     a version is made and synced N seconds after its first change (5; 0: never)\n"
                            "  -o format       make an empty file system, whatever PART holds\n"
                            "  -o nor          PART is NOR, also where its type is RAM, as that of mtdram: for trials\n"
                            "  -o dense=N      PART is NOR in the layout `dense`, in blocks of N sectors (docs/dense_nor.md)\n"
                            "  -o history=N    keep N versions (128); page=P, pages=K, blocks=N: sizes of a file that is made\n"
                            "  -o buffer=N     keep N bytes that a save wrote, at most, until it is done (16777216)\n"
                            "  -o wait=N       a child that stands still for N seconds is ended (60; 0: never)\n"
                            "  -o checkpoint=T a checkpoint by the clock each T, as 15m, in which something changed\n"
                            "  -o times=DIR    times of files outlive the mount in this folder, and not beside PART\n"
                            "  -o serve=FILE   the program `uffs`\n";

struct options {
    char *part, *folder, *serve, *times, *checkpoint;
    int64_t period; /* of checkpoints by the clock, in seconds; 0 for none */
    struct undofs_sizes sizes;
    unsigned history, commit, settle, wait, buffer;
    int forgets, keeps, reserve, is_durable, formats, is_in_front, is_help;
    struct nor_asked nor;
};

enum { LEAST_HISTORY = 2, MOST_HISTORY = 128 };

static struct options options = {.sizes = {4096, 1, 16384}, .history = 128, .commit = 5, .settle = 2, .wait = 60, .buffer = 16 << 20, .reserve = SPACE_USUAL};

#define OPTION(text, field) {text, offsetof(struct options, field), 1}
static const struct fuse_opt known[] = {
    OPTION("page=%u", sizes.page), OPTION("pages=%u", sizes.pages), OPTION("blocks=%u", sizes.blocks), OPTION("history=%u", history), OPTION("commit=%u", commit),
    OPTION("settle=%u", settle),   OPTION("wait=%u", wait),        OPTION("buffer=%u", buffer),       OPTION("serve=%s", serve),     OPTION("times=%s", times),
    OPTION("forget", forgets),     OPTION("keep", keeps),          OPTION("reserve=%d", reserve),     OPTION("durable", is_durable), OPTION("format", formats),
    OPTION("-f", is_in_front),     OPTION("nor", nor.is_nor),      OPTION("checkpoint=%s", checkpoint), OPTION("-h", is_help),       OPTION("--help", is_help),
    OPTION("dense=%u", nor.sectors),
    FUSE_OPT_END};

/* The path of a file that is not there yet. */
static char *path_of_new(const char *word) {
    char *here = getcwd(NULL, 0), *path = NULL;
    if (word[0] == '/') {
        path = strdup(word);
    } else if (here != NULL && asprintf(&path, "%s/%s", here, word) < 0) {
        path = NULL;
    }
    free(here);
    return path;
}

/* The two words that are no options. */
static int take_word(void *data, const char *word, int key, struct fuse_args *args) {
    struct options *o = data;
    (void)args;
    if (key != FUSE_OPT_KEY_NONOPT) return 1;
    char **to = o->part == NULL ? &o->part : o->folder == NULL ? &o->folder : NULL;
    if (to == NULL) return -1;
    *to = realpath(word, NULL); /* a daemon works in the root */
    if (*to == NULL && to == &o->part) *to = path_of_new(word);
    if (*to == NULL) fprintf(stderr, "undofs-fuse: %s: %s\n", word, strerror(errno));
    return *to == NULL ? -1 : 0;
}

/* ---- the start ---- */

static struct part part;

static int complain(const char *what, const char *why) {
    fprintf(stderr, "undofs-fuse: %s: %s\n", what, why);
    return 1;
}

/* Where a number of an option is none that can be, tells which can. */
static int are_bounds_kept(void) {
    if (options.history >= LEAST_HISTORY && options.history <= MOST_HISTORY) return 1;
    fprintf(stderr, "undofs-fuse: history=%u: a file system keeps %d to %d versions\n", options.history, LEAST_HISTORY, MOST_HISTORY);
    return 0;
}

static int is_duration_taken(void) {
    if (options.checkpoint == NULL || take_duration(options.checkpoint, &options.period)) return 1;
    fprintf(stderr, "undofs-fuse: checkpoint=%s: a time is a number and s, m, h or d, as 15m\n", options.checkpoint);
    return 0;
}

/* The folder of `-o times` by its whole path, since a daemon works in the root. */
static int is_folder_of_times_there(void) {
    char *times = options.times == NULL ? NULL : realpath(options.times, NULL);
    if (options.times != NULL && times == NULL) fprintf(stderr, "undofs-fuse: %s: %s\n", options.times, strerror(errno));
    int is_there = options.times == NULL || times != NULL;
    free(options.times);
    options.times = times;
    return is_there;
}

static void tell_in_use(void) { (void)complain(options.part, "in use: waiting"); }

/* The file of times is named, and what it tells is read. A device has none but in a folder that is given. */
static void start_times(void) {
    uint8_t identity[IDENTITY];
    int is_made = part.is_new || options.formats, is_named = !part.is_device || options.times != NULL;
    int why = part_identity(&part, is_made, identity);
    if (why == 0 && is_named) why = times_file_name(options.part, options.times);
    if (why != 0) syslog(LOG_WARNING, "%s: %s: times are not kept over the mount", options.part, strerror(why));
    version_times_start(identity, is_made);
    clock_checkpoints_start(options.period);
}

/* Opens the part and starts the child on it. A status. */
static int start_file_system(void) {
    int why = part_open(&part, options.part, &options.sizes, &options.nor, tell_in_use);
    if (why != 0) return complain(options.part, why == EBUSY ? "in use" : why == EINVAL ? "neither a part in a flat file nor a flash" : strerror(why));
    uint32_t history = part.is_new || options.formats ? options.history : 0;
    saves = (struct saves){.commit = options.commit, .settle = options.is_durable ? 0 : options.settle, .forgets = !options.keeps, .is_durable = options.is_durable, .buffer = options.buffer};
    saves.block = part.driver.sizes.page * part.driver.sizes.pages;
    why = undofs_start(&saves.child, options.serve, &part.driver, history);
    if (why != 0 && part.is_new) (void)unlink(options.part);
    if (why == UNDOFS_NORECORD) return complain(options.part, "it holds no file system; -o format makes one") + 2;
    if (why == UNDOFS_NO_IMAGE) return complain(options.part, "its sizes are not lawful");
    if (why == UNDOFS_NO_MEMORY) return complain(options.part, strerror(ENOMEM)) + 2;
    if (why != 0) {
        const char *message = saves.child == NULL ? "" : undofs_message(saves.child);
        char text[100];
        snprintf(text, sizeof text, "`uffs serve` did not start (%d): is it in PATH, or named by -o serve?", why);
        return complain(options.part, *message != 0 ? message : text) + 2;
    }
    undofs_set_wait(saves.child, options.wait);
    space_start(options.reserve, part.driver.sizes.blocks);
    writes_start(options.buffer);
    times_start();
    if (saves_start() != 0) return 3;
    start_times();
    return 0;
}

/* ---- the folder ---- */

/* The first process waits until the folder is there, and ends with the daemon's status. Answers where that is told, in
 * the daemon; -1 in the foreground. */
static int become_daemon(void) {
    int told[2];
    if (options.is_in_front) return -1;
    if (pipe2(told, O_CLOEXEC) != 0) exit(complain("pipe", strerror(errno)));
    pid_t daemon = fork();
    if (daemon < 0) exit(complain("fork", strerror(errno)));
    if (daemon > 0) {
        unsigned char status = 1;
        close(told[1]);
        if (read(told[0], &status, 1) != 1) status = 1;
        _exit(status);
    }
    close(told[0]);
    (void)setsid();
    return told[1];
}

static void tell_status(int to, int status) {
    unsigned char byte = (unsigned char)status;
    if (to < 0) return;
    if (status == 0) {
        int nothing = open("/dev/null", O_RDWR);
        (void)!chdir("/"); /* so that it keeps no folder of the host in use */
        for (int stream = 0; stream < 3; stream++) (void)dup2(nothing, stream);
        if (nothing > 2) close(nothing);
    }
    if (write(to, &byte, 1) != 1) _exit(1);
    close(to);
}

/* The folder that is to be mounted, under the name of the part where that is none that FUSE would read otherwise. Null where FUSE
 * refuses an option, and tells it: before PART is opened, so that no file is made. The kernel looks at the modes: what other users may
 * do, with `-o allow_other`, is what `ls` shows. */
static struct fuse *make_folder(struct fuse_args *args) {
    char name[300];
    int is_plain = strpbrk(options.part, ",\\") == NULL;
    snprintf(name, sizeof name, "-odefault_permissions,subtype=undofs%s%.250s", is_plain ? ",fsname=" : "", is_plain ? options.part : "");
    return fuse_opt_add_arg(args, name) != 0 ? NULL : fuse_new(args, &folder_operations, sizeof folder_operations, NULL);
}

/* From now on no signal ends the daemon but a kill: what was saved is brought to the part first. */
static void hold_signals(void) {
    sigset_t held;
    sigemptyset(&held);
    sigaddset(&held, SIGINT);
    sigaddset(&held, SIGHUP);
    sigaddset(&held, SIGTERM);
    sigaddset(&held, SIGPIPE);
    (void)sigprocmask(SIG_BLOCK, &held, NULL);
}

/* Serves the folder until it is unmounted, or a signal ends that. */
static void serve_until_unmounted(struct fuse *fuse) {
    struct fuse_session *session = fuse_get_session(fuse);
    (void)fuse_set_signal_handlers(session);
    int why = serve_folder(fuse);
    hold_signals();
    if (why != 0) syslog(LOG_ERR, "%s", strerror(why));
    fuse_remove_signal_handlers(session);
    fuse_unmount(fuse);
}

static int run(struct fuse_args *args) {
    int told = become_daemon();
    openlog("undofs-fuse", options.is_in_front ? LOG_PERROR : 0, LOG_DAEMON);
    struct fuse *fuse = make_folder(args);
    int status = fuse == NULL ? 1 : start_file_system();
    if (status == 0 && fuse_mount(fuse, options.folder) != 0) status = 1;
    tell_status(told, status);
    if (status == 0) serve_until_unmounted(fuse);
    if (fuse != NULL) fuse_destroy(fuse);
    undofs_end(saves.child);
    return status;
}

int main(int count, char **words) {
    struct fuse_args args = FUSE_ARGS_INIT(count, words);
    if (fuse_opt_parse(&args, &options, known, take_word) != 0 || options.is_help || options.folder == NULL) {
        fputs(usage, stderr);
        return 2;
    }
    int status = are_bounds_kept() && is_duration_taken() && is_folder_of_times_there() ? run(&args) : 2;
    fuse_opt_free_args(&args);
    return status;
}
