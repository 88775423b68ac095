/* No file of undofs stays open between two requests: a read is `read`, a write is `open`, `pwrite` and `close`. So a file
 * may be moved, removed and undone while programs have it open, and any number may be. */
#define _GNU_SOURCE
#include "folder.h"
#include "control.h"
#include "group_writes.h"
#include "kept_pages.h"
#include "kept_reads.h"
#include "opened.h"
#include "saves.h"
#include "space.h"
#include "times.h"
#include "timeline.h"
#include "version_times.h"
#include <errno.h>
#include <fcntl.h>
#include <stdio.h>
#include <stdlib.h>
#include <string.h>
#include <syslog.h>
#include <unistd.h>

enum { NOREPLACE = 1, BLOCK = 512, NAME = 64, NOT_THERE = -ENOENT };

/* Ends the group where no writer is left in it, with no time to settle. */
static int end_group_when_written(void) { return saves.settle != 0 || opened_any_in_group() ? 0 : save_ends(); }

/* What a change of one path is about. */
struct subject {
    const char *path;
    mode_t mode;       /* of one that is made */
    int is_empty;      /* it is a file that is made now */
    uint64_t from, to; /* of bytes that are written; of a cut, `to` is the length */
};

static void touch_made(const void *with) { touched_made(((const struct subject *)with)->path); }
static void touch_removed(const void *with) { touched_removed(((const struct subject *)with)->path); }

static void touch_cut(const void *with) {
    const struct subject *s = with;
    touched_cut(s->path, s->to);
}

static void apply_made(uint64_t serial, const void *with) {
    const struct subject *s = with;
    writes_note_names();
    if (s->is_empty) writes_cut(s->path);
    time_made(s->path, serial, (s->mode & S_IXUSR) != 0);
    time_touch_folder(s->path, serial);
}

static void apply_removed(uint64_t serial, const void *with) {
    const struct subject *s = with;
    writes_drop(s->path);
    pages_forget(s->path);
    time_gone(s->path, serial);
    time_touch_folder(s->path, serial);
}

static void apply_cut(uint64_t serial, const void *with) {
    const struct subject *s = with;
    if (s->to == 0) writes_cut(s->path);
    else writes_drop(s->path);
    time_written(s->path, serial);
}

/* ---- looking ---- */

/* The reply to a line about a path in its view. */
static int ask_path(const char *verb, const struct place *p, const char *rest) {
    struct undofs_lines *lines = saves_lines();
    undofs_put_text(lines, verb);
    undofs_put_text(lines, " ");
    undofs_put_word(lines, p->path);
    undofs_put_text(lines, rest);
    if (*p->view != 0) undofs_put_text(lines, " ");
    if (*p->view != 0) undofs_put_word(lines, p->view);
    undofs_put_end(lines);
    int why = saves_ask(lines);
    int is_none = *p->view != 0 && (why == UNDOFS_SYNTAX || why == UNDOFS_TOOOLD); /* a view that is none, or was dropped */
    return is_none ? NOT_THERE : errno_of(why);
}

/* What a path shows in its view. That of a view itself is when it was made. */
static struct shown shown_of(const struct place *p) {
    int is_version = *p->view == '@', is_checkpoint = *p->view == '=';
    uint64_t serial = is_version ? strtoull(p->view + 1, NULL, 10) : saves_serial();
    struct shown shown = is_checkpoint ? shown_in(p->path, p->view + 1) : shown_at(p->path, serial);
    if (p->kind != IN_VIEW || strcmp(p->path, "/") != 0) return shown;
    if (is_checkpoint) shown.time = time_of_checkpoint(p->view + 1);
    if (is_version) (void)timeline_made_at(serial, &shown.time);
    return shown;
}

/* What stands at a path, with what the open group wrote. */
static int look_at(const struct place *p, struct undofs_stat *found) {
    *found = (struct undofs_stat){p->path[1] == 0, 0};
    if (p->kind == IN_TREE && p->path[1] == 0 && !saves.is_failed) return 0; /* the root is there */
    if (p->kind == IN_TREE && writes_know_length(p->path, &found->length)) return 0;
    if (p->kind == IN_TREE) return errno_of(reads_stat(p->path, found));
    int error = ask_path("stat", p, "");
    if (error != 0) return error;
    const char *reply = undofs_reply(saves.child, 0);
    found->is_directory = *reply == 'd';
    found->length = strtoull(strchr(reply, ' ') + 1, NULL, 10);
    return 0;
}

static int folder_getattr(const char *path, struct stat *st, struct fuse_file_info *info) {
    struct place p = place_of(path);
    memset(st, 0, sizeof *st);
    st->st_uid = getuid();
    st->st_gid = getgid();
    st->st_nlink = 1; /* of a folder too: no program may count on the links of one */
    struct shown path_shown = shown_of(&p);
    st->st_mtim = st->st_ctim = st->st_atim = path_shown.time;
    if (p.kind == HISTORY) {
        st->st_mode = S_IFDIR | 0555;
        return 0;
    }
    if (p.kind == CONTROL) {
        const struct opened *o = opened_of(info);
        char *text = o != NULL && o->text != NULL ? NULL : control_text();
        const char *shown = text != NULL || o == NULL ? text : o->text;
        st->st_mode = S_IFREG | 0600;
        st->st_size = shown == NULL ? 0 : (off_t)strlen(shown);
        free(text);
        return shown == NULL ? -ENOMEM : 0;
    }
    struct undofs_stat found;
    int error = look_at(&p, &found);
    if (error != 0) return error;
    if (found.is_directory) {
        st->st_mode = S_IFDIR | (p.kind == IN_VIEW ? 0555 : 0755);
        return 0;
    }
    st->st_mode = S_IFREG | (p.kind == IN_VIEW ? 0444 : 0644) | (path_shown.is_executable ? 0111 : 0);
    st->st_size = (off_t)found.length;
    st->st_blocks = (st->st_size + BLOCK - 1) / BLOCK;
    return 0;
}

/* The names of .history: "@" and each serial, "=" and the name of each checkpoint. */
static void fill_history(void *buffer, fuse_fill_dir_t fill, char *log) {
    char sign = 0, name[80], *word;
    while ((word = strsep(&log, " ")) != NULL) {
        if (strcmp(word, "versions") == 0 && sign == 0) {
            sign = '@';
        } else if (strcmp(word, "checkpoints") == 0 && sign == '@') {
            sign = '=';
        } else if (sign != 0) {
            undofs_take_word(word);
            snprintf(name, sizeof name, "%c%s", sign, sign == '@' && *word == '*' ? word + 1 : word);
            if (strchr(name, '/') == NULL) fill(buffer, name, NULL, 0, 0);
        }
    }
}

static void fill_entries(void *buffer, fuse_fill_dir_t fill, char *reply) {
    char *name;
    for (int word = 0; (name = strsep(&reply, " ")) != NULL; word++) {
        size_t length = strlen(name);
        if (word < 2 || length == 0) continue; /* "entries" and their number */
        struct stat st = {.st_mode = name[length - 1] == '/' ? S_IFDIR : S_IFREG};
        if (S_ISDIR(st.st_mode)) name[length - 1] = 0;
        undofs_take_word(name);
        fill(buffer, name, &st, 0, 0);
    }
}

struct filling {
    void *buffer;
    fuse_fill_dir_t fill;
};

static void fill_file(void *with, const char *name) {
    const struct filling *f = with;
    f->fill(f->buffer, name, &(struct stat){.st_mode = S_IFREG}, 0, 0);
}

static int fill_listed(const char *path, void *buffer, fuse_fill_dir_t fill) {
    int why = 0;
    const struct listing *listing = reads_list(path, &why);
    if (listing == NULL) return errno_of(why);
    for (size_t i = 0; i < listing->count; i++) {
        const struct listed *entry = &listing->entries[i];
        fill(buffer, entry->name, &(struct stat){.st_mode = entry->found.is_directory ? S_IFDIR : S_IFREG}, 0, 0);
    }
    writes_list_new(path, fill_file, &(struct filling){buffer, fill});
    return 0;
}

static int folder_readdir(const char *path, void *buffer, fuse_fill_dir_t fill, off_t offset, struct fuse_file_info *info, enum fuse_readdir_flags flags) {
    struct place p = place_of(path);
    const char *log;
    (void)offset;
    (void)info;
    (void)flags;
    fill(buffer, ".", NULL, 0, 0);
    fill(buffer, "..", NULL, 0, 0);
    if (p.kind == IN_TREE) return fill_listed(path, buffer, fill);
    int error = p.kind == HISTORY ? errno_of(undofs_log(saves.child, &log)) : ask_path("ls", &p, "");
    if (error != 0) return error;
    if (p.kind == HISTORY) fill_history(buffer, fill, undofs_reply(saves.child, 0));
    else fill_entries(buffer, fill, undofs_reply(saves.child, 0));
    return 0;
}

static int folder_statfs(const char *path, struct statvfs *s) {
    struct undofs_space space;
    (void)path;
    (void)writes_give("/"); /* so that it has its blocks */
    int why = undofs_df(saves.child, &space);
    if (why != 0) return errno_of(why);
    memset(s, 0, sizeof *s);
    s->f_bsize = s->f_frsize = saves.block;
    s->f_blocks = space.data;
    s->f_bfree = space.free;
    s->f_bavail = space.free > space_reserve() ? space.free - space_reserve() : 0;
    s->f_namemax = NAME;
    return 0;
}

/* ---- names ---- */

static int is_own(const char *path) { return place_of(path).kind != IN_TREE; }

/* A change that is done once it is answered. */
static int change_names(const struct undofs_lines *lines, const struct change *change) {
    int why = saves_change(lines, change);
    return errno_of(why != 0 ? why : save_is_done());
}

static int change_path(const char *verb, const struct subject *s, void (*touch)(const void *), void (*apply)(uint64_t, const void *)) {
    if (is_own(s->path)) return -EROFS;
    int error = errno_of(writes_make(s->path));
    if (error != 0) return error;
    struct undofs_lines *lines = saves_lines();
    put_path_line(lines, verb, s->path, "");
    return change_names(lines, &(struct change){s, touch, apply});
}

static int folder_mkdir(const char *path, mode_t mode) {
    (void)mode;
    return change_path("mkdir", &(struct subject){.path = path, .mode = 0777}, touch_made, apply_made);
}

static int folder_rmdir(const char *path) { return change_path("rmdir", &(struct subject){.path = path}, touch_removed, apply_removed); }

/* A new file that the file system was not given is removed without it. */
static int folder_unlink(const char *path) {
    const struct subject removed = {.path = path};
    if (!writes_is_new(path) || !undofs_is_there(saves.child)) return change_path("unlink", &removed, touch_removed, apply_removed);
    touch_removed(&removed);
    apply_removed(saves_serial(), &removed);
    saves_note_change();
    return errno_of(save_is_done());
}

struct move {
    const char *from, *to;
    int is_directory;
};

static void touch_move(const void *with) {
    const struct move *m = with;
    touched_moved(m->from, m->to, m->is_directory);
}

static void apply_move(uint64_t serial, const void *with) {
    const struct move *m = with;
    if (strcmp(m->from, m->to) == 0) return;
    writes_drop(m->from);
    writes_drop(m->to);
    pages_forget(m->from);
    pages_forget(m->to);
    writes_note_names();
    opened_move(m->from, m->to);
    times_moved(m->from, m->to, serial, m->is_directory);
    time_touch_folder(m->from, serial);
    time_touch_folder(m->to, serial);
}

/* A new file is made under its last name alone. */
static int move_new(const struct move *m, int *is_moved) {
    if (!writes_is_new(m->from)) return 0;
    touch_move(m);
    int why = writes_make_at(m->from, m->to, is_moved);
    if (!*is_moved) return errno_of(why);
    apply_move(saves_serial(), m);
    saves_note_change();
    return errno_of(save_is_done());
}

static int move_given(const struct move *m) {
    int error = errno_of(writes_give(m->from));
    if (error != 0) return error;
    struct undofs_lines *lines = saves_lines();
    undofs_put_text(lines, "rename ");
    undofs_put_word(lines, m->from);
    undofs_put_text(lines, " ");
    undofs_put_word(lines, m->to);
    undofs_put_end(lines);
    return change_names(lines, &(struct change){m, touch_move, apply_move});
}

static int folder_rename(const char *from, const char *to, unsigned flags) {
    struct place old_place = place_of(from), new_place = place_of(to);
    if ((flags & ~(unsigned)NOREPLACE) != 0) return -EINVAL;
    if (old_place.kind != IN_TREE || new_place.kind != IN_TREE) return -EROFS;
    struct undofs_stat found;
    int is_moved = 0, error = errno_of(writes_make(to));
    if (error == 0 && (flags & NOREPLACE) != 0 && ask_path("stat", &new_place, "") == 0) error = -EEXIST;
    if (error == 0) error = look_at(&old_place, &found);
    if (error != 0) return error;
    struct move m = {from, to, found.is_directory};
    error = move_new(&m, &is_moved);
    return error != 0 || is_moved ? error : move_given(&m);
}

static int folder_mknod(const char *path, mode_t mode, dev_t device) {
    (void)device;
    if (!S_ISREG(mode)) return -EPERM;
    if (is_own(path)) return -EROFS;
    int error = errno_of(writes_make(path));
    if (error != 0) return error;
    struct undofs_lines *lines = saves_lines();
    put_path_line(lines, "open", path, " 14");
    undofs_put_text(lines, "close 0\n");
    return change_names(lines, &(struct change){&(struct subject){.path = path, .mode = mode, .is_empty = 1}, touch_made, apply_made});
}

static int folder_link(const char *from, const char *to) {
    (void)from;
    (void)to;
    return -EPERM;
}

/* ---- files ---- */

/* A new file is made when its bytes are given. */
static void apply_new(const void *with) {
    struct subject made = *(const struct subject *)with;
    made.is_empty = 0;
    apply_made(saves_serial(), &made);
    saves_note_change();
}

static int make_or_cut(const char *path, const char *flags, const struct change *change) {
    int error = errno_of(writes_make(path));
    if (error != 0) return error;
    struct undofs_lines *lines = saves_lines();
    put_path_line(lines, "open", path, flags);
    undofs_put_text(lines, "close 0\n");
    return errno_of(saves_change(lines, change));
}

/* Makes or cuts a file, in the group of the save that begins with it. */
static int change_opened(const char *path, const char *flags, const struct change *change, struct fuse_file_info *info) {
    int error = errno_of(save_begins());
    if (error != 0) return error;
    if (change->apply == apply_made && writes_make_later(path)) apply_new(change->with);
    else error = make_or_cut(path, flags, change);
    if (error == 0) error = opened_add(info, path, NULL);
    if (error == 0) opened_note_write(opened_of(info), 0);
    else (void)end_group_when_written();
    return error;
}

static int folder_create(const char *path, mode_t mode, struct fuse_file_info *info) {
    if (is_own(path)) return -EROFS;
    const char *flags = (info->flags & O_EXCL) != 0 ? " 14" : (info->flags & O_TRUNC) != 0 ? " 22" : " 6";
    const struct subject made = {.path = path, .mode = mode, .is_empty = flags[1] != '6'};
    return change_opened(path, flags, &(struct change){&made, touch_made, apply_made}, info);
}

static int folder_open(const char *path, struct fuse_file_info *info) {
    struct place p = place_of(path);
    int writes = (info->flags & O_ACCMODE) != O_RDONLY;
    if (p.kind == CONTROL) {
        int reads = (info->flags & O_ACCMODE) != O_WRONLY;
        char *text = reads ? control_text() : NULL;
        info->direct_io = 1; /* its length is not known before it is read */
        return reads && text == NULL ? -ENOMEM : opened_add(info, NULL, text);
    }
    if (p.kind != IN_TREE && writes) return -EROFS;
    const struct subject cut = {.path = path};
    if (writes && (info->flags & O_TRUNC) != 0) return change_opened(path, " 18", &(struct change){&cut, touch_cut, apply_cut}, info);
    struct undofs_stat found;
    int error = look_at(&p, &found);
    if (error != 0) return error;
    if (found.is_directory) return -EISDIR;
    if (!undofs_is_there(saves.child)) return errno_of(saves_told(UNDOFS_GONE)); /* what is kept of it is no answer then */
    info->keep_cache = p.kind == IN_TREE && pages_are_right(path);
    return opened_add(info, p.kind == IN_TREE ? path : NULL, NULL);
}

/* close() waits for this one, and not for the release. */
static int folder_flush(const char *path, struct fuse_file_info *info) {
    struct opened *o = opened_of(info);
    (void)path;
    if (o == NULL || !o->is_unclosed) return 0;
    o->is_unclosed = 0;
    o->group = 0;
    return errno_of(saves.is_durable ? save_is_done() : end_group_when_written());
}

static int folder_release(const char *path, struct fuse_file_info *info) {
    struct opened *o = opened_of(info);
    (void)path;
    if (o != NULL && o->group != 0) { /* only made or cut, or a page that was mapped was written after the close */
        o->group = 0;
        (void)end_group_when_written();
    }
    opened_drop(o);
    return 0;
}

static int read_text(const char *text, char *bytes, size_t count, off_t offset) {
    size_t length = text == NULL ? 0 : strlen(text);
    if ((size_t)offset >= length) return 0;
    if (count > length - (size_t)offset) count = length - (size_t)offset;
    memcpy(bytes, text + offset, count);
    return (int)count;
}

/* The bytes that the file system has, and over them those that the open group wrote. */
static int read_file(const char *path, uint8_t *bytes, size_t count, uint64_t offset) {
    size_t wanted = writes_wanted(path, offset, count), had = 0;
    int why = wanted == 0 ? 0 : reads_bytes(path, offset, bytes, wanted, &had);
    return why != 0 ? errno_of(why) : (int)writes_read(path, offset, bytes, count, had);
}

static int folder_read(const char *path, char *bytes, size_t count, off_t offset, struct fuse_file_info *info) {
    struct place p = place_of(path);
    char rest[64];
    if (p.kind == CONTROL) return read_text(opened_of(info)->text, bytes, count, offset);
    if (p.kind == IN_TREE) return read_file(path, (uint8_t *)bytes, count, (uint64_t)offset);
    snprintf(rest, sizeof rest, " %llu %zu", (unsigned long long)offset, count);
    int error = ask_path("read", &p, rest);
    return error != 0 ? error : (int)undofs_take_data(undofs_reply(saves.child, 0), (uint8_t *)bytes, count);
}

/* A group begun by hand is on the part once `end` is answered, which comes from who waits for this. */
static int may_sync(void) { return !saves.is_held || saves.is_unsynced; }

static int sync_now(void) {
    if (!may_sync()) return -EBUSY;
    if (saves.is_held) return 0;
    int why = save_ends();
    return errno_of(why == 0 ? saves_sync_changes() : why);
}

/* Where a write stands. One that appends goes to the end that the tree has now, which after an undo is not that of the kernel; a page
 * that was mapped stays where it is. */
static int place_of_write(const char *path, const struct fuse_file_info *info, off_t *offset) {
    if ((info->flags & O_APPEND) == 0 || info->writepage) return 0;
    struct place p = place_of(path);
    struct undofs_stat found;
    int error = look_at(&p, &found);
    if (error == 0) *offset = (off_t)found.length;
    return error;
}

/* Whether a file has these bytes already. Where no block is free they take none: so a data base that rolls back what it could not write
 * comes through. */
static int are_there(const char *path, const char *bytes, size_t count, off_t offset) {
    char *found = malloc(count);
    int are_same = found != NULL && read_file(path, (uint8_t *)found, count, (uint64_t)offset) == (int)count && memcmp(found, bytes, count) == 0;
    free(found);
    return are_same;
}

static int folder_write(const char *path, const char *bytes, size_t count, off_t offset, struct fuse_file_info *info) {
    struct opened *o = opened_of(info);
    if (place_of(path).kind == CONTROL) {
        int error = control_write(bytes, count);
        return error != 0 ? error : (int)count;
    }
    int is_synced = (info->flags & (O_SYNC | O_DSYNC)) != 0;
    if (is_synced && !may_sync()) return -EBUSY;
    int error = errno_of(save_begins());
    if (error == 0) error = place_of_write(path, info, &offset);
    if (error != 0) return error;
    opened_note_write(o, 1);
    size_t kept = 0;
    touched_written(path, (uint64_t)offset, (uint64_t)offset + count);
    error = errno_of(writes_keep(path, (uint64_t)offset, (const uint8_t *)bytes, count, &kept));
    if (error == -ENOSPC && are_there(path, bytes, count, offset)) {
        error = 0;
        kept = count;
    }
    if (error == 0) saves_note_change();
    if (error == 0) time_written(path, saves_serial());
    if (error == 0 && is_synced) error = sync_now();
    return error != 0 ? error : (int)kept;
}

static int folder_truncate(const char *path, off_t length, struct fuse_file_info *info) {
    char cut[64];
    struct place p = place_of(path);
    if (p.kind == CONTROL) return 0;
    if (p.kind != IN_TREE) return -EROFS;
    int error = opened_of(info) != NULL ? errno_of(save_begins()) : 0;
    if (error == 0 && length > 0) error = errno_of(writes_give(path));
    if (error == 0) error = errno_of(writes_make(path));
    if (error != 0) return error;
    struct undofs_lines *lines = saves_lines();
    snprintf(cut, sizeof cut, "ftruncate 0 %llu\nclose 0\n", (unsigned long long)length);
    put_path_line(lines, "open", path, " 2");
    undofs_put_text(lines, cut);
    opened_note_write(opened_of(info), 1);
    const struct subject cut_to = {.path = path, .to = (uint64_t)length};
    return change_names(lines, &(struct change){&cut_to, touch_cut, apply_cut});
}

static int folder_fsync(const char *path, int only_data, struct fuse_file_info *info) {
    (void)path;
    (void)only_data;
    (void)info;
    return sync_now();
}

/* ---- times and modes, which make no version ---- */

/* Of the mode the owner's exec bit is kept. */
static int folder_chmod(const char *path, mode_t mode, struct fuse_file_info *info) {
    (void)info;
    if (is_own(path)) return -EROFS;
    mode_set(path, saves_serial(), (mode & S_IXUSR) != 0);
    return 0;
}

static int folder_chown(const char *path, uid_t owner, gid_t group, struct fuse_file_info *info) {
    (void)owner;
    (void)group;
    (void)info;
    return is_own(path) ? -EROFS : 0;
}

static int folder_utimens(const char *path, const struct timespec times[2], struct fuse_file_info *info) {
    (void)info;
    if (is_own(path)) return place_of(path).kind == CONTROL ? 0 : -EROFS;
    if (times[1].tv_nsec == UTIME_OMIT) return 0;
    if (times[1].tv_nsec == UTIME_NOW) time_touch(path, saves_serial());
    else time_set(path, saves_serial(), times[1]);
    return 0;
}

/* ---- the start and the end ---- */

static void *folder_init(struct fuse_conn_info *connection, struct fuse_config *config) {
    (void)connection;
    config->attr_timeout = config->entry_timeout = config->negative_timeout = 0; /* undo changes all behind the kernel's back */
    return NULL;
}

static void folder_destroy(void *data) {
    (void)data;
    saves.is_held = 0;
    int why = save_ends();
    if (why == 0) why = saves_sync_changes();
    if (why != 0) syslog(LOG_ERR, "the last changes are not on the part (%d)", why);
    else version_times_synced(1);
}

const struct fuse_operations folder_operations = {
    .getattr = folder_getattr,
    .readdir = folder_readdir,
    .statfs = folder_statfs,
    .mkdir = folder_mkdir,
    .rmdir = folder_rmdir,
    .unlink = folder_unlink,
    .rename = folder_rename,
    .mknod = folder_mknod,
    .link = folder_link,
    .symlink = folder_link,
    .create = folder_create,
    .open = folder_open,
    .flush = folder_flush,
    .release = folder_release,
    .read = folder_read,
    .write = folder_write,
    .truncate = folder_truncate,
    .fsync = folder_fsync,
    .fsyncdir = folder_fsync,
    .chmod = folder_chmod,
    .chown = folder_chown,
    .utimens = folder_utimens,
    .init = folder_init,
    .destroy = folder_destroy,
};
