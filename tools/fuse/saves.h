/* The versions of a folder: what one save changes is one group, so it is one version. */
#ifndef SAVES_H
#define SAVES_H

#include "../c/undofs_client.h"

struct saves {
    struct undofs *child;
    unsigned commit;     /* so many seconds after a change its group is ended and synced, unasked; 0 for never */
    unsigned settle;     /* a group ends after so many seconds in which nothing changed; 0: when the files written in it are closed */
    int forgets;         /* on a full flash old versions are forgotten */
    int is_durable;      /* each change that is done is a version and synced */
    size_t buffer;       /* so many bytes that a group was given are kept, to be sent again after old versions were forgotten */
    uint64_t groups;     /* how many were begun */
    int in_group, is_held; /* a group is open; it was begun by hand, */
    int is_unsynced;     /* and in it a sync is answered and waits for the end */
    uint64_t present, next, first; /* serials: of the present version, of the next one, of the first that is kept */
    uint32_t block;      /* bytes a block */
    double unsynced_since, changed_at; /* seconds; 0 for never */
    double unsynced_before; /* the same before the open group */
    int is_full;         /* a change was refused for want of room */
    int is_failed;       /* the part failed, or the child is gone: nothing changes any more */
};

extern struct saves saves;

/* Looks at the versions, at the start. */
int saves_start(void);
/* Emptied lines, to be filled and given. */
struct undofs_lines *saves_lines(void);
void put_path_line(struct undofs_lines *lines, const char *verb, const char *path, const char *rest);
/* Gives lines that only read. A number of docs/scripts.md or of the client, or 0. */
int saves_ask(const struct undofs_lines *lines);
/* Notes a refusal that ends all changes, and answers it. */
int saves_told(int why);
/* What a change is to the rest of the daemon. */
struct change {
    const void *with;
    void (*touch)(const void *with);                  /* before it is given: what it touches (touched.h) */
    void (*apply)(uint64_t serial, const void *with); /* once it is accepted: its times, in the version of the serial that it belongs to */
};
/* Gives lines that change the tree: in the group that is open, or, with no time to settle, as a version of their own. Bytes that were kept
 * are given with no change, since they were touched, and had room, when they were written. */
int saves_change(const struct undofs_lines *lines, const struct change *change);
/* Whether what was touched last has room; where old versions may be forgotten, some are. 0, or UNDOFS_ENOSPC. */
int saves_find_room(void);
/* The serial under which the present tree's times stand. */
uint64_t saves_serial(void);
/* Begins a group, where none is open; ends it as one version, but for one that was begun by hand. A group whose tree is that before it
 * makes none: its times go to the present version. */
int save_begins(void);
int save_ends(void);
/* Where the end was refused for want of room: the group is a version without the bytes that are kept; and the next one begins with these,
 * and ends, and is synced. Between the two versions may be forgotten. */
int save_ends_short(void);
int save_goes_on(void);
/* A change of names or of a length is done, or a file was closed: with `durable` the group ends, and all is synced. */
int save_is_done(void);
/* Gives up the group. */
int save_given_up(void);
int saves_sync(void);
/* Syncs where something is to be synced. */
int saves_sync_changes(void);
/* Something is to be synced from now on. */
void saves_note_change(void);
/* After a line that moved the present version or made one: looks where it stands. */
int saves_look(void);
/* The same; where a version was made, those that could be redone are gone. */
int saves_look_for_version(void);
/* Ends and syncs what is due, and tells in how many milliseconds something may be; -1 for never. While a request waits, that nothing
 * changed for a while is not seen. */
int saves_due(int is_waiting);
/* The errno for a refusal, below 0; 0 for none. */
int errno_of(int why);
double seconds_now(void);

#endif
