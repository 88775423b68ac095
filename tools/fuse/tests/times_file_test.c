/* The file of times: what is read is what was written, and one that is damaged, of a later format, of another part, or newer than
 * the part is moved aside, with nothing read of it. It works in the folder that it is given. The status is 0 where all was right. */
#define _GNU_SOURCE
#include "../timeline.h"
#include "../times.h"
#include "../times_file.h"
#include <dirent.h>
#include <fcntl.h>
#include <stdio.h>
#include <stdlib.h>
#include <string.h>
#include <sys/stat.h>
#include <unistd.h>

static int wrong;

static void want(long long found, long long wanted, const char *what) {
    if (found == wanted) return;
    printf("%s: %lld in place of %lld\n", what, found, wanted);
    wrong = 1;
}

/* What brings the file to the disk, in order: F for the sync of a file, R for a rename, D for the sync of a folder. */
static char calls[16];

static void note_call(char call) {
    size_t length = strlen(calls);
    if (length + 1 < sizeof calls) calls[length] = call;
}

int __real_fsync(int file);
int __wrap_fsync(int file);
int __wrap_fsync(int file) {
    struct stat found;
    note_call(fstat(file, &found) == 0 && S_ISDIR(found.st_mode) ? 'D' : 'F');
    return __real_fsync(file);
}

int __real_rename(const char *from, const char *to);
int __wrap_rename(const char *from, const char *to);
int __wrap_rename(const char *from, const char *to) {
    note_call('R');
    return __real_rename(from, to);
}

static const struct times_head head = {"sixteen bytes..", 9, {5000, 7}};

static void fill(void) {
    times_clear();
    timeline_clear();
    time_made("/a", 2, 0);
    time_set("/a", 2, (struct timespec){100, 1});
    time_made("/run", 3, 1);
    time_set("/run", 3, (struct timespec){-5, 2});
    times_checkpoint("before", 3);
    time_written("/a", 4);
    time_set("/a", 4, (struct timespec){104, 0});
    time_gone("/run", 8);
    time_set("/open", 9, (struct timespec){109, 0}); /* of a group that is no version yet */
    timeline_made(2, (struct timespec){50, 0});
    timeline_made(3, (struct timespec){60, 0});
    timeline_leapt(2, (struct timespec){70, 0});
    timeline_unknown((struct timespec){80, 0});
}

static void forget(void) {
    times_clear();
    timeline_clear();
}

static struct times_head part_of(uint64_t next) {
    struct times_head part = head;
    part.next = next;
    return part;
}

static void want_nothing(const char *what) {
    want((long long)times_count(), 0, what);
    want((long long)timeline_count(), 0, what);
}

static void round_trip(void) {
    struct times_head part = part_of(12);
    fill();
    memset(calls, 0, sizeof calls);
    want(times_file_write(&head), 0, "written");
    want(strcmp(calls, "FRD"), 0, "the file is synced, renamed, and its folder is synced");
    long long changed = shown_at("/a", 4).time.tv_sec;
    forget();
    want_nothing("after a clear");
    want(times_file_read(&part), 1, "read");
    want((long long)part.next, 9, "its next version");
    want(part.written.tv_sec, 5000, "when it was written");
    want(shown_at("/a", 3).time.tv_sec, 100, "a time");
    want(shown_at("/a", 3).time.tv_nsec, 1, "its nanoseconds");
    want(shown_at("/a", 3).is_executable, 0, "a mode");
    want(shown_at("/a", 4).time.tv_sec, changed, "a later time");
    want(shown_at("/run", 7).is_executable, 1, "an exec bit");
    want(shown_at("/run", 7).time.tv_sec, -5, "a time before 1970");
    want(shown_at("/run", 8).time.tv_sec, times_born().tv_sec, "of one that is gone");
    want(shown_at("/open", 9).time.tv_sec, times_born().tv_sec, "of an open group");
    want(shown_in("/a", "before").time.tv_sec, 100, "in a checkpoint");
    want(shown_in("/open", "before").is_executable, 1, "one that the checkpoint does not know");
    want((long long)timeline_present_at((struct timespec){65, 0}), 3, "a moment");
    want((long long)timeline_present_at((struct timespec){75, 0}), 2, "a leap");
    want((long long)timeline_present_at((struct timespec){85, 0}), 0, "an unknown one");
}

static int count_of(const char *folder, const char *part_of_name) {
    DIR *all = opendir(folder);
    int found = 0;
    for (struct dirent *one; all != NULL && (one = readdir(all)) != NULL;) found += strstr(one->d_name, part_of_name) != NULL;
    if (all != NULL) closedir(all);
    return found;
}

static void empty(const char *folder) {
    DIR *all = opendir(folder);
    char path[600];
    for (struct dirent *one; all != NULL && (one = readdir(all)) != NULL;) {
        snprintf(path, sizeof path, "%s/%s", folder, one->d_name);
        (void)unlink(path);
    }
    if (all != NULL) closedir(all);
}

/* A file that is not right is not read, and is moved aside. */
static void want_refused(const char *folder, struct times_head part, const char *what) {
    forget();
    want(times_file_read(&part), 0, what);
    want_nothing(what);
    want(count_of(folder, "part.times."), 1, what);
    want(count_of(folder, "part.times"), 1, what);
    empty(folder);
}

static void write_anew(void) {
    fill();
    want(times_file_write(&head), 0, "written");
}

static void change_byte(const char *folder, long at, int more) {
    char path[600];
    uint8_t byte = 0;
    snprintf(path, sizeof path, "%s/part.times", folder);
    int file = open(path, O_RDWR);
    struct stat found;
    if (file < 0 || fstat(file, &found) != 0) abort();
    off_t place = at < 0 ? found.st_size + at : at;
    if (pread(file, &byte, 1, place) != 1) abort();
    byte = (uint8_t)(byte + more);
    if (pwrite(file, &byte, 1, place) != 1) abort();
    close(file);
}

static void cut_file(const char *folder, long less) {
    char path[600];
    struct stat found;
    snprintf(path, sizeof path, "%s/part.times", folder);
    if (stat(path, &found) != 0 || truncate(path, found.st_size - less) != 0) abort();
}

static void refuse(const char *folder) {
    struct times_head other = head;
    other.identity[3] ^= 1;
    empty(folder);
    write_anew();
    want_refused(folder, part_of(8), "newer than the part");
    write_anew();
    want_refused(folder, other, "of another part");
    static const long places[] = {0, 11, 20, 30, 45, 60, 100, -30, -5, -1};
    for (size_t i = 0; i < sizeof places / sizeof *places; i++) {
        write_anew();
        change_byte(folder, places[i], 1);
        want_refused(folder, part_of(12), "a byte changed");
    }
    for (long less = 1; less < 200; less += 7) {
        write_anew();
        cut_file(folder, less);
        want_refused(folder, part_of(12), "too short");
    }
    struct times_head part = part_of(12);
    forget();
    want(times_file_read(&part), 0, "none there");
    want(count_of(folder, "part"), 0, "nothing is made by a read");
}

/* Puts the sum that is right at the end of bytes. */
static void put_sum(uint8_t *bytes, size_t length) {
    uint32_t sum = ~0u;
    for (size_t i = 0; i < length - 4; i++) {
        sum ^= bytes[i];
        for (int bit = 0; bit < 8; bit++) sum = sum >> 1 ^ (0xedb88320u & (0u - (sum & 1u)));
    }
    for (int i = 0; i < 4; i++) bytes[length - 4 + (size_t)i] = (uint8_t)(~sum >> 8 * i);
}

static void tell_verdicts(void) {
    size_t length;
    fill();
    uint8_t *bytes = put_times(&head, &length);
    struct times_head part = part_of(9), other = part_of(9);
    if (bytes == NULL) abort();
    other.identity[15] ^= 1;
    forget();
    want(take_times(&part, bytes, length), TIMES_RIGHT, "as old as the part");
    forget();
    want(take_times(&other, bytes, length), TIMES_FOREIGN, "of another part");
    part = part_of(8);
    want(take_times(&part, bytes, length), TIMES_NEWER, "newer than the part");
    bytes[8]++;
    want(take_times(&part, bytes, length), TIMES_DAMAGED, "with a sum that is not right");
    put_sum(bytes, length);
    want(take_times(&part, bytes, length), TIMES_LATER, "of a later format");
    want(take_times(&part, bytes, 11), TIMES_DAMAGED, "a few bytes");
    want_nothing("verdicts");
    free(bytes);
}

/* Bytes of any kind, with a sum that is right: they are read or refused, and no byte beside them is. */
static void refuse_any_bytes(void) {
    size_t length;
    unsigned seed = 1;
    int read = 0;
    fill();
    uint8_t *right = put_times(&head, &length);
    for (int turn = 0; turn < 20000; turn++) {
        uint8_t *bytes = malloc(length);
        if (bytes == NULL || right == NULL) abort();
        memcpy(bytes, right, length);
        for (int changes = 0; changes < 3; changes++) bytes[36 + (size_t)rand_r(&seed) % (length - 40)] = (uint8_t)rand_r(&seed);
        put_sum(bytes, length);
        struct times_head part = part_of(12);
        forget();
        enum times_verdict verdict = take_times(&part, bytes, length);
        if (verdict != TIMES_RIGHT) want_nothing("refused bytes");
        read += verdict == TIMES_RIGHT;
        free(bytes);
    }
    free(right);
    want(read > 100 && read < 19900, 1, "some are read and some are refused");
}

int main(int count, char **words) {
    char part[500];
    if (count != 2) return 2;
    times_start();
    snprintf(part, sizeof part, "%s/part", words[1]);
    want(times_file_is_named(), 0, "no name at the start");
    want(times_file_name(part, NULL), 0, "named");
    round_trip();
    refuse(words[1]);
    tell_verdicts();
    refuse_any_bytes();
    want(times_file_name("/dev/mtd3", words[1]), 0, "in a folder");
    want(times_file_write(&head), 0, "written there");
    want(count_of(words[1], "mtd3.times"), 1, "its name");
    want(times_file_name("/none/part", NULL), 0, "in no folder");
    want(times_file_write(&head) != 0, 1, "not written there");
    empty(words[1]);
    forget();
    return wrong;
}
