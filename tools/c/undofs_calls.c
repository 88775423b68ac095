/* Each call as a line and its reply, the words of lines, and replies. */
#define _GNU_SOURCE
#include "undofs_wire.h"
#include <stdarg.h>
#include <stdio.h>
#include <stdlib.h>
#include <string.h>

int undofs_are_lawful(const struct undofs_sizes *s) {
    uint64_t block = (uint64_t)s->page * s->pages;
    int is_page = s->page == 256 || s->page == 512 || s->page == 1024 || s->page == 2048 || s->page == 4096;
    return is_page && block >= 4096 && block <= 262144 && s->blocks >= 16 && s->blocks <= 16384 && block * s->blocks <= 67108864;
}

/* ---- bytes of files ---- */

enum { MOST_DIGITS = 32748, MOST_BYTES = 262144 };

size_t undofs_most_data(void) { return undofs_takes_bytes ? MOST_BYTES : MOST_DIGITS; }

size_t undofs_spelled(size_t count) { return undofs_takes_bytes ? count : 2 * count; }

int undofs_fits(size_t words, size_t count) {
    return undofs_takes_bytes ? words < UNDOFS_LINE && count <= MOST_BYTES : words + 2 * count < UNDOFS_LINE;
}

size_t undofs_count_at(const char *nul) {
    size_t count;
    memcpy(&count, nul + 1, sizeof count);
    return count;
}

/* ---- words of lines ---- */

static char *room_for(struct undofs_lines *lines, size_t more) {
    if (lines->failed) return NULL;
    if (lines->room - lines->length < more) {
        size_t room = 2 * (lines->length + more);
        char *text = realloc(lines->text, room);
        if (text == NULL) {
            lines->failed = 1;
            return NULL;
        }
        lines->text = text;
        lines->room = room;
    }
    return lines->text + lines->length;
}

void undofs_put_text(struct undofs_lines *lines, const char *text) {
    size_t length = strlen(text);
    char *to = room_for(lines, length);
    if (to == NULL) return;
    memcpy(to, text, length);
    lines->length += length;
}

void undofs_put_number(struct undofs_lines *lines, uint64_t number) {
    char digits[24];
    snprintf(digits, sizeof digits, "%llu", (unsigned long long)number);
    undofs_put_text(lines, digits);
}

static const char digits_of[] = "0123456789ABCDEF";

void undofs_put_word(struct undofs_lines *lines, const char *word) {
    char *to = room_for(lines, 3 * strlen(word) + 1);
    if (to == NULL) return;
    char *at = to;
    if (*word == 0) *at++ = '-';
    int is_dash = word[0] == '-' && word[1] == 0; /* "-" alone is the empty word */
    for (const unsigned char *byte = (const unsigned char *)word; *byte != 0; byte++) {
        if (*byte > 0x20 && *byte < 0x7f && *byte != '%' && !is_dash) {
            *at++ = (char)*byte;
        } else {
            *at++ = '%';
            *at++ = digits_of[*byte >> 4];
            *at++ = digits_of[*byte & 15];
        }
    }
    lines->length += (size_t)(at - to);
}

/* The two digits of each byte. */
#define PAIRS(d) d "0" d "1" d "2" d "3" d "4" d "5" d "6" d "7" d "8" d "9" d "A" d "B" d "C" d "D" d "E" d "F"
static const char digit_pairs[] = PAIRS("0") PAIRS("1") PAIRS("2") PAIRS("3") PAIRS("4") PAIRS("5") PAIRS("6") PAIRS("7")
    PAIRS("8") PAIRS("9") PAIRS("A") PAIRS("B") PAIRS("C") PAIRS("D") PAIRS("E") PAIRS("F");

static void put_bytes(struct undofs_lines *lines, const uint8_t *bytes, size_t count) {
    char *at = room_for(lines, UNDOFS_BYTES_HEAD + count);
    if (at == NULL) return;
    *at = 0;
    memcpy(at + 1, &count, sizeof count);
    memcpy(at + UNDOFS_BYTES_HEAD, bytes, count);
    lines->length += UNDOFS_BYTES_HEAD + count;
}

static void put_digits(struct undofs_lines *lines, const uint8_t *bytes, size_t count) {
    char *at = room_for(lines, 2 * count);
    if (at == NULL) return;
    lines->length += 2 * count;
    for (size_t i = 0; i < count; i++, at += 2) memcpy(at, digit_pairs + 2 * (size_t)bytes[i], 2);
}

void undofs_put_data(struct undofs_lines *lines, const uint8_t *bytes, size_t count) {
    if (count == 0) undofs_put_text(lines, "-");
    else if (undofs_takes_bytes) put_bytes(lines, bytes, count);
    else put_digits(lines, bytes, count);
}

void undofs_put_end(struct undofs_lines *lines) { undofs_put_text(lines, "\n"); }

/* ---- replies ---- */

int undofs_has_room(struct undofs_replies *replies, size_t more) {
    if (replies->room - replies->length >= more) return 1;
    size_t room = 2 * (replies->length + more);
    char *text = realloc(replies->text, room);
    if (text == NULL) return 0;
    replies->text = text;
    replies->room = room;
    return 1;
}

static int refusal_of(const char *reply) {
    if (strcmp(reply, "unmounted") == 0) return UNDOFS_UNMOUNTED;
    if (strncmp(reply, "err ", 4) != 0) return 0;
    const char *number = strrchr(reply, ' ');
    unsigned long why = strtoul(number, NULL, 10);
    return why == 0 ? UNDOFS_SYNTAX : (int)why;
}

const char *undofs_end_of_reply(const char *reply) {
    const char *nul = reply + strlen(reply);
    return strcmp(reply, "data ") == 0 ? nul + UNDOFS_BYTES_HEAD + undofs_count_at(nul) : nul + 1;
}

int undofs_is_same_reply(const char *one, const char *other) {
    size_t count = (size_t)(undofs_end_of_reply(one) - one);
    return count == (size_t)(undofs_end_of_reply(other) - other) && memcmp(one, other, count) == 0;
}

int undofs_first_refusal(const struct undofs_replies *replies, size_t count) {
    const char *reply = replies->text;
    for (size_t i = 0; i < count; i++, reply = undofs_end_of_reply(reply)) {
        int why = refusal_of(reply);
        if (why != 0) return why;
    }
    return 0;
}

char *undofs_reply_of(struct undofs_replies *replies, size_t index) {
    static char none[1];
    size_t at = 0;
    for (; index > 0 && at < replies->length; index--) at = (size_t)(undofs_end_of_reply(replies->text + at) - replies->text);
    return at < replies->length ? replies->text + at : none;
}

/* ---- words of replies ---- */

static unsigned digit_of(char digit) {
    if (digit <= '9') return (unsigned)(digit - '0');
    return (unsigned)((digit | 0x20) - 'a') + 10;
}

/* The value of each digit of a reply. */
static const uint8_t digit_values[256] = {['1'] = 1, ['2'] = 2, ['3'] = 3, ['4'] = 4, ['5'] = 5, ['6'] = 6, ['7'] = 7, ['8'] = 8, ['9'] = 9,
    ['A'] = 10, ['B'] = 11, ['C'] = 12, ['D'] = 13, ['E'] = 14, ['F'] = 15, ['a'] = 10, ['b'] = 11, ['c'] = 12, ['d'] = 13, ['e'] = 14, ['f'] = 15};

static size_t take_bytes(const char *nul, uint8_t *bytes, size_t count) {
    size_t had = undofs_count_at(nul), taken = had < count ? had : count;
    memcpy(bytes, nul + UNDOFS_BYTES_HEAD, taken);
    return taken;
}

size_t undofs_take_data(const char *reply, uint8_t *bytes, size_t count) {
    if (strncmp(reply, "data ", 5) != 0 || reply[5] == '-') return 0;
    if (reply[5] == 0) return take_bytes(reply + 5, bytes, count);
    const uint8_t *at = (const uint8_t *)reply + 5;
    size_t had = strlen(reply + 5) / 2, taken = had < count ? had : count;
    for (size_t i = 0; i < taken; i++) bytes[i] = (uint8_t)(digit_values[at[2 * i]] << 4 | digit_values[at[2 * i + 1]]);
    return taken;
}

void undofs_take_word(char *word) {
    char *to = word;
    for (const char *at = word; *at != 0; at++) {
        if (*at == '%' && at[1] != 0 && at[2] != 0) {
            *to++ = (char)(digit_of(at[1]) << 4 | digit_of(at[2]));
            at += 2;
        } else {
            *to++ = *at;
        }
    }
    *to = 0;
}

/* ---- calls ---- */

/* Puts a line together and gives it: `p` a path or a name, `n` a number as uint64_t, `v` a view, which may be null. */
static int ask(struct undofs *u, const char *verb, const char *kinds, ...) {
    struct undofs_lines *line = undofs_line(u);
    va_list words;
    undofs_put_text(line, verb);
    va_start(words, kinds);
    for (; *kinds != 0; kinds++) {
        const char *word = *kinds == 'n' ? NULL : va_arg(words, const char *);
        if (*kinds != 'v' || word != NULL) undofs_put_text(line, " ");
        if (*kinds == 'n') undofs_put_number(line, va_arg(words, uint64_t));
        if (word != NULL) undofs_put_word(line, word);
    }
    va_end(words);
    undofs_put_end(line);
    return undofs_exchange(u, line);
}

/* The number after the first word of the reply. */
static uint64_t number_told(struct undofs *u) {
    const char *number = strchr(undofs_reply(u, 0), ' ');
    return number == NULL ? 0 : strtoull(number, NULL, 10);
}

int undofs_open(struct undofs *u, const char *path, unsigned flags, uint32_t *file) {
    int why = ask(u, "open", "pn", path, (uint64_t)flags);
    if (why == 0) *file = (uint32_t)number_told(u);
    return why;
}

int undofs_close(struct undofs *u, uint32_t file) { return ask(u, "close", "n", (uint64_t)file); }

int undofs_pread(struct undofs *u, uint32_t file, uint64_t offset, uint8_t *bytes, size_t count, size_t *got) {
    int why = ask(u, "pread", "nnn", (uint64_t)file, offset, (uint64_t)count);
    if (why == 0) *got = undofs_take_data(undofs_reply(u, 0), bytes, count);
    return why;
}

static size_t lower(size_t one, size_t other) { return one < other ? one : other; }

/* Adds the lines that write bytes to an open file. */
static void put_writes(struct undofs_lines *lines, uint32_t file, uint64_t offset, const uint8_t *bytes, size_t count) {
    for (size_t done = 0; done < count || done == 0;) {
        size_t now = lower(count - done, undofs_most_data());
        undofs_put_text(lines, "pwrite ");
        undofs_put_number(lines, file);
        undofs_put_text(lines, " ");
        undofs_put_number(lines, offset + done);
        undofs_put_text(lines, " ");
        undofs_put_data(lines, bytes + done, now);
        undofs_put_end(lines);
        done += now;
        if (now == 0) return;
    }
}

int undofs_pwrite(struct undofs *u, uint32_t file, uint64_t offset, const uint8_t *bytes, size_t count) {
    struct undofs_lines *lines = undofs_line(u);
    put_writes(lines, file, offset, bytes, count);
    return undofs_exchange(u, lines);
}

int undofs_ftruncate(struct undofs *u, uint32_t file, uint64_t length) { return ask(u, "ftruncate", "nn", (uint64_t)file, length); }

int undofs_fsync(struct undofs *u, uint32_t file) { return ask(u, "fsync", "n", (uint64_t)file); }

int undofs_read_file(struct undofs *u, const char *path, const char *view, uint64_t offset, uint8_t *bytes, size_t count, size_t *got) {
    int why = ask(u, "read", "pnnv", path, offset, (uint64_t)count, view);
    if (why == 0) *got = undofs_take_data(undofs_reply(u, 0), bytes, count);
    return why;
}

/* Empties the file and writes it piece by piece. */
static int write_pieces(struct undofs *u, const char *path, const uint8_t *bytes, size_t count) {
    uint32_t file;
    int why = undofs_open(u, path, UNDOFS_WRITE | UNDOFS_CREAT | UNDOFS_TRUNC, &file);
    if (why != 0) return why;
    for (size_t done = 0, now; done < count && why == 0; done += now) {
        now = lower(count - done, undofs_most_data());
        why = undofs_pwrite(u, file, done, bytes + done, now);
    }
    int closed = undofs_close(u, file);
    return why != 0 ? why : closed;
}

int undofs_write_file(struct undofs *u, const char *path, const uint8_t *bytes, size_t count) {
    struct undofs_lines *line = undofs_line(u);
    undofs_put_text(line, "write ");
    undofs_put_word(line, path);
    undofs_put_text(line, " ");
    if (line->failed || undofs_fits(line->length, count)) {
        undofs_put_data(line, bytes, count);
        undofs_put_end(line);
        return undofs_exchange(u, line);
    }
    int begun = undofs_begin(u);
    if (begun != 0 && begun != UNDOFS_INGROUP) return begun;
    int why = write_pieces(u, path, bytes, count);
    if (begun != 0) return why;
    int ended = why == 0 ? undofs_end_group(u) : undofs_abandon(u);
    return why != 0 ? why : ended;
}

int undofs_mkdir(struct undofs *u, const char *path) { return ask(u, "mkdir", "p", path); }
int undofs_rmdir(struct undofs *u, const char *path) { return ask(u, "rmdir", "p", path); }
int undofs_unlink(struct undofs *u, const char *path) { return ask(u, "unlink", "p", path); }
int undofs_rename(struct undofs *u, const char *old_path, const char *new_path) { return ask(u, "rename", "pp", old_path, new_path); }

int undofs_stat(struct undofs *u, const char *path, const char *view, struct undofs_stat *found) {
    int why = ask(u, "stat", "pv", path, view);
    if (why != 0) return why;
    found->is_directory = undofs_reply(u, 0)[0] == 'd';
    found->length = number_told(u);
    return 0;
}

int undofs_list(struct undofs *u, const char *path, const char *view, void (*each)(void *with, const char *name, int is_directory), void *with) {
    int why = ask(u, "ls", "pv", path, view);
    if (why != 0) return why;
    char *rest = undofs_reply(u, 0), *name;
    for (int word = 0; (name = strsep(&rest, " ")) != NULL; word++) {
        if (word < 2) continue; /* "entries" and their number */
        size_t length = strlen(name);
        int is_directory = length > 0 && name[length - 1] == '/';
        if (is_directory) name[length - 1] = 0;
        undofs_take_word(name);
        each(with, name, is_directory);
    }
    return 0;
}

int undofs_sync(struct undofs *u) { return ask(u, "sync", ""); }
int undofs_begin(struct undofs *u) { return ask(u, "begin", ""); }
int undofs_end_group(struct undofs *u) { return ask(u, "end", ""); }
int undofs_abandon(struct undofs *u) { return ask(u, "abandon", ""); }
int undofs_undo(struct undofs *u) { return ask(u, "undo", ""); }
int undofs_redo(struct undofs *u) { return ask(u, "redo", ""); }
int undofs_goto(struct undofs *u, uint64_t serial) { return ask(u, "goto", "n", serial); }
int undofs_checkpoint(struct undofs *u, const char *name) { return ask(u, "checkpoint", "p", name); }
int undofs_rmcheckpoint(struct undofs *u, const char *name) { return ask(u, "rmcheckpoint", "p", name); }
int undofs_rollback(struct undofs *u, const char *name) { return ask(u, "rollback", "p", name); }
int undofs_forget(struct undofs *u, uint64_t count) { return ask(u, "forget", "n", count); }
int undofs_restart(struct undofs *u) { return ask(u, "restart", ""); }

int undofs_reclaim(struct undofs *u, uint32_t budget, int *more) {
    int why = ask(u, "reclaim", "n", (uint64_t)budget);
    if (why == 0) *more = strcmp(undofs_reply(u, 0), "more") == 0;
    return why;
}

int undofs_df(struct undofs *u, struct undofs_space *space) {
    int why = ask(u, "df", "");
    if (why != 0) return why;
    unsigned long long data = 0, bad = 0, left = 0, anchors = 0;
    if (sscanf(undofs_reply(u, 0), "df data %llu bad %llu free %llu anchors %llu", &data, &bad, &left, &anchors) != 4) return UNDOFS_SYNTAX;
    *space = (struct undofs_space){data, bad, left, anchors};
    return 0;
}

int undofs_log(struct undofs *u, const char **reply) {
    int why = ask(u, "log", "");
    *reply = undofs_reply(u, 0);
    return why;
}
