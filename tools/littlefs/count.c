/* Counts what littlefs asks of a flash in memory in five loads, each call of them made durable.
 *
 *   apt-get source micropython           (1.25.0 of Debian 13, which has littlefs 2.8)
 *   LFS=micropython-1.25.0/lib/littlefs
 *   cc -O2 -I $LFS -o count tools/littlefs/count.c $LFS/lfs2.c $LFS/lfs2_util.c && ./count > tools/littlefs/counts
 *
 * A page has 256 bytes, a block 4,096, and there are 2,048 blocks, as in crates/operations. A line has the load, the
 * calls, and on the average of each the pages that were programmed and the blocks that were erased. What puts the
 * flash back before the next call is not counted. docs/speed.md has these figures beside those of undofs.
 */
#include <stdio.h>
#include <stdlib.h>
#include <string.h>

#include "lfs2.h"

enum { PAGE = 256, BLOCK = 4096, BLOCKS = 2048 };

static unsigned char flash[BLOCKS][BLOCK];
static unsigned long programs, erases;

static int read_part(const struct lfs2_config *c, lfs2_block_t block, lfs2_off_t place, void *buffer, lfs2_size_t size)
{
    (void)c;
    memcpy(buffer, &flash[block][place], size);
    return 0;
}

static int program_part(const struct lfs2_config *c, lfs2_block_t block, lfs2_off_t place, const void *buffer, lfs2_size_t size)
{
    (void)c;
    memcpy(&flash[block][place], buffer, size);
    programs += size / PAGE;
    return 0;
}

static int erase_block(const struct lfs2_config *c, lfs2_block_t block)
{
    (void)c;
    memset(flash[block], 0xff, BLOCK);
    erases++;
    return 0;
}

static int sync_part(const struct lfs2_config *c)
{
    (void)c;
    return 0;
}

static const struct lfs2_config config = {
    .read = read_part, .prog = program_part, .erase = erase_block, .sync = sync_part,
    .read_size = PAGE, .prog_size = PAGE, .block_size = BLOCK, .block_count = BLOCKS,
    .block_cycles = 500, .cache_size = PAGE, .lookahead_size = BLOCKS / 8,
};
static lfs2_t files;

static void must(int answer)
{
    if (answer < 0) {
        fprintf(stderr, "refused: %d\n", answer);
        exit(1);
    }
}

/* Writes so many bytes at a place of a file, from its end on with a place below 0, and closes it. */
static void write_at(const char *path, long place, size_t size)
{
    static unsigned char bytes[1 << 20];
    lfs2_file_t file;
    memset(bytes, 'A', sizeof bytes);
    must(lfs2_file_open(&files, &file, path, LFS2_O_WRONLY | LFS2_O_CREAT));
    must((int)lfs2_file_seek(&files, &file, place < 0 ? 0 : (lfs2_soff_t)place, place < 0 ? LFS2_SEEK_END : LFS2_SEEK_SET));
    must((int)lfs2_file_write(&files, &file, bytes, (lfs2_size_t)size));
    must(lfs2_file_close(&files, &file));
}

static void new_file(void) { write_at("/a/f", 0, 1000); }
static void byte_at_end(void) { write_at("/f", -1, 1); }
static void byte_in_middle(void) { write_at("/f", 524288, 1); }
static void directory_at_depth_4(void) { must(lfs2_mkdir(&files, "/a/a/a/a")); }
static void directory_among_many(void) { must(lfs2_mkdir(&files, "/a")); }
static void remove_file(void) { must(lfs2_remove(&files, "/a/f")); }
static void remove_at_depth_4(void) { must(lfs2_remove(&files, "/a/a/a/a")); }
static void remove_among_many(void) { must(lfs2_remove(&files, "/a")); }
static void nothing(void) { }
static void one_directory(void) { must(lfs2_mkdir(&files, "/a")); }
static void large_file(void) { write_at("/f", 0, 1 << 20); }

static void three_directories(void)
{
    must(lfs2_mkdir(&files, "/a"));
    must(lfs2_mkdir(&files, "/a/a"));
    must(lfs2_mkdir(&files, "/a/a/a"));
}

/* Empty files, since 1,000 directories would take all blocks: two each. */
static void thousand_files(void)
{
    char path[16];
    for (int number = 1000; number < 2000; number++) {
        snprintf(path, sizeof path, "/%d", number);
        write_at(path, 0, 0);
    }
}

/* Makes a file system, calls what comes before, and then the call so many times. */
static void count(const char *name, int calls, void (*before)(void), void (*call)(void), void (*after)(void))
{
    unsigned long made_programs = 0, made_erases = 0;
    must(lfs2_format(&files, &config));
    must(lfs2_mount(&files, &config));
    before();
    for (int number = 0; number < calls; number++) {
        unsigned long programs_before = programs, erases_before = erases;
        call();
        made_programs += programs - programs_before;
        made_erases += erases - erases_before;
        after();
    }
    must(lfs2_unmount(&files));
    printf("%-46s%6d%10.2f%10.2f\n", name, calls, (double)made_programs / calls, (double)made_erases / calls);
}

int main(void)
{
    printf("call                                           calls  programs    erases\n");
    count("write of a new file, 1,000 bytes, depth 2", 1000, one_directory, new_file, remove_file);
    count("pwrite of a byte at the end of 1 MiB", 1000, large_file, byte_at_end, nothing);
    count("pwrite of a byte in the middle of 1 MiB", 100, large_file, byte_in_middle, nothing);
    count("mkdir at depth 4", 1000, three_directories, directory_at_depth_4, remove_at_depth_4);
    count("mkdir in a directory of 1,000 entries", 1000, thousand_files, directory_among_many, remove_among_many);
    return 0;
}
