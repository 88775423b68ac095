/* What undofs asks of C inside of a C program, and the one function that C calls: those of crates/c_flash and of
 * crates/undofs_in_process. in_process.c and service.c define the ten over a driver of undofs_client.h. Who defines them anew has to
 * keep what stands here, for undofs is proved to be right by it and looks at nothing again.
 *
 * A handle is a number that C chooses, as the address of what it knows of a part. Each handle is opened once, and no two
 * live handles are over the same medium. Nothing but the handle's functions changes the part, which one thread calls at a
 * time. Each function returns; none leaves by longjmp or an exception, and none calls undofs_serve on the same handle.
 *
 * Before each call this is proved: the page or the block is within the sizes that c_flash_open told; `count` is that of the
 * bytes of one page; a page that is programmed was shown as erased, and was not programmed since. */
#ifndef C_FLASH_H
#define C_FLASH_H

#include <stddef.h>
#include <stdint.h>

/* A part. Only c_flash_open makes one, and C writes no field of it and keeps no pointer to it: it is moved. */
struct c_flash {
    size_t handle;
    uint32_t page, pages, blocks;
};

/* The requests of a part. */
struct c_requests {
    size_t handle;
};

/* The next one: whether it is there, and how many bytes its line and its data have. */
struct c_request {
    uint32_t is_there;
    size_t line, data;
};

enum { C_REQUESTS_WORDS = 0, C_REQUESTS_BYTES = 1 };

enum { C_FLASH_DONE = 0, C_FLASH_FAILED = 1, C_FLASH_CUT = 2 };
enum { C_FLASH_ERASED = 0, C_FLASH_DATA = 1, C_FLASH_UNREADABLE = 2, C_FLASH_READ_FAILED = 3, C_FLASH_READ_CUT = 4 };

/* ---- C defines these ---- */

/* The sizes of the part: bytes of a page, pages of a block, blocks. For a handle that is open already: no blocks, so that no file
 * system is made or mounted on it. */
struct c_flash c_flash_open(size_t handle);

/* Tells what a page holds, and puts its bytes into the buffer where that is DATA; else the buffer is not touched. A page shows the
 * same each time until it is programmed or erased: a driver that may err has to be held to that, as shown_pages.c does. FAILED: the
 * page could not be read now, and nothing changed. */
uint32_t c_flash_read(struct c_flash *part, uint32_t page, uint8_t *bytes, size_t count);

/* Programs a page. DONE: it has the bytes. FAILED: it is unreadable until its block is erased, whatever the medium shows. CUT: power
 * went; the page is as it was, has the bytes, or is unreadable. No other page changes. */
uint32_t c_flash_program(struct c_flash *part, uint32_t page, const uint8_t *bytes, size_t count);

/* Erases a block. DONE: its pages are erased. FAILED or CUT: each of them is as it was, erased, or unreadable. No other page changes. */
uint32_t c_flash_erase(struct c_flash *part, uint32_t block);

/* Power is on again. From a CUT until this each of the three above answers CUT, does nothing and touches no buffer. From here on each
 * page of the operation in which power went shows one of what it may be, and always the same. */
void c_flash_power_on(struct c_flash *part);

/* The requests of the handle, from the first. */
struct c_requests c_requests_open(size_t handle);

/* Tells of the next request, which stays the next one; `is_there` is 0 at the end alone, which has to come some time. While there is
 * none yet it waits. A request is a line of docs/scripts.md, with no LF; where it has data, those bytes stand in the place of the data
 * that the line has, as in `pwrite 0 4096 -`. */
struct c_request c_requests_next(struct c_requests *requests);

/* Takes the next request. The counts are those that were told. */
void c_requests_take(struct c_requests *requests, uint8_t *line, size_t line_count, uint8_t *data, size_t data_count);

/* Leaves the next request out: there was no memory for it. It is answered all the same. */
void c_requests_skip(struct c_requests *requests);

/* Takes the reply to the request that was taken or left out last: WORDS, a line with its LF; BYTES, those of a file that was read. */
void c_requests_answer(struct c_requests *requests, uint32_t form, const uint8_t *bytes, size_t count);

/* ---- the library defines this ---- */

/* Serves the part of a handle: with a history that is not 0 makes an empty file system on it, mounts it, and carries out the lines.
 * It returns when the requests are at their end, 0; or 1 to 31 (docs/scripts.md) where no file system was made or is mounted, or there
 * was no memory; else 101. It may be called for several handles at once, also in several threads. */
uint32_t undofs_serve(size_t handle, uint32_t history);

#endif
