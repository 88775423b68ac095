/* undofs on an image in memory, for a program on a host. crates/undofs_c has these functions.
 *
 * Each answers 0, or why nothing was done: then every buffer and length is as it was.
 *
 *   1 to 31    a format or a mount was refused: the numbers of docs/scripts.md; 25 is want of memory
 *   101        one of the first eight bytes is not that of an image
 *   102        the sizes in the image are not lawful
 *   103        a block or a page of the image has no known state
 *   104, 105   the image ends too early, or goes on after its last page
 *   110        the image is told to be longer than its buffer
 *   111, 112   the new image, or the replies, are longer than their buffer
 *   113        the script has too many lines to be counted
 *
 * No pointer is null, one of no bytes neither, and no two buffers or lengths of a call overlap. A call
 * keeps nothing: two threads may call at once, each with buffers of its own.
 */
#ifndef UNDOFS_H
#define UNDOFS_H

#include <stddef.h>
#include <stdint.h>

#ifdef __cplusplus
extern "C" {
#endif

/* Makes the image of a flash with an empty file system at the front of a buffer of `room` bytes: `page`
 * bytes a page, `pages` a block, `blocks` in all; `history` versions are kept, 2 to 128. `*length`
 * becomes how many bytes the image has. */
uint32_t undofs_format(uint32_t page, uint32_t pages, uint32_t blocks, uint32_t history, uint8_t *image,
                       size_t room, size_t *length);

/* Mounts an image of `length` bytes. */
uint32_t undofs_check(const uint8_t *image, size_t length);

/* Runs a script, of one line or more, on the image of `*length` bytes at the front of a buffer of `room`
 * bytes. The image that is left stands there then, and the replies, a line for each line of the script,
 * at the front of theirs; `*length` and `*replied` become how many bytes these have. What was not synced
 * is not found by the next script. A refused line is answered in the replies, and the call answers 0. */
uint32_t undofs_run(uint8_t *image, size_t room, size_t *length, const uint8_t *script, size_t script_length,
                    uint8_t *replies, size_t reply_room, size_t *replied);

#ifdef __cplusplus
}
#endif

#endif
