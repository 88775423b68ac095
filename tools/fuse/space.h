/* Blocks that are free, the reserve among them, and room that is made on a full flash. */
#ifndef SPACE_H
#define SPACE_H

#include "touched.h"

enum { SPACE_STEPS = 3, SPACE_USUAL = -1 };

/* The reserve of a flash of so many blocks; one below 0 is a 32nd of the data blocks, and 8 at least. */
void space_start(long reserve, uint32_t blocks);
uint64_t space_reserve(void);
/* Blocks may be free that were not before. */
void space_may_be_free(void);
/* Whether a change finds room, as far as is known: one that makes a file longer, or a new one, has to leave the reserve free, and one that
 * writes a file anew has to leave room to write it once more. */
int space_has_room(const struct touch *touch);
/* How many blocks more have to be free for that; 0 where it finds room. */
uint64_t space_lacks(const struct touch *touch);
/* How many blocks have to be free beside those of a change: for one that writes a file anew, as many. */
uint64_t space_twice(const struct touch *touch);
/* Whether so many blocks are free beside what was taken since that was last looked at; where they are not, it is looked at anew. */
int space_has(uint64_t blocks);
/* Outside a group: forgets the fewest old versions that leave so many blocks free, with some to spare, and what was lacking beside those that
 * are free now, or all of them; in the last step what could be redone as well. 0 where there was nothing to forget. */
int space_is_made(int step, uint64_t blocks, uint64_t lacking);

#endif
