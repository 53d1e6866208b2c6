/* Memory for the test programs: each call ends the program with a message where there is none. */
#ifndef ROOM_H
#define ROOM_H

#include <stddef.h>

/* Room for so many things of a size; its content is anything, zero, or what was in the old room (NULL: none). The
 * caller frees it. It is never NULL, also for no things at all. */
void *room_for(size_t count, size_t size);
void *room_cleared(size_t count, size_t size);
void *room_grown(void *old, size_t count, size_t size);

#endif
