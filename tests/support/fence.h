/* Memory between two unreadable pages: a touch outside of what is lent ends the program with a message. */
#ifndef FENCE_H
#define FENCE_H

#include <stddef.h>

struct fence {
    unsigned char *first; /* the first byte that may be touched */
    size_t room;          /* how many bytes may be touched: a whole number of pages */
};

enum fence_side { FENCE_LOW, FENCE_HIGH };

/* Room for so many bytes at least. Ends the program where there is no memory. */
struct fence fence_make(size_t bytes);
void fence_free(struct fence fence);

/* So many bytes of the room that begin right behind the unreadable page before it (low), or end right before the one
 * behind it (high). Also for no bytes at all: such a pointer is aligned, not null, and of no use. */
void *fence_place(const struct fence *fence, size_t bytes, enum fence_side side);

/* From here on a write into the room ends the program too; and again allowed. */
void fence_only_read(const struct fence *fence);
void fence_may_write(const struct fence *fence);

/* Prints this text where an unreadable page is touched; the text is kept by reference. */
void fence_watch(const char *what);

#endif
