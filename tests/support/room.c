#include "room.h"

#include <stdint.h>
#include <stdio.h>
#include <stdlib.h>
#include <string.h>

void *room_grown(void *old, size_t count, size_t size)
{
    const size_t some = count > 0 ? count : 1;
    void *const p = some > SIZE_MAX / size ? NULL : realloc(old, some * size);
    if (p == NULL) {
        fprintf(stderr, "out of memory: %zu times %zu bytes\n", some, size);
        exit(2);
    }
    return p;
}

void *room_for(size_t count, size_t size)
{
    return room_grown(NULL, count, size);
}

void *room_cleared(size_t count, size_t size)
{
    void *const p = room_grown(NULL, count, size);
    memset(p, 0, (count > 0 ? count : 1) * size);
    return p;
}
