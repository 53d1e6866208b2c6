/* A thread runs on a painted stack; what is still paint in the end was not used. */
#define _GNU_SOURCE
#include "stack.h"

#include "fence.h"

#include <pthread.h>
#include <stdio.h>
#include <stdlib.h>
#include <string.h>

enum { ROOM = 1024 * 1024, PAINT = 0x5c };

static size_t touched(void *(*run)(void *), void *data)
{
    const struct fence stack = fence_make(ROOM);
    pthread_attr_t attributes;
    pthread_t thread;
    size_t unused = 0;
    memset(stack.first, PAINT, stack.room);
    if (pthread_attr_init(&attributes) != 0 || pthread_attr_setstack(&attributes, stack.first, stack.room) != 0 ||
        pthread_create(&thread, &attributes, run, data) != 0 || pthread_join(thread, NULL) != 0) {
        fputs("stack: no thread on a stack of its own\n", stderr);
        exit(2);
    }
    pthread_attr_destroy(&attributes);
    while (unused < stack.room && stack.first[unused] == PAINT)
        unused++;
    fence_free(stack);
    return stack.room - unused;
}

static void *nothing(void *data)
{
    return data;
}

size_t stack_used(void *(*run)(void *), void *data)
{
    const size_t bare = touched(nothing, NULL), used = touched(run, data);
    return used > bare ? used - bare : 0;
}
