#define _GNU_SOURCE
#include "fence.h"

#include <signal.h>
#include <stdio.h>
#include <stdlib.h>
#include <string.h>
#include <sys/mman.h>
#include <unistd.h>

static const char *watched = "";

static size_t page_size(void)
{
    return (size_t)sysconf(_SC_PAGESIZE);
}

static void need(int good, const char *what)
{
    if (!good) {
        perror(what);
        exit(2);
    }
}

struct fence fence_make(size_t bytes)
{
    const size_t page = page_size();
    struct fence fence;
    unsigned char *all;
    fence.room = (bytes + page - 1) / page * page;
    if (fence.room == 0)
        fence.room = page;
    all = mmap(NULL, fence.room + 2 * page, PROT_NONE, MAP_PRIVATE | MAP_ANONYMOUS, -1, 0);
    need(all != MAP_FAILED, "mmap");
    fence.first = all + page;
    fence_may_write(&fence);
    return fence;
}

void fence_free(struct fence fence)
{
    const size_t page = page_size();
    need(munmap(fence.first - page, fence.room + 2 * page) == 0, "munmap");
}

void *fence_place(const struct fence *fence, size_t bytes, enum fence_side side)
{
    if (bytes > fence->room) {
        fprintf(stderr, "fence: %zu bytes asked of a room of %zu\n", bytes, fence->room);
        exit(2);
    }
    return side == FENCE_LOW ? fence->first : fence->first + (fence->room - bytes);
}

void fence_only_read(const struct fence *fence)
{
    need(mprotect(fence->first, fence->room, PROT_READ) == 0, "mprotect");
}

void fence_may_write(const struct fence *fence)
{
    need(mprotect(fence->first, fence->room, PROT_READ | PROT_WRITE) == 0, "mprotect");
}

static void say(const char *text)
{
    if (write(STDERR_FILENO, text, strlen(text)) < 0)
        _exit(3);
}

/* Only calls that a signal handler may make. */
static void touched(int signal)
{
    (void)signal;
    say("\nFAILED: memory was touched that was not lent, or written that was lent to be read: ");
    say(watched);
    say("\n");
    _exit(1);
}

void fence_watch(const char *what)
{
    struct sigaction action;
    watched = what;
    memset(&action, 0, sizeof action);
    action.sa_handler = touched;
    sigemptyset(&action.sa_mask);
    need(sigaction(SIGSEGV, &action, NULL) == 0 && sigaction(SIGBUS, &action, NULL) == 0, "sigaction");
}
