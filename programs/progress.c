/* The library's calls have no way to report back, so a timer's signal writes while they run. */
#define _DEFAULT_SOURCE
#include "progress.h"

#include "common.h"

#include <signal.h>
#include <string.h>
#include <sys/time.h>
#include <unistd.h>

static const char *volatile call;
static volatile sig_atomic_t ticks;

static void say(const char *text)
{
    if (write(STDERR_FILENO, text, strlen(text)) < 0)
        return; /* a terminal that is gone is no reason to stop */
}

/* Only calls that a signal handler may make. */
static void tick(int signal)
{
    (void)signal;
    if (ticks == 0) {
        say(program_name);
        say(": ");
        say(call);
        say(" ");
    }
    ticks = 1;
    say(".");
}

static void set_timer(suseconds_t first, time_t then)
{
    const struct itimerval timer = {{then, 0}, {0, first}};
    setitimer(ITIMER_REAL, &timer, NULL);
}

void progress_begin(const char *what)
{
    struct sigaction action;
    if (!isatty(STDERR_FILENO))
        return;
    call = what;
    ticks = 0;
    memset(&action, 0, sizeof action);
    action.sa_handler = tick;
    action.sa_flags = SA_RESTART;
    sigemptyset(&action.sa_mask);
    if (sigaction(SIGALRM, &action, NULL) == 0)
        set_timer(500000, 1);
}

void progress_end(void)
{
    if (!isatty(STDERR_FILENO))
        return;
    set_timer(0, 0);
    if (ticks > 0)
        say("\n");
}
