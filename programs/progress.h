/* Shows on a terminal that a long call is at work: a line that begins after half a second and gains a dot a second. */
#ifndef PROGRESS_H
#define PROGRESS_H

/* Begins and ends the showing of one call. Nothing is written where standard error is no terminal. The text is kept
 * by reference. */
void progress_begin(const char *what);
void progress_end(void);

#endif
