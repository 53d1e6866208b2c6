/* How much of the stack a call uses. */
#ifndef STACK_H
#define STACK_H

#include <stddef.h>

/* The bytes of stack that run(data) uses, beyond what a thread uses that does nothing. */
size_t stack_used(void *(*run)(void *), void *data);

#endif
