/* What the tests know of the library's requests for memory, and of the mock's. The runner gives these the names in hooks.c. */
#ifndef KEHLDORA_HOOKS_H
#define KEHLDORA_HOOKS_H

#include <stdint.h>

#ifdef __cplusplus
extern "C" {
#endif

/* The request after `count` further ones is refused, and no other. A negative number refuses none. Returns how many were left, which
   is negative if the request has come. */
int64_t hook_refuse(int64_t count);

/* The next request does this call first, and so do those after it until a null pointer is given. What the call itself requests
   does not. So another thread seems to come first, between two steps of a growth. */
void hook_between(void (*call)(void *), void *argument);

/* How many blocks of memory are held. */
int64_t hook_blocks(void);

#ifdef __cplusplus
}
#endif

#endif
