/* The requests of the library for memory, which the runner gives these names, and those of the mock. */
#include "hooks.h"

#include <stdatomic.h>
#include <stdbool.h>
#include <stdlib.h>

/* Relaxed steps, so that ThreadSanitizer takes none of them for an order of the threads. */
static _Atomic int64_t refused = -1, blocks = 0;
static void (*between)(void *) = NULL;
static void *argument = NULL;

void *library_malloc(size_t bytes);
void *library_realloc(void *block, size_t bytes);
void library_free(void *block);

/* Whether this request is the one to refuse. */
static bool is_refused(void) {
  void (*const call)(void *) = between;
  int64_t left = atomic_load_explicit(&refused, memory_order_relaxed);
  if (call) {
    between = NULL;
    call(argument);
    between = call;
  }
  while (left >= 0 && !atomic_compare_exchange_weak_explicit(&refused, &left, left - 1, memory_order_relaxed, memory_order_relaxed)) {
  }
  return left == 0;
}

static void count(int64_t more) { atomic_fetch_add_explicit(&blocks, more, memory_order_relaxed); }

void *library_malloc(size_t bytes) {
  void *const block = is_refused() ? NULL : malloc(bytes);
  count(block != NULL);
  return block;
}

void *library_realloc(void *block, size_t bytes) {
  void *const moved = is_refused() ? NULL : realloc(block, bytes);
  count(moved != NULL && block == NULL);
  return moved;
}

void library_free(void *block) {
  count(-(block != NULL));
  free(block);
}

int64_t hook_refuse(int64_t requests) { return atomic_exchange_explicit(&refused, requests, memory_order_relaxed); }
void hook_between(void (*call)(void *), void *it) {
  argument = it;
  between = call;
}
int64_t hook_blocks(void) { return atomic_load_explicit(&blocks, memory_order_relaxed); }
