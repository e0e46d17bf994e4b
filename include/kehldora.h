/* Kehldora for C: a vector that many threads append to and read at once. Elements never move.
 *
 * Each thread has a hand of the vector. `kehldora_open` makes the first hand, and `kehldora_split` makes a further one. A hand
 * that all others were joined into closes the vector into a list, which one thread owns and may change.
 *
 * An element is 1, 2, 3, 4, 6 or 8 words of 8 bytes. Value elements are copied in and out. Opaque elements stay where they are,
 * and the caller reads and writes them by pointer. docs/C.md has a table of all calls with their statuses.
 *
 * What the caller must keep. Everything else that can go wrong is a status.
 *  - One thread at a time uses a handle, and its calls are ordered (by a lock, a join or a SeqCst atomic).
 *  - A handle starts as KEHLDORA_EMPTY_HAND or KEHLDORA_EMPTY_LIST. Only these calls change it, and it is never copied.
 *  - A pointer leads to as many words as the call says, aligned to 8 bytes, and no argument lies within an element.
 *  - A pointer to elements is not used after the vector, and the list it was closed into, have ended; one to states is not used
 *    after the vector was closed or has ended.
 *  - Value elements are never written through a pointer.
 *  - Threads order their own accesses to one opaque element. Nobody touches one during `kehldora_close` and `kehldora_free`.
 */
#ifndef KEHLDORA_H
#define KEHLDORA_H

#include <stdbool.h>
#include <stddef.h>
#include <stdint.h>

/* ThreadSanitizer does not see the library's atomic steps. So under it the calls below mark their order: what a thread did before it
   filled a place comes before what others do after they have looked. Its other reports of the library are in tsan.supp. */
#if defined(__has_feature)
#if __has_feature(thread_sanitizer)
#define KEHLDORA_MARKS
#endif
#endif
#if defined(__SANITIZE_THREAD__)
#define KEHLDORA_MARKS
#endif
#if defined(KEHLDORA_WITHOUT_MARKS)
#undef KEHLDORA_MARKS
#endif
#ifdef KEHLDORA_MARKS
#include <sanitizer/tsan_interface.h>
#endif

#ifdef __cplusplus
extern "C" {
#endif

/* The version of these exports. The shared library has it in its name. */
#define KEHLDORA_VERSION 1u

/* The greatest limit, and the greatest number of shares: those of the first hand. */
#define KEHLDORA_MOST_PLACES (UINT64_C(1) << 40)
#define KEHLDORA_ALL_SHARES 65536u

/* How a call ended. After any other status than KEHLDORA_DONE every handle has what it had before. */
enum {
  KEHLDORA_DONE = 0,
  KEHLDORA_NO_MEMORY = 1,
  KEHLDORA_BAD_LIMIT = 2,
  KEHLDORA_MOVED = 3,
  KEHLDORA_BAD_HANDLE = 4,
  KEHLDORA_BAD_NUMBER = 5,
  KEHLDORA_NOT_WHOLE = 6,
  KEHLDORA_BAD_SIZE = 7,
  KEHLDORA_OUT_OF_RANGE = 8,
  KEHLDORA_PENDING = 9,
  KEHLDORA_BROKEN = 10,
  KEHLDORA_FULL = 11,
  KEHLDORA_TAKEN = 12,
  KEHLDORA_FILLED = 13,
  KEHLDORA_OTHER_VECTOR = 14,
  KEHLDORA_NULL = 15
};
typedef int32_t kehldora_status;

/* The text of a status. */
static inline const char *kehldora_text(kehldora_status status) {
  switch (status) {
  case KEHLDORA_DONE: return "done";
  case KEHLDORA_NO_MEMORY: return "out of memory";
  case KEHLDORA_BAD_LIMIT: return "the limit is 0 or above 2^40";
  case KEHLDORA_MOVED: return "other threads came first each time";
  case KEHLDORA_BAD_HANDLE: return "a handle is empty that must not be, or the reverse";
  case KEHLDORA_BAD_NUMBER: return "a number is not one of those allowed";
  case KEHLDORA_NOT_WHOLE: return "other hands are left";
  case KEHLDORA_BAD_SIZE: return "the number of words does not fit the elements";
  case KEHLDORA_OUT_OF_RANGE: return "the place is not below the size";
  case KEHLDORA_PENDING: return "the place is not filled yet";
  case KEHLDORA_BROKEN: return "the place is broken";
  case KEHLDORA_FULL: return "the limit leaves no room";
  case KEHLDORA_TAKEN: return "a place was not empty";
  case KEHLDORA_FILLED: return "the place has a value";
  case KEHLDORA_OTHER_VECTOR: return "the hands are of two vectors";
  case KEHLDORA_NULL: return "a pointer is null";
  default: return "no such status";
  }
}

/* One thread's hand of a vector, and a closed vector. `full` says whether there is one. */
typedef struct kehldora_hand {
  void *at;
  bool full;
} kehldora_hand;
typedef struct kehldora_list {
  void *at;
  bool full;
} kehldora_list;
#ifdef __cplusplus
#define KEHLDORA_EMPTY_HAND (kehldora_hand{nullptr, false})
#define KEHLDORA_EMPTY_LIST (kehldora_list{nullptr, false})
#else
#define KEHLDORA_EMPTY_HAND ((kehldora_hand){NULL, false})
#define KEHLDORA_EMPTY_LIST ((kehldora_list){NULL, false})
#endif

/* A hand's shares, the size that it has seen, and the limit and the words of an element of its vector. */
typedef struct kehldora_hand_facts {
  uint64_t shares, seen, limit, words;
} kehldora_hand_facts;

/* The four bits of the state of a place that is filled. */
#define KEHLDORA_FILLED_BITS 3u

/* A list's size, its limit and the words of an element. */
typedef struct kehldora_list_facts {
  uint64_t size, limit, words;
} kehldora_list_facts;

/* The exports. No pointer may be null, and no two handles of a call the same. Where `words` follows a pointer, it is the number
   of words there. The calls below them test this, and are otherwise the same. */
uint32_t kehldora_raw_version(void);
kehldora_status kehldora_raw_open(uint64_t limit, uint64_t words, uint32_t first, bool opaque, kehldora_hand *hand);
kehldora_status kehldora_raw_size(kehldora_hand *hand, uint64_t *size);
kehldora_status kehldora_raw_about(kehldora_hand *hand, kehldora_hand_facts *facts);
kehldora_status kehldora_raw_split(kehldora_hand *hand, uint32_t shares, kehldora_hand *other);
/* The two hands must be of one vector: compare where they are first, as kehldora_join does. */
kehldora_status kehldora_raw_join(kehldora_hand *hand, kehldora_hand *other);
kehldora_status kehldora_raw_where(kehldora_hand *hand, const void **at);
kehldora_status kehldora_raw_reserve(kehldora_hand *hand, uint64_t size);
kehldora_status kehldora_raw_close(kehldora_hand *hand, kehldora_list *list);
kehldora_status kehldora_raw_free(kehldora_hand *hand);
kehldora_status kehldora_raw_push(kehldora_hand *hand, const uint64_t *value, size_t words, uint64_t *place);
kehldora_status kehldora_raw_grow(kehldora_hand *hand, const uint64_t *values, size_t words, uint64_t *place);
kehldora_status kehldora_raw_fill(kehldora_hand *hand, const uint64_t *value, size_t words, uint64_t count, uint64_t *place);
kehldora_status kehldora_raw_at_least(kehldora_hand *hand, uint64_t size, const uint64_t *values, size_t words, uint64_t *place,
                                      uint64_t *count);
kehldora_status kehldora_raw_at(kehldora_hand *hand, uint64_t place, uint64_t *value, size_t words);
kehldora_status kehldora_raw_look(kehldora_hand *hand, uint64_t place, uint64_t **at);
kehldora_status kehldora_raw_run(kehldora_hand *hand, uint64_t place, uint64_t **at, uint64_t *count);
kehldora_status kehldora_raw_states(kehldora_hand *hand, uint64_t place, const uint64_t **at);
kehldora_status kehldora_raw_leave(kehldora_hand *hand, uint64_t count, uint64_t *place);
kehldora_status kehldora_raw_mend(kehldora_hand *hand, uint64_t place, const uint64_t *value, size_t words);
kehldora_status kehldora_raw_list_about(kehldora_list *list, kehldora_list_facts *facts);
kehldora_status kehldora_raw_list_get(kehldora_list *list, uint64_t place, uint64_t *value, size_t words);
kehldora_status kehldora_raw_list_set(kehldora_list *list, uint64_t place, const uint64_t *value, size_t words);
kehldora_status kehldora_raw_list_copy(kehldora_list *list, uint64_t place, uint64_t *values, size_t words);
kehldora_status kehldora_raw_list_look(kehldora_list *list, uint64_t place, uint64_t **at);
kehldora_status kehldora_raw_list_cut(kehldora_list *list, uint64_t size);
kehldora_status kehldora_raw_list_shrink(kehldora_list *list);
kehldora_status kehldora_raw_list_open(kehldora_list *list, kehldora_hand *hand);
kehldora_status kehldora_raw_list_free(kehldora_list *list);

/* The version of the library that the program runs with. It fits this header if it is KEHLDORA_VERSION. */
static inline uint32_t kehldora_version(void) { return kehldora_raw_version(); }

/* The marks for ThreadSanitizer: before a call that fills a place, and after one that has looked. */
#ifdef KEHLDORA_MARKS
static inline void *kehldora_mark(kehldora_hand *hand) {
  const void *at = hand;
  kehldora_raw_where(hand, &at);
  return (void *)(uintptr_t)at;
}
#define KEHLDORA_FILLS(hand) __tsan_release(kehldora_mark(hand))
#define KEHLDORA_HAS_LOOKED(hand) __tsan_acquire(kehldora_mark(hand))
#else
#define KEHLDORA_FILLS(hand) ((void)(hand))
#define KEHLDORA_HAS_LOOKED(hand) ((void)(hand))
#endif

/* Opens a vector of at most `limit` elements, at least one, of `words` words, whose first segment has 2^first places, with `first`
   from 1 to 8. Its first hand has all shares. */
static inline kehldora_status kehldora_open(uint64_t limit, uint64_t words, uint32_t first, bool opaque, kehldora_hand *hand) {
  return hand ? kehldora_raw_open(limit, words, first, opaque, hand) : KEHLDORA_NULL;
}

/* Loads the size: the number of claimed places. It never becomes less while the vector is open. */
static inline kehldora_status kehldora_size(kehldora_hand *hand, uint64_t *size) {
  return hand && size ? kehldora_raw_size(hand, size) : KEHLDORA_NULL;
}

/* Says what a hand knows. It loads nothing. */
static inline kehldora_status kehldora_about(kehldora_hand *hand, kehldora_hand_facts *facts) {
  return hand && facts ? kehldora_raw_about(hand, facts) : KEHLDORA_NULL;
}

/* Moves some of the hand's shares, not all, into a new hand of the same vector. */
static inline kehldora_status kehldora_split(kehldora_hand *hand, uint32_t shares, kehldora_hand *other) {
  if (!hand || !other)
    return KEHLDORA_NULL;
  return hand == other ? KEHLDORA_BAD_HANDLE : kehldora_raw_split(hand, shares, other);
}

/* Moves the other hand and its shares into the first one. */
static inline kehldora_status kehldora_join(kehldora_hand *hand, kehldora_hand *other) {
  const void *at, *other_at;
  kehldora_status status;
  if (!hand || !other)
    return KEHLDORA_NULL;
  if (hand == other)
    return KEHLDORA_BAD_HANDLE;
  status = kehldora_raw_where(hand, &at);
  if (!status)
    status = kehldora_raw_where(other, &other_at);
  if (status)
    return status;
  return at == other_at ? kehldora_raw_join(hand, other) : KEHLDORA_OTHER_VECTOR;
}

/* Returns an address that is the same for all hands of a vector, and another for any other vector that is open. */
static inline kehldora_status kehldora_where(kehldora_hand *hand, const void **at) {
  return hand && at ? kehldora_raw_where(hand, at) : KEHLDORA_NULL;
}

/* Makes room for `size` elements in all, so that growths up to there take no memory. */
static inline kehldora_status kehldora_reserve(kehldora_hand *hand, uint64_t size) {
  return hand ? kehldora_raw_reserve(hand, size) : KEHLDORA_NULL;
}

/* Closes the vector into a list. The hand must have all shares. Elements stay where they are. */
static inline kehldora_status kehldora_close(kehldora_hand *hand, kehldora_list *list) {
  return hand && list ? kehldora_raw_close(hand, list) : KEHLDORA_NULL;
}

/* Ends a hand. The vector ends with its last hand. It can no longer be closed once a hand has ended unjoined. */
static inline kehldora_status kehldora_free(kehldora_hand *hand) { return hand ? kehldora_raw_free(hand) : KEHLDORA_NULL; }

/* Appends one value, and returns its place. */
static inline kehldora_status kehldora_push(kehldora_hand *hand, const uint64_t *value, size_t words, uint64_t *place) {
  kehldora_status status;
  if (!hand || !value || !place)
    return KEHLDORA_NULL;
  KEHLDORA_FILLS(hand);
  do
    status = kehldora_raw_push(hand, value, words, place);
  while (status == KEHLDORA_MOVED);
  return status;
}

/* Appends the values of an array side by side, and returns the place of the first one. */
static inline kehldora_status kehldora_grow(kehldora_hand *hand, const uint64_t *values, size_t words, uint64_t *place) {
  kehldora_status status;
  if (!hand || !values || !place)
    return KEHLDORA_NULL;
  KEHLDORA_FILLS(hand);
  do
    status = kehldora_raw_grow(hand, values, words, place);
  while (status == KEHLDORA_MOVED);
  return status;
}

/* Appends copies of one value side by side, and returns the place of the first one. */
static inline kehldora_status kehldora_fill(kehldora_hand *hand, const uint64_t *value, size_t words, uint64_t count,
                                            uint64_t *place) {
  kehldora_status status;
  if (!hand || !value || !place)
    return KEHLDORA_NULL;
  KEHLDORA_FILLS(hand);
  do
    status = kehldora_raw_fill(hand, value, words, count, place);
  while (status == KEHLDORA_MOVED);
  return status;
}

/* Appends the `count` values that are missing up to `size`, perhaps none. `values` is one value, which is copied to each place,
   or an array with one for each place from what the hand has seen up to `size`; its first `count` are appended. */
static inline kehldora_status kehldora_at_least(kehldora_hand *hand, uint64_t size, const uint64_t *values, size_t words,
                                                uint64_t *place, uint64_t *count) {
  if (!hand || !values || !place || !count)
    return KEHLDORA_NULL;
  KEHLDORA_FILLS(hand);
  return kehldora_raw_at_least(hand, size, values, words, place, count);
}

/* Copies the value at a place. */
static inline kehldora_status kehldora_at(kehldora_hand *hand, uint64_t place, uint64_t *value, size_t words) {
  kehldora_status status;
  if (!hand || !value)
    return KEHLDORA_NULL;
  status = kehldora_raw_at(hand, place, value, words);
  KEHLDORA_HAS_LOOKED(hand);
  return status;
}

/* Returns the address of the value at a place. It stays there until the vector, or the list it is closed into, has ended.
   The first segment has the places below 2^first, and segment k > 0 has the places from 2^(first+k-1) to 2^(first+k) - 1. The
   elements of a segment lie side by side: place p lies (p - q) * words * 8 bytes after place q of the same segment, whatever is at
   the places between them. */
static inline kehldora_status kehldora_look(kehldora_hand *hand, uint64_t place, uint64_t **at) {
  kehldora_status status;
  if (!hand || !at)
    return KEHLDORA_NULL;
  status = kehldora_raw_look(hand, place, at);
  KEHLDORA_HAS_LOOKED(hand);
  return status;
}

/* Returns the address of the value at a place, and the number of values that are filled from there on in its segment. They lie
   side by side. */
static inline kehldora_status kehldora_run(kehldora_hand *hand, uint64_t place, uint64_t **at, uint64_t *count) {
  kehldora_status status;
  if (!hand || !at || !count)
    return KEHLDORA_NULL;
  status = kehldora_raw_run(hand, place, at, count);
  KEHLDORA_HAS_LOOKED(hand);
  return status;
}

/* Returns the address of the words with the states of a place's segment, if that is there: four bits for each of its places, from
   its first one on, sixteen places a word, from the lowest bits up. They become KEHLDORA_FILLED_BITS when the place is filled, and
   then stay so until the vector is closed. Read a word by one atomic load, acquire or stronger, and never write it. */
static inline kehldora_status kehldora_states(kehldora_hand *hand, uint64_t place, const uint64_t **at) {
  return hand && at ? kehldora_raw_states(hand, place, at) : KEHLDORA_NULL;
}

/* Claims places side by side and breaks them, and returns the first one. Each can be mended later. */
static inline kehldora_status kehldora_leave(kehldora_hand *hand, uint64_t count, uint64_t *place) {
  kehldora_status status;
  if (!hand || !place)
    return KEHLDORA_NULL;
  do
    status = kehldora_raw_leave(hand, count, place);
  while (status == KEHLDORA_MOVED);
  return status;
}

/* Fills a broken place. One thread can. */
static inline kehldora_status kehldora_mend(kehldora_hand *hand, uint64_t place, const uint64_t *value, size_t words) {
  if (!hand || !value)
    return KEHLDORA_NULL;
  KEHLDORA_FILLS(hand);
  return kehldora_raw_mend(hand, place, value, words);
}

/* Says how long a list is, and of what elements. */
static inline kehldora_status kehldora_list_about(kehldora_list *list, kehldora_list_facts *facts) {
  return list && facts ? kehldora_raw_list_about(list, facts) : KEHLDORA_NULL;
}

/* Copies the member at a place. */
static inline kehldora_status kehldora_list_get(kehldora_list *list, uint64_t place, uint64_t *value, size_t words) {
  return list && value ? kehldora_raw_list_get(list, place, value, words) : KEHLDORA_NULL;
}

/* Replaces the member at a place, or mends it if it is broken. */
static inline kehldora_status kehldora_list_set(kehldora_list *list, uint64_t place, const uint64_t *value, size_t words) {
  return list && value ? kehldora_raw_list_set(list, place, value, words) : KEHLDORA_NULL;
}

/* Copies members side by side from a place on, as many as there is room for in the array. If one is broken it copies none. */
static inline kehldora_status kehldora_list_copy(kehldora_list *list, uint64_t place, uint64_t *values, size_t words) {
  return list && values ? kehldora_raw_list_copy(list, place, values, words) : KEHLDORA_NULL;
}

/* Returns the address of the member at a place. */
static inline kehldora_status kehldora_list_look(kehldora_list *list, uint64_t place, uint64_t **at) {
  return list && at ? kehldora_raw_list_look(list, place, at) : KEHLDORA_NULL;
}

/* Drops the members from place `size` on. Their memory stays. If there are none, it does nothing. */
static inline kehldora_status kehldora_list_cut(kehldora_list *list, uint64_t size) {
  return list ? kehldora_raw_list_cut(list, size) : KEHLDORA_NULL;
}

/* Frees the segments that have no member. */
static inline kehldora_status kehldora_list_shrink(kehldora_list *list) {
  return list ? kehldora_raw_list_shrink(list) : KEHLDORA_NULL;
}

/* Opens the list into a vector again. Its first hand has all shares. */
static inline kehldora_status kehldora_list_open(kehldora_list *list, kehldora_hand *hand) {
  return list && hand ? kehldora_raw_list_open(list, hand) : KEHLDORA_NULL;
}

/* Ends a list. */
static inline kehldora_status kehldora_list_free(kehldora_list *list) {
  return list ? kehldora_raw_list_free(list) : KEHLDORA_NULL;
}

#ifdef __cplusplus
}
#endif

#endif
