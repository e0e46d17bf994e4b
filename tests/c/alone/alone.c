/* A program that the toolchain's own compiler can make, without any header of a C library. Its status is 0, or the number of the
   first step that did not go as it must. */
#include <kehldora.h>

enum { WORDS = 2, MANY = 1000 };

int main(void) {
  kehldora_hand hand = KEHLDORA_EMPTY_HAND, other = KEHLDORA_EMPTY_HAND;
  kehldora_list list = KEHLDORA_EMPTY_LIST;
  kehldora_list_facts facts;
  uint64_t value[WORDS], got[WORDS], place, *at;
  if (kehldora_version() != KEHLDORA_VERSION)
    return 1;
  if (kehldora_open(MANY, WORDS, 3, false, &hand) || kehldora_split(&hand, 1, &other))
    return 2;
  for (uint64_t i = 0; i < MANY; ++i) {
    value[0] = i, value[1] = 2 * i;
    if (kehldora_push(i % 2 ? &hand : &other, value, WORDS, &place) || place != i)
      return 3;
  }
  if (kehldora_push(&hand, value, WORDS, &place) != KEHLDORA_FULL)
    return 4;
  for (uint64_t i = 0; i < MANY; ++i)
    if (kehldora_look(&hand, i, &at) || at[0] != i || at[1] != 2 * i)
      return 5;
  if (kehldora_look(&hand, MANY, &at) != KEHLDORA_OUT_OF_RANGE)
    return 6;
  if (kehldora_close(&hand, &list) != KEHLDORA_NOT_WHOLE || kehldora_join(&hand, &other) || kehldora_close(&hand, &list))
    return 7;
  if (kehldora_list_about(&list, &facts) || facts.size != MANY || facts.words != WORDS)
    return 8;
  if (kehldora_list_get(&list, MANY - 1, got, WORDS) || got[0] != MANY - 1 || got[1] != 2 * (MANY - 1))
    return 9;
  if (kehldora_list_free(&list) || list.full || hand.full || other.full)
    return 10;
  return 0;
}
