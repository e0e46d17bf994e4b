// Does calls of one kind, whose instructions `run` counts:  counts LOAD CALLS
//
// The vector has room for all values, so that no call makes a segment.
#include "check.h"

#include <kehldora.hpp>

#include <cinttypes>
#include <string>

using std::uint64_t;
using vector = kehldora::concurrent_vector<uint64_t>;

constexpr uint64_t ROOM = 65536;

static vector filled() {
  vector values;
  values.reserve(ROOM);
  for (uint64_t i = 0; i < ROOM; ++i)
    values.push_back(i);
  // A look finds where each segment begins.
  for (uint64_t i = 0; i < ROOM; ++i)
    CHECK(*values.find(i) == i);
  return values;
}

// The calls of the C header, with a hand of value elements.
static uint64_t in_c(const std::string &load, uint64_t calls) {
  kehldora_hand hand = KEHLDORA_EMPTY_HAND;
  uint64_t value = 0, place = 0, sum = 0, *at = nullptr;
  EXPECT(kehldora_open(ROOM, 1, 8, false, &hand), KEHLDORA_DONE);
  EXPECT(kehldora_reserve(&hand, ROOM), KEHLDORA_DONE);
  if (load == "kehldora_push") {
    for (; value < calls; ++value)
      EXPECT(kehldora_push(&hand, &value, 1, &place), KEHLDORA_DONE);
  } else {
    EXPECT(kehldora_fill(&hand, &value, 1, ROOM, &place), KEHLDORA_DONE);
    if (load == "kehldora_look")
      for (uint64_t i = 0; i < calls; ++i) {
        EXPECT(kehldora_look(&hand, i, &at), KEHLDORA_DONE);
        sum += *at;
      }
    else
      for (uint64_t i = 0; i < calls; ++i) {
        EXPECT(kehldora_at(&hand, i, &value, 1), KEHLDORA_DONE);
        sum += value;
      }
  }
  EXPECT(kehldora_free(&hand), KEHLDORA_DONE);
  return sum + place;
}

// Those of the C++ header, with a hand of one's own or without.
static uint64_t in_cpp(const std::string &load, uint64_t calls) {
  uint64_t sum = 0;
  if (load == "push_back" || load == "hand.push_back") {
    vector values;
    values.reserve(ROOM);
    auto hand = values.make_hand();
    if (load == "push_back")
      for (uint64_t i = 0; i < calls; ++i)
        values.push_back(i);
    else
      for (uint64_t i = 0; i < calls; ++i)
        hand.push_back(i);
    return values.size();
  }
  vector values = filled();
  auto hand = values.make_hand();
  if (load == "find")
    for (uint64_t i = 0; i < calls; ++i)
      sum += *values.find(i);
  else if (load == "hand.find")
    for (uint64_t i = 0; i < calls; ++i)
      sum += *hand.find(i);
  else
    for (uint64_t i = 0; i < calls; ++i)
      sum += values[i];
  return sum;
}

int main(int count, char **words) {
  CHECK(count == 3);
  const std::string load = words[1];
  const uint64_t calls = std::stoull(words[2]);
  CHECK(calls <= ROOM);
  const uint64_t sum = load.rfind("kehldora_", 0) == 0 ? in_c(load, calls) : in_cpp(load, calls);
  std::printf("%" PRIu64 "\n", sum);
  return 0;
}
