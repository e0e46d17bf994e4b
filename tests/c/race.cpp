// Two threads change one element, and nothing orders them. ThreadSanitizer must say so, also with the marks of kehldora.h.
//
//   race place      an element that lies in the vector
//   race pointer    one that lies behind a pointer
#include <kehldora.hpp>

#include <atomic>
#include <cstring>
#include <thread>

struct Wide {
  uint64_t words[20];
};

static std::atomic<int> come{0};

// Waits for the other thread. This orders nothing that comes before it or after it.
static void meet() {
  come.fetch_add(1, std::memory_order_relaxed);
  while (come.load(std::memory_order_relaxed) < 2) {
  }
}

template <typename T> void race() {
  kehldora::concurrent_vector<T> v;
  v.push_back(T());
  const auto change = [&v] {
    T &it = v[0];
    meet();
    it = T();
  };
  std::thread other(change);
  change();
  other.join();
}

int main(int, char **words) {
  if (strcmp(words[1], "place") == 0)
    race<uint64_t>();
  else
    race<Wide>();
}
