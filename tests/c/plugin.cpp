// One plug-in: it has a vector of its own, and the header's variables of its own.
#include <kehldora.hpp>

static kehldora::concurrent_vector<long> numbers;

extern "C" __attribute__((visibility("default"))) void add(long number) { numbers.push_back(number); }
extern "C" __attribute__((visibility("default"))) long total() {
  long sum = 0;
  numbers.shown([&](long number) { sum += number; });
  return sum;
}
extern "C" __attribute__((visibility("default"))) long add_to(void *vector, long number) {
  auto &it = *static_cast<kehldora::concurrent_vector<long> *>(vector);
  return it.push_back(number) - it.begin();
}
