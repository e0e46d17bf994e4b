// Threads of oneTBB look for primes, and collect them in one vector; their number and sum are printed, then again without
// the even ones. Growths by ranges, writes through their iterators, clear and refill.
#include CONTAINER

#include <tbb/blocked_range.h>
#include <tbb/parallel_for.h>
#include <tbb/parallel_reduce.h>

#include <algorithm>
#include <cstdio>
#include <vector>

using Numbers = NAMESPACE::concurrent_vector<unsigned>;

static bool is_prime(unsigned number) {
  for (unsigned by = 2; by * by <= number; ++by)
    if (number % by == 0)
      return false;
  return number > 1;
}

static void collect(Numbers &primes, unsigned below) {
  tbb::parallel_for(tbb::blocked_range<unsigned>(0, below, 100), [&](const tbb::blocked_range<unsigned> &part) {
    std::vector<unsigned> found;
    for (unsigned number = part.begin(); number != part.end(); ++number)
      if (is_prime(number))
        found.push_back(number);
    if (found.size() % 2)
      std::copy(found.begin(), found.end(), primes.grow_by(found.size()));
    else
      primes.grow_by(found.begin(), found.end());
  });
}

static void print(Numbers &primes) {
  const unsigned long sum = tbb::parallel_reduce(
      primes.range(50), 0ul,
      [](const Numbers::range_type &part, unsigned long sum) {
        for (const unsigned prime : part)
          sum += prime;
        return sum;
      },
      [](unsigned long a, unsigned long b) { return a + b; });
  std::sort(primes.begin(), primes.end());
  std::printf("%zu primes, whose sum is %lu; the last is %u\n", primes.size(), sum, primes.back());
}

int main() {
  Numbers primes;
  for (const unsigned below : {1000u, 50000u, 20000u}) {
    primes.clear();
    collect(primes, below);
    print(primes);
  }
  tbb::parallel_for(primes.range(), [](const Numbers::range_type &part) {
    for (unsigned &prime : part)
      prime *= 2;
  });
  print(primes);
  primes.resize(10);
  primes.shrink_to_fit();
  print(primes);
}
