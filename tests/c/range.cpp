// What oneTBB's algorithms ask of a range, and every partitioner over one, while other threads grow the vector.
#include "check.h"

#include <kehldora.hpp>
#include <tbb/blocked_range.h>
#include <tbb/parallel_for.h>
#include <tbb/parallel_reduce.h>
#include <tbb/parallel_sort.h>

#include <atomic>
#include <thread>

using Vector = kehldora::concurrent_vector<unsigned>;

template <typename... Partitioner> void once(Vector &v, Partitioner &&...partitioner) {
  std::atomic<size_t> count{0};
  tbb::parallel_for(
      v.range(7),
      [&](const Vector::range_type &part) {
        for (unsigned &it : part)
          ++it;
        count += part.size();
      },
      partitioner...);
  CHECK(count >= 10000);
}

int main() {
  Vector v(10000);
  std::thread other([&] {
    for (unsigned i = 0; i < 20000; ++i)
      v.push_back(5);
  });
  const Vector::range_type whole(v.begin(), v.begin() + 10000, 3);
  tbb::affinity_partitioner affinity;
  for (int round = 0; round < 20; ++round) {
    std::atomic<size_t> count{0};
    tbb::parallel_for(whole, [&](const Vector::range_type &part) {
      for (unsigned &it : part)
        ++it;
      count += part.size();
    });
    CHECK(count == 10000);
  }
  other.join();
  once(v);
  once(v, tbb::simple_partitioner());
  once(v, tbb::static_partitioner());
  once(v, affinity);
  const Vector &c = v;
  const auto sum = tbb::parallel_reduce(
      c.range(), size_t{0},
      [](const Vector::const_range_type &part, size_t sum) {
        for (const unsigned it : part)
          sum += it;
        return sum;
      },
      [](size_t a, size_t b) { return a + b; });
  CHECK(sum == 10000 * 24 + 20000 * 9);
  std::atomic<size_t> count{0};
  tbb::parallel_for(v.range(9), [&](const tbb::blocked_range<Vector::iterator> &part) { count += part.size(); });
  CHECK(count == 30000);
  tbb::parallel_sort(v.begin(), v.end());
  CHECK(v.front() == 9 && v.back() == 24);
  const Vector::const_range_type converted = v.range(9);
  CHECK(converted.grainsize() == 9 && converted.size() == 30000 && converted.is_divisible() && !converted.empty());
}
