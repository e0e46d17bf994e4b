// What the loads of other_vectors.cpp and library_vectors.cpp have in common: how many values they take, and how their time is
// measured.
#ifndef LOADS_HPP
#define LOADS_HPP

#include <algorithm>
#include <atomic>
#include <chrono>
#include <cstdint>
#include <functional>
#include <thread>
#include <vector>

using Value = std::uint64_t;

// As in crates/costs/src/loads.rt, and the length of a list as in growths.rt there.
constexpr Value fresh = 10'000'000;
constexpr Value filled = (Value{1} << 23) + 1;
constexpr Value more = 8'000'000;
constexpr Value list_length = 64;
// How often a load walks over its places.
constexpr unsigned rounds = 16;

using Clock = std::chrono::steady_clock;

// When one thread began its part, and when it ended.
struct Timed {
  Clock::time_point begun, ended;
};

// Where threads gather before their time starts, as in crates/costs/src/start.rt: each first does some arithmetic, until
// the kernel has moved it to a processor of its own.
class Start {
  static constexpr Value steps = 75'000'000;
  const unsigned threads;
  std::atomic<unsigned> come{0};
  std::atomic<Value> sum{0};
  static Value do_steps() {
    Value sum = 1;
    for (Value step = 0; step < steps; ++step)
      sum = sum * 6364136223846793005 + step;
    return sum;
  }
  void gather() {
    if (threads < 2)
      return;
    sum += do_steps();
    ++come;
    while (come < threads)
      ;
  }

public:
  explicit Start(unsigned threads) : threads(threads) {}
  Timed time(const std::function<void()> &work) {
    gather();
    Timed timed{Clock::now(), {}};
    work();
    timed.ended = Clock::now();
    return timed;
  }
};

// The time that the threads take, from when all have come to the end of the last one.
inline long long time_threads(unsigned threads, const std::function<void()> &work) {
  Start start(threads);
  std::vector<Timed> parts(threads);
  std::vector<std::thread> others;
  for (unsigned i = 1; i < threads; ++i)
    others.emplace_back([&, i] { parts[i] = start.time(work); });
  parts[0] = start.time(work);
  for (auto &other : others)
    other.join();
  Timed all = parts[0];
  for (const Timed &part : parts)
    all = {std::min(all.begun, part.begun), std::max(all.ended, part.ended)};
  return std::chrono::duration_cast<std::chrono::nanoseconds>(all.ended - all.begun).count();
}

// How many of the first values are odd.
template <typename Values> Value count_odd(Values &values, Value times) {
  Value odd = 0;
  auto end = values.end();
  for (auto value = values.begin(); value != end && times; ++value, --times)
    odd += *value & 1;
  return odd;
}

// Reads at places that are picked at random.
template <typename Read> void read_often(Value times, Read read) {
  Value found = 0;
  Value random = 88172645463325252;
  for (Value i = 0; i < times; ++i) {
    random = random * 6364136223846793005 + 1442695040888963407;
    found += read(random >> 41) & 1;
  }
  volatile Value kept = found;
  (void)kept;
}

#endif
