// The loads of crates/costs on oneTBB's concurrent_vector, on a std::vector under a mutex, and on bare rows of cells.
//
//   other_vectors LIBRARY LOAD THREADS    prints the nanoseconds that the load took
#include "loads.hpp"

#include <cstdio>
#include <cstdlib>
#include <cstring>
#include <iterator>
#include <mutex>
#include <numeric>
#include <oneapi/tbb/concurrent_vector.h>

struct OneTbb {
  tbb::concurrent_vector<Value> values;
  void push(Value value) { values.push_back(value); }
  void grow(const std::vector<Value> &list) { values.grow_by(list.begin(), list.end()); }
  // oneTBB has no growth by a maker: this one copies a value.
  void make(Value value) { values.grow_by(list_length, value); }
  void grow_up_to(Value size, Value value) { values.grow_to_at_least(size, value); }
  Value size() { return values.size(); }
  Value look(Value place) { return values.at(place); }
  // What a token is for: a place that is known to have a value.
  Value get(Value place) { return values[place]; }
  Value walk(Value times) { return count_odd(values, times); }
  // Keeps the segment of the last place, with its memory.
  void cut(Value size) { values.resize(size); }
};

struct Locked {
  std::vector<Value> values;
  std::mutex lock;
  void push(Value value) {
    std::lock_guard<std::mutex> guard(lock);
    values.push_back(value);
  }
  void grow(const std::vector<Value> &list) {
    std::lock_guard<std::mutex> guard(lock);
    values.insert(values.end(), list.begin(), list.end());
  }
  void make(Value value) {
    std::lock_guard<std::mutex> guard(lock);
    values.insert(values.end(), list_length, value);
  }
  void grow_up_to(Value size, Value value) {
    std::lock_guard<std::mutex> guard(lock);
    if (values.size() < size)
      values.resize(size, value);
  }
  Value size() {
    std::lock_guard<std::mutex> guard(lock);
    return values.size();
  }
  Value look(Value place) {
    std::lock_guard<std::mutex> guard(lock);
    return values.at(place);
  }
  Value get(Value place) {
    std::lock_guard<std::mutex> guard(lock);
    return values[place];
  }
  Value walk(Value times) {
    std::lock_guard<std::mutex> guard(lock);
    return count_odd(values, times);
  }
  void cut(Value size) { values.resize(size); }
};

// The least that a vector of this layout could do: values in rows, the states of sixteen cells in a word. It tests nothing,
// refuses nothing, and frees nothing.
struct Bare {
  struct Segment {
    Value *values;
    std::atomic<Value> *states;
  };
  static constexpr Value full = 3, all_full = 0x3333333333333333;
  std::atomic<Value> claimed{0};
  std::atomic<Segment *> segments[40] = {};
  static unsigned segment_of(Value place) { return 63 - __builtin_clzll(place | 1); }
  static Value first(unsigned number) { return number ? Value{1} << number : 0; }
  static Value end(unsigned number) { return Value{2} << number; }
  Segment *install(unsigned number) {
    Value length = end(number) - first(number);
    auto made = new Segment{static_cast<Value *>(std::malloc(length * sizeof(Value))), nullptr};
    made->states = static_cast<std::atomic<Value> *>(std::calloc(length / 16 + 1, sizeof(Value)));
    Segment *found = nullptr;
    if (segments[number].compare_exchange_strong(found, made))
      return made;
    std::free(made->values);
    std::free(made->states);
    delete made;
    return found;
  }
  Segment *segment(unsigned number) {
    Segment *found = segments[number].load(std::memory_order_acquire);
    return found ? found : install(number);
  }
  Value claim(Value n) {
    Value from = claimed.load();
    while (!claimed.compare_exchange_weak(from, from + n))
      ;
    return from;
  }
  void fill(Value place, Value value) {
    unsigned number = segment_of(place);
    Segment *found = segment(number);
    Value offset = place - first(number);
    found->values[offset] = value;
    found->states[offset / 16].fetch_add(full << offset % 16 * 4);
  }
  // Fills the places from one on that are of its segment, and publishes those of a word by one step.
  Value fill_some(Value place, Value n, const Value *values) {
    unsigned number = segment_of(place);
    Segment *found = segment(number);
    Value offset = place - first(number), count = std::min(n, end(number) - place);
    std::memcpy(found->values + offset, values, count * sizeof(Value));
    for (Value at = offset; at < offset + count;) {
      Value next = std::min((at / 16 + 1) * 16, offset + count), states = 0;
      for (; at < next; ++at)
        states |= full << at % 16 * 4;
      found->states[(next - 1) / 16].fetch_add(states);
    }
    return count;
  }
  void push(Value value) { fill(claim(1), value); }
  void grow(const std::vector<Value> &list) {
    Value place = claim(list.size());
    for (Value done = 0; done < list.size();)
      done += fill_some(place + done, list.size() - done, list.data() + done);
  }
  void make(Value value) {
    Value place = claim(list_length);
    for (Value i = 0; i < list_length; ++i)
      fill(place + i, value + i);
  }
  void grow_up_to(Value size, Value value) {
    Value from = claimed.load();
    while (from < size && !claimed.compare_exchange_weak(from, size))
      ;
    for (Value place = from; place < size; ++place)
      fill(place, value);
  }
  Value size() { return claimed.load(); }
  // Empties the places from this size on, which lie in one segment.
  void cut(Value size) {
    unsigned number = segment_of(size);
    Segment *found = segment(number);
    for (Value offset = size - first(number); offset < end(number) - first(number); ++offset)
      found->states[offset / 16] &= ~(Value{15} << offset % 16 * 4);
    claimed = size;
  }
  Value look(Value place) {
    unsigned number = segment_of(place);
    Segment *found = segments[number].load(std::memory_order_acquire);
    Value offset = place - first(number);
    Value states = found->states[offset / 16].load(std::memory_order_acquire);
    return (states >> offset % 16 * 4 & 15) == full ? found->values[offset] : 0;
  }
  Value get(Value place) {
    unsigned number = segment_of(place);
    return segments[number].load(std::memory_order_acquire)->values[place - first(number)];
  }
  Value walk(Value times) {
    Value odd = 0;
    for (unsigned number = 0; times; ++number) {
      Segment *found = segments[number].load(std::memory_order_acquire);
      Value count = std::min(times, end(number) - first(number));
      for (Value word = 0; word * 16 < count; ++word) {
        Value length = std::min(count - word * 16, Value{16}), states = found->states[word].load(std::memory_order_acquire);
        if (length == 16 ? states == all_full : states != 0)
          for (Value i = 0; i < length; ++i)
            odd += found->values[word * 16 + i] & 1;
      }
      times -= count;
    }
    return odd;
  }
};

template <typename Vector> void push_often(Vector &vector, Value times) {
  for (Value value = 0; value < times; ++value)
    vector.push(value);
}

// Fills a vector, and then cuts it to the first place of its last segment, whose memory the system has given it by then.
template <typename Vector> void fill_and_cut(Vector &vector) {
  push_often(vector, filled + more);
  vector.cut(filled);
}

// Pushes values until a walk is over.
template <typename Vector> void push_until(Vector &vector, const std::atomic<bool> &is_over) {
  for (Value value = 0; value < 2'000'000 && !is_over; ++value)
    vector.push(value);
}

template <typename Vector> void grow_often(Vector &vector, Value times) {
  for (Value i = 0; i < times / list_length; ++i) {
    std::vector<Value> list;
    list.reserve(list_length);
    for (Value j = 0; j < list_length; ++j)
      list.push_back(i + j);
    vector.grow(list);
  }
}

// Appends copies of one list.
template <typename Vector> void copy_often(Vector &vector, Value times) {
  std::vector<Value> list(list_length);
  std::iota(list.begin(), list.end(), Value{0});
  for (Value i = 0; i < times / list_length; ++i)
    vector.grow(list);
}

// Pushes values through a buffer, which is appended whenever it is full, and at the end.
template <typename Vector> void push_buffered(Vector &vector, Value times) {
  std::vector<Value> buffer;
  buffer.reserve(list_length);
  for (Value value = 0; value < times; ++value) {
    if (buffer.size() == list_length) {
      vector.grow(buffer);
      buffer.clear();
    }
    buffer.push_back(value);
  }
  vector.grow(buffer);
}

template <typename Vector> void make_often(Vector &vector, Value times) {
  for (Value i = 0; i < times / list_length; ++i)
    vector.make(i);
}

template <typename Vector> void raise_often(Vector &vector, Value times) {
  for (Value i = 0; i < times / list_length; ++i)
    vector.grow_up_to(vector.size() + list_length, i);
}

template <typename Vector> void walk_over(Vector &vector, Value times) {
  volatile Value kept = vector.walk(times);
  (void)kept;
}

template <typename Vector> long long run(const char *load, unsigned threads) {
  Vector vector;
  bool appends = std::strstr(load, "-installed");
  bool looks = !std::strcmp(load, "at") || !std::strcmp(load, "look");
  bool walks = !std::strncmp(load, "walk", 4) || !std::strcmp(load, "iter");
  bool reads = looks || walks || !std::strcmp(load, "get");
  if (reads)
    push_often(vector, filled);
  if (appends)
    fill_and_cut(vector);
  Value times = (appends || reads ? more : fresh) / threads;
  std::function<void()> work = [&] { push_often(vector, times); };
  // oneTBB has no tokens.
  if (!std::strncmp(load, "grow", 4) || !std::strncmp(load, "append", 6))
    work = [&] { grow_often(vector, times); };
  if (!std::strncmp(load, "copy", 4))
    work = [&] { copy_often(vector, times); };
  if (!std::strncmp(load, "buffered", 8))
    work = [&] { push_buffered(vector, times); };
  if (!std::strncmp(load, "make", 4))
    work = [&] { make_often(vector, times); };
  if (!std::strncmp(load, "at-least", 8))
    work = [&] { raise_often(vector, times); };
  if (looks)
    work = [&] { read_often(times, [&](Value place) { return vector.look(place); }); };
  if (!std::strcmp(load, "get"))
    work = [&] { read_often(times, [&](Value place) { return vector.get(place); }); };
  if (walks)
    work = [&] {
      for (unsigned round = 0; round < rounds; ++round)
        walk_over(vector, times);
    };
  // The first thread walks, and the others push meanwhile.
  std::atomic<bool> is_over{false};
  std::atomic<unsigned> begun{0};
  if (!std::strcmp(load, "walk-pushed")) {
    ++threads;
    work = [&] {
      if (begun++)
        push_until(vector, is_over);
      else
        walk_over(vector, more), is_over = true;
    };
  }
  return time_threads(threads, work);
}

// A std::vector of values moved into a concurrent_vector, or copied out of one.
long long run_turn(bool closes) {
  std::vector<Value> list;
  for (Value value = 0; value < fresh; ++value)
    list.push_back(value);
  auto start = std::chrono::steady_clock::now();
  tbb::concurrent_vector<Value> vector(std::make_move_iterator(list.begin()), std::make_move_iterator(list.end()));
  auto opened = std::chrono::steady_clock::now();
  std::vector<Value> copy(vector.begin(), vector.end());
  auto closed = std::chrono::steady_clock::now();
  if (copy.size() != fresh)
    return -1;
  return std::chrono::duration_cast<std::chrono::nanoseconds>(closes ? closed - opened : opened - start).count();
}

int main(int count, char **words) {
  if (count == 2 && !std::strcmp(words[1], "nothing"))
    return 0;
  if (count != 4)
    return 2;
  unsigned threads = std::strtoul(words[3], nullptr, 10);
  bool closes = !std::strcmp(words[2], "close") || !std::strcmp(words[2], "into-vec");
  if (!std::strcmp(words[1], "onetbb") && (closes || !std::strcmp(words[2], "open")))
    std::printf("%lld\n", run_turn(closes));
  else if (!std::strcmp(words[1], "onetbb"))
    std::printf("%lld\n", run<OneTbb>(words[2], threads));
  else if (!std::strcmp(words[1], "locked"))
    std::printf("%lld\n", run<Locked>(words[2], threads));
  else if (!std::strcmp(words[1], "bare"))
    std::printf("%lld\n", run<Bare>(words[2], threads));
  else
    return 2;
}
