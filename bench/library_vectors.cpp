// The loads of the library for C++, on its vector and on oneTBB's, with elements of 8 bytes and of 4.
//
//   library_vectors LIBRARY LOAD THREADS    prints the nanoseconds that the load took
//
// The libraries are kehldora and onetbb. The name of a load may have -installed after it, and then -int.
#include "loads.hpp"

#include <kehldora.hpp>
#include <oneapi/tbb/concurrent_vector.h>

#include <cstdio>
#include <cstdlib>
#include <string>

template <typename T> struct Kehldora {
  using Vector = kehldora::concurrent_vector<T>;
  static void push_by_hand(Vector &vector, Value times) {
    auto hand = vector.make_hand();
    for (Value value = 0; value < times; ++value)
      hand.push_back(T(value));
  }
  static void push_buffered(Vector &vector, Value times) {
    auto buffer = vector.buffered(list_length);
    for (Value value = 0; value < times; ++value)
      buffer.push_back(T(value));
  }
  static T find(const Vector &vector, Value place) { return *vector.find(place); }
};

// What oneTBB has in their place.
template <typename T> struct OneTbb {
  using Vector = tbb::concurrent_vector<T>;
  static void push_by_hand(Vector &vector, Value times) {
    for (Value value = 0; value < times; ++value)
      vector.push_back(T(value));
  }
  static void push_buffered(Vector &vector, Value times) {
    std::vector<T> buffer;
    buffer.reserve(list_length);
    for (Value value = 0; value < times; ++value) {
      buffer.push_back(T(value));
      if (buffer.size() == list_length) {
        vector.grow_by(buffer.begin(), buffer.end());
        buffer.clear();
      }
    }
    vector.grow_by(buffer.begin(), buffer.end());
  }
  static T find(const Vector &vector, Value place) { return vector.at(place); }
};

template <typename Vector> void push_often(Vector &vector, Value times) {
  for (Value value = 0; value < times; ++value)
    vector.push_back(typename Vector::value_type(value));
}

template <typename Vector> void grow_often(Vector &vector, Value times) {
  for (Value i = 0; i < times / list_length; ++i) {
    std::vector<typename Vector::value_type> list;
    list.reserve(list_length);
    for (Value j = 0; j < list_length; ++j)
      list.push_back(typename Vector::value_type(i + j));
    vector.grow_by(list.begin(), list.end());
  }
}

template <typename Vector> void walk_often(Vector &vector, Value times) {
  for (unsigned round = 0; round < rounds; ++round) {
    volatile Value kept = count_odd(vector, times);
    (void)kept;
  }
}

template <typename Library> long long run(const std::string &load, bool is_installed, unsigned threads) {
  typename Library::Vector vector;
  const bool reads = load == "index" || load == "find" || load == "walk";
  if (reads)
    push_often(vector, filled);
  // The system has given the vector the memory of its last segment by then.
  if (is_installed) {
    push_often(vector, filled + more);
    vector.resize(filled);
  }
  const Value times = (is_installed || reads ? more : fresh) / threads;
  std::function<void()> work;
  if (load == "push")
    work = [&] { push_often(vector, times); };
  if (load == "push-hand")
    work = [&] { Library::push_by_hand(vector, times); };
  if (load == "grow")
    work = [&] { grow_often(vector, times); };
  if (load == "buffered")
    work = [&] { Library::push_buffered(vector, times); };
  if (load == "index")
    work = [&] { read_often(times, [&](Value place) { return Value(vector[place]); }); };
  if (load == "find")
    work = [&] { read_often(times, [&](Value place) { return Value(Library::find(vector, place)); }); };
  if (load == "walk")
    work = [&] { walk_often(vector, times); };
  return work ? time_threads(threads, work) : -1;
}

// Takes an end off a word, if it is there.
static bool takes_off(std::string &word, const std::string &end) {
  const bool is_there = word.size() > end.size() && word.compare(word.size() - end.size(), end.size(), end) == 0;
  if (is_there)
    word.resize(word.size() - end.size());
  return is_there;
}

int main(int count, char **words) {
  if (count != 4)
    return 2;
  const std::string library = words[1];
  std::string load = words[2];
  const bool is_int = takes_off(load, "-int"), is_installed = takes_off(load, "-installed");
  const unsigned threads = unsigned(std::strtoul(words[3], nullptr, 10));
  long long took = -1;
  if (library == "kehldora")
    took = is_int ? run<Kehldora<int>>(load, is_installed, threads) : run<Kehldora<Value>>(load, is_installed, threads);
  if (library == "onetbb")
    took = is_int ? run<OneTbb<int>>(load, is_installed, threads) : run<OneTbb<Value>>(load, is_installed, threads);
  if (took < 0)
    return 2;
  std::printf("%lld\n", took);
}
