// Calls each public member of the class, of its iterators and of its ranges, and prints what they returned. Elements are numbers
// that count, objects that can be neither copied nor moved, vectors of themselves, and types of many sizes.
#include CONTAINER

#include <tbb/blocked_range.h>

#include <algorithm>
#include <atomic>
#include <cstdint>
#include <cstdio>
#include <functional>
#include <iterator>
#include <list>
#include <memory>
#include <stdexcept>
#include <type_traits>
#include <utility>

// How many numbers there are.
static int alive = 0;

struct Number {
  int value;
  Number(int value = 0) : value(value) { ++alive; }
  Number(const Number &other) : value(other.value) { ++alive; }
  Number(Number &&other) : value(std::exchange(other.value, -1)) { ++alive; }
  Number &operator=(const Number &) = default;
  Number &operator=(Number &&) = default;
  ~Number() { --alive; }
  bool operator==(const Number &other) const { return value == other.value; }
  bool operator<(const Number &other) const { return value < other.value; }
};

// An allocator that can be told from others.
template <typename T> struct Named {
  using value_type = T;
  int name;
  explicit Named(int name = 0) : name(name) {}
  template <typename U> Named(const Named<U> &other) : name(other.name) {}
  T *allocate(size_t count) { return std::allocator<T>().allocate(count); }
  void deallocate(T *at, size_t count) { std::allocator<T>().deallocate(at, count); }
  bool operator==(const Named &other) const { return name == other.name; }
  bool operator!=(const Named &other) const { return name != other.name; }
};

using Vector = NAMESPACE::concurrent_vector<Number, Named<Number>>;
using Plain = NAMESPACE::concurrent_vector<int, std::allocator<int>>;

static_assert(std::is_same_v<Vector::value_type, Number> && std::is_same_v<Vector::allocator_type, Named<Number>>);
static_assert(std::is_same_v<Vector::size_type, size_t> && std::is_same_v<Vector::difference_type, ptrdiff_t>);
static_assert(std::is_same_v<Vector::reference, Number &> && std::is_same_v<Vector::const_reference, const Number &>);
static_assert(std::is_same_v<Vector::pointer, Number *> && std::is_same_v<Vector::const_pointer, const Number *>);
static_assert(std::is_same_v<Vector::reverse_iterator, std::reverse_iterator<Vector::iterator>>);
static_assert(std::is_same_v<Vector::const_reverse_iterator, std::reverse_iterator<Vector::const_iterator>>);
static_assert(std::is_same_v<std::iterator_traits<Vector::iterator>::iterator_category, std::random_access_iterator_tag>);
static_assert(std::is_same_v<std::iterator_traits<Vector::iterator>::reference, Number &>);
static_assert(std::is_same_v<std::iterator_traits<Vector::const_iterator>::pointer, const Number *>);
static_assert(std::is_convertible_v<Vector::iterator, Vector::const_iterator>);
static_assert(!std::is_convertible_v<Vector::const_iterator, Vector::iterator>);
static_assert(!std::is_convertible_v<size_t, Vector> && !std::is_convertible_v<Named<Number>, Vector>);
static_assert(std::is_nothrow_move_constructible_v<Vector> && std::is_nothrow_constructible_v<Vector, const Named<Number> &>);
static_assert(!std::is_nothrow_move_assignable_v<Vector> && std::is_nothrow_move_assignable_v<Plain>);
static_assert(!noexcept(std::declval<Vector &>().swap(std::declval<Vector &>())));
static_assert(noexcept(std::declval<Plain &>().swap(std::declval<Plain &>())));
static_assert(noexcept(std::declval<const Vector &>().max_size()));

static void print(const char *what, const Vector &v) {
  std::printf("%s, by allocator %d:", what, v.get_allocator().name);
  for (const Number &it : v)
    std::printf(" %d", it.value);
  std::printf("; %d numbers in all\n", alive);
}

static void constructors() {
  const Named<Number> seven(7), eight(8);
  const std::list<Number> list{1, 2, 3};
  const Vector none, none_of(seven), three(3), three_of(3, seven), copies(2, Number(5)), copies_of(2, Number(5), seven);
  const Vector range(list.begin(), list.end()), range_of(list.begin(), list.end(), seven), values{4, 5}, values_of({4, 5}, seven);
  for (const Vector *it : {&none, &none_of, &three, &three_of, &copies, &copies_of, &range, &range_of, &values, &values_of})
    print("constructed", *it);
  Vector copy(range_of), copy_of(range_of, eight);
  print("copy", copy);
  print("copy with an allocator", copy_of);
  Number *const kept = &copy[1];
  Vector moved(std::move(copy)), moved_of(std::move(copy_of), Named<Number>(9));
  // What a move to another allocator leaves may be anything.
  copy_of.clear();
  print("moved", moved);
  print("moved with an allocator", moved_of);
  std::printf("the same elements: %d; left: %zu\n", kept == &moved[1], copy.size());
}

static void assignments() {
  const std::list<Number> list{1, 2, 3};
  Vector a({1, 2}, Named<Number>(1)), b({3}, Named<Number>(2)), c({4, 5, 6}, Named<Number>(1));
  b = a;
  print("copied to", b);
  b = *&b;
  print("copied to itself", b);
  a = std::move(c);
  print("moved to", a);
  b = std::move(a);
  a.clear();
  print("moved to another allocator", b);
  b = {7, 8};
  print("a list", b);
  b.assign(3, Number(9));
  print("copies", b);
  b.assign(list.begin(), list.end());
  print("a range", b);
  b.assign({1});
  print("a list", b);
  Vector d({2, 3}, Named<Number>(2));
  b.swap(d);
  print("swapped", b);
  swap(b, d);
  print("swapped again", b);
  std::printf("%d %d %d %d %d %d\n", b == d, b != d, b < d, b > d, b <= d, b >= d);
  NAMESPACE::concurrent_vector guided(list.begin(), list.end());
  NAMESPACE::concurrent_vector of_copies(2, 5), of_list{1, 2, 3}, of_copy(of_list);
  static_assert(std::is_same_v<decltype(guided)::value_type, Number> && std::is_same_v<decltype(of_list)::value_type, int>);
  NAMESPACE::concurrent_vector by_allocator(list.begin(), list.end(), Named<Number>(3));
  static_assert(std::is_same_v<decltype(by_allocator), Vector>);
  std::printf("guided: %zu %zu %zu %zu\n", guided.size(), of_copies.size(), of_list.size(), of_copy.size());
}

static void growths() {
  Vector v;
  const Number one(1);
  const std::list<Number> list{7, 8};
  const Vector::iterator at[] = {
      v.push_back(one),
      v.push_back(Number(2)),
      v.emplace_back(3),
      v.emplace_back(),
      v.grow_by(2),
      v.grow_by(2, Number(6)),
      v.grow_by(list.begin(), list.end()),
      v.grow_by({11, 12}),
      v.grow_to_at_least(14),
      v.grow_to_at_least(16, Number(13)),
  };
  for (const auto &it : at)
    std::printf("place %td has %d\n", it - v.begin(), it->value);
  v.grow_by(v.size())->value = 14;
  print("grown", v);
}

static void access() {
  Vector v{1, 2, 3, 4};
  const Vector &c = v;
  v[0].value += 10;
  v.at(1).value += 20;
  v.front().value += 30;
  v.back().value += 40;
  std::printf("%d %d %d %d\n", c[0].value, c.at(1).value, c.front().value, c.back().value);
  try {
    c.at(4);
  } catch (const std::out_of_range &) {
    std::printf("out of range\n");
  }
  const Number *const kept = &c[3];
  v.grow_by(1000);
  std::printf("stays: %d\n", kept == &v.at(3) && kept == std::addressof(*(c.begin() + 3)));
}

static void iterators() {
  Vector v{0, 1, 2, 3, 4, 5, 6, 7, 8, 9};
  const Vector &c = v;
  Vector::iterator it = v.begin(), none;
  Vector::const_iterator from = it;
  from = it;
  none = it++;
  const int seen[] = {none->value, (*it).value,    (++it)->value,    (it--)->value,    (--it)->value,
                      (it += 4)->value, (it -= 3)->value, (it + 2)->value, (2 + it)->value, (it - 1)->value, it[5].value};
  for (const int number : seen)
    std::printf("%d ", number);
  std::printf("%td %td %d %d %d ", it - from, from - it, it == from, it != from, it < from);
  std::printf("%d %d %d\n", it > from, it <= from, it >= from);
  std::printf("%td %td %td\n", v.end() - v.begin(), c.end() - c.begin(), c.cend() - c.cbegin());
  for (auto last = v.rbegin(); last != v.rend(); ++last)
    std::printf("%d ", last->value);
  for (auto last = c.rbegin(); last != c.rend(); ++last)
    std::printf("%d ", last->value);
  for (auto last = c.crbegin(); last != c.crend(); ++last)
    std::printf("%d ", last->value);
  std::printf("\n");
}

static void ranges() {
  Vector v{0, 1, 2, 3, 4, 5, 6, 7, 8, 9};
  const Vector &c = v;
  Vector::range_type whole = v.range(3);
  Vector::range_type upper(whole, tbb::split());
  const Vector::const_range_type lower = whole, all = c.range();
  static_assert(std::is_same_v<Vector::range_type::iterator, Vector::iterator>);
  static_assert(std::is_same_v<Vector::const_range_type::const_iterator, Vector::const_iterator>);
  static_assert(std::is_same_v<Vector::range_type::value_type, Number> && std::is_same_v<Vector::range_type::size_type, size_t>);
  static_assert(std::is_same_v<Vector::range_type::reference, Number &>);
  static_assert(std::is_same_v<Vector::range_type::const_reference, const Number &>);
  static_assert(std::is_same_v<Vector::range_type::difference_type, ptrdiff_t>);
  std::printf("%td to %td, ", lower.begin() - c.begin(), lower.end() - c.begin());
  std::printf("%td to %td of grain %zu, ", upper.begin() - v.begin(), upper.end() - v.begin(), upper.grainsize());
  std::printf("%zu %d %d; ", upper.size(), upper.empty(), upper.is_divisible());
  std::printf("%zu of grain %zu %d %d\n", all.size(), all.grainsize(), all.empty(), all.is_divisible());
  const tbb::blocked_range<Vector::iterator> blocked = v.range(2);
  std::printf("blocked: %zu of grain %zu\n", blocked.size(), blocked.grainsize());
  std::printf("made: %zu\n", Vector::range_type(v.begin(), v.begin() + 4).size());
}

static void by_one_thread() {
  Vector v;
  std::printf("%d %zu %d\n", v.empty(), v.size(), v.capacity() < v.max_size());
  v.reserve(0);
  v.reserve(100);
  std::printf("%d %zu %d\n", v.empty(), v.size(), v.capacity() >= 100);
  v.resize(5, Number(1));
  v.resize(7);
  print("resized", v);
  v.resize(3);
  v.resize(3, Number(2));
  print("resized", v);
  Number *const kept = &v[2];
  v.shrink_to_fit();
  std::printf("%d %d %d\n", v.capacity() >= 3, v.capacity() < 100, kept == &v[2] || v.size() == 3);
  v.clear();
  print("cleared", v);
  v.push_back(Number(4));
  print("filled again", v);
  try {
    v.reserve(v.max_size() + 1);
  } catch (const std::length_error &) {
    std::printf("too long\n");
  }
}

// A type that can be neither copied nor moved, since its objects keep their own addresses.
struct Ring {
  const Ring *next, *before;
  int number;
  explicit Ring(int number = 0) : next(this), before(this), number(number) {}
  Ring(const Ring &) = delete;
  Ring &operator=(const Ring &) = delete;
};

// A type that has vectors of itself.
struct Tree {
  int number;
  NAMESPACE::concurrent_vector<Tree> below;
  explicit Tree(int number) : number(number) {}
  int sum() const {
    int all = number;
    for (const Tree &it : below)
      all += it.sum();
    return all;
  }
};

// A type that is aligned to more than 8 bytes.
struct alignas(64) Wide {
  int number = 3;
};

template <size_t N> struct Words {
  unsigned char bytes[N];
};

template <size_t N> static void sized() {
  NAMESPACE::concurrent_vector<Words<N>> v;
  for (unsigned char i = 0; i < 100; ++i) {
    Words<N> words;
    std::fill(words.bytes, words.bytes + N, i);
    i % 2 ? v.push_back(words) : v.grow_by(1, words);
  }
  v.grow_by(100);
  size_t sum = 0;
  for (const Words<N> &it : v)
    for (const unsigned char byte : it.bytes)
      sum += byte;
  std::printf("%zu bytes: %zu\n", N, sum);
}

static void other_types() {
  NAMESPACE::concurrent_vector<Ring> rings(2);
  rings.emplace_back(3);
  rings.grow_by(40);
  rings.grow_to_at_least(50);
  size_t own = 0;
  for (const Ring &it : rings)
    own += it.next == &it && it.before == &it;
  std::printf("%zu of %zu keep their address, one has %d\n", own, rings.size(), rings[2].number);
  NAMESPACE::concurrent_vector<std::atomic<int>> counts(10);
  counts.emplace_back(5);
  for (std::atomic<int> &it : counts)
    ++it;
  std::printf("%d %d of %zu\n", counts[9].load(), counts[10].load(), counts.size());
  Tree tree(1);
  for (int i = 2; i < 10; ++i)
    tree.below.emplace_back(i)->below.emplace_back(10 * i);
  const Tree copy(tree);
  std::printf("%d %d\n", tree.sum(), copy.sum());
  NAMESPACE::concurrent_vector<Wide> wide(5);
  std::printf("aligned: %d, has %d\n", reinterpret_cast<uintptr_t>(&wide[3]) % 64 == 0, wide[4].number);
  NAMESPACE::concurrent_vector<std::function<int(int)>> calls;
  calls.push_back([&](int number) { return number + copy.number; });
  calls.emplace_back([](int number) { return number * 2; });
  std::printf("%d %d\n", calls[0](5), calls[1](5));
  sized<1>(), sized<2>(), sized<5>(), sized<8>(), sized<12>(), sized<16>(), sized<24>(), sized<32>(), sized<36>(), sized<40>();
  sized<48>(), sized<52>(), sized<56>(), sized<63>(), sized<64>(), sized<65>(), sized<100>();
}

int main() {
  constructors();
  assignments();
  growths();
  access();
  iterators();
  ranges();
  by_one_thread();
  other_types();
  std::printf("%d numbers left\n", alive);
}
