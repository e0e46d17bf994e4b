// Calls each member of the table at the head of kehldora.hpp, over elements that lie in the vector and behind a pointer.
#include "check.h"
#include "hooks.h"

#include <kehldora.hpp>

#include <list>
#include <memory>
#include <sstream>
#include <string>
#include <thread>

using kehldora::concurrent_vector;

// How many values of counted types there are.
static int alive = 0;
// How many constructions are left until one throws, or a negative number.
static int until_throw = -1;

// In memory.cpp: how many requests of the header for memory are left until one is refused, or a negative number.
extern int until_no_memory;

struct Refused {};

static void construct() {
  if (until_throw >= 0 && until_throw-- == 0)
    throw Refused();
  ++alive;
}

// A type with all constructors, each of which may throw. It lies behind a pointer.
struct Counted {
  int number;
  Counted(int number = 0) : number(number) { construct(); }
  Counted(const Counted &other) : number(other.number) { construct(); }
  Counted(Counted &&other) : number(std::exchange(other.number, -1)) { construct(); }
  Counted &operator=(const Counted &) = default;
  Counted &operator=(Counted &&) = default;
  ~Counted() { --alive; }
  bool operator==(const Counted &other) const { return number == other.number; }
  bool operator<(const Counted &other) const { return number < other.number; }
};

// The same type, whose bytes may be moved by the program's word.
struct Relocated : Counted {
  using Counted::Counted;
};
template <> struct kehldora::is_relocatable<Relocated> : std::true_type {};

struct Triple {
  uint64_t words[3];
  Triple(int number = 0) : words{uint64_t(number), 1, 2} {}
  bool operator==(const Triple &other) const { return words[0] == other.words[0]; }
  bool operator<(const Triple &other) const { return words[0] < other.words[0]; }
};

struct Text : std::string {
  Text(int number = 0) : std::string("a text that is longer than a short one: " + std::to_string(number)) {}
};

// An allocator that can be told from others, and counts. If it propagates, assignments and swaps of vectors take it along.
template <typename T, typename Propagates = std::false_type> struct Named {
  using value_type = T;
  using propagate_on_container_copy_assignment = Propagates;
  using propagate_on_container_move_assignment = Propagates;
  using propagate_on_container_swap = Propagates;
  int name;
  static inline int blocks = 0;
  explicit Named(int name = 0) : name(name) {}
  template <typename U> Named(const Named<U, Propagates> &other) : name(other.name) {}
  T *allocate(size_t count) {
    ++blocks;
    return std::allocator<T>().allocate(count);
  }
  void deallocate(T *at, size_t count) {
    --blocks;
    std::allocator<T>().deallocate(at, count);
  }
  bool operator==(const Named &other) const { return name == other.name; }
  bool operator!=(const Named &other) const { return name != other.name; }
};

template <typename Vector> bool holds(const Vector &vector, std::initializer_list<int> numbers) {
  using T = typename Vector::value_type;
  return vector.size() == numbers.size() &&
         std::equal(numbers.begin(), numbers.end(), vector.begin(), [](int number, const T &it) { return T(number) == it; });
}

template <typename Exception, typename Call> bool throws(Call call) {
  try {
    call();
  } catch (const Exception &) {
    return true;
  }
  return false;
}

template <typename T> void constructors_and_assignments() {
  using Vector = concurrent_vector<T>;
  const std::list<T> list{T(1), T(2)};
  CHECK(holds(Vector(), {}) && Vector().empty() && Vector().capacity() == 0 && Vector().max_size() == uint64_t{1} << 40);
  CHECK(Vector(3).size() == 3 && Vector(3)[2] == T());
  CHECK(holds(Vector(2, T(5)), {5, 5}));
  CHECK(holds(Vector(list.begin(), list.end()), {1, 2}));
  CHECK(holds(Vector{T(4), T(5)}, {4, 5}));
  Vector a{T(1), T(2), T(3)}, b(a), c(std::move(a));
  CHECK(holds(b, {1, 2, 3}) && holds(c, {1, 2, 3}) && holds(a, {}));
  a = b;
  CHECK(holds(a, {1, 2, 3}) && holds(b, {1, 2, 3}));
  a = *&a;
  CHECK(holds(a, {1, 2, 3}));
  a = {T(9)};
  CHECK(holds(a, {9}));
  b = std::move(a);
  CHECK(holds(b, {9}) && holds(a, {}));
  a.assign(2, T(6));
  CHECK(holds(a, {6, 6}));
  a.assign(list.begin(), list.end());
  CHECK(holds(a, {1, 2}));
  a.assign({T(7), T(8)});
  CHECK(holds(a, {7, 8}));
  a.assign(3, a[1]);
  CHECK(holds(a, {8, 8, 8}));
  swap(a, b);
  CHECK(holds(a, {9}) && holds(b, {8, 8, 8}));
  a.swap(b);
  CHECK(a == c || !(a == c));
  CHECK(holds(b, {9}) && b != c && c < b && b > c && c <= b && b >= c && !(b < c));
  concurrent_vector guided(list.begin(), list.end());
  static_assert(std::is_same_v<decltype(guided), Vector>);
}

template <typename T> void growths() {
  using Vector = concurrent_vector<T>;
  Vector v;
  const T one(1);
  CHECK(*v.push_back(one) == T(1) && *v.push_back(T(2)) == T(2) && *v.emplace_back(3) == T(3));
  auto it = v.grow_by(2);
  CHECK(it - v.begin() == 3 && *it == T() && it + 2 == v.end());
  it[1] = T(4);
  CHECK(*v.grow_by(2, T(5)) == T(5));
  const std::list<T> list{T(6), T(7)};
  CHECK(*v.grow_by(list.begin(), list.end()) == T(6));
  CHECK(*v.grow_by({T(8), T(9)}) == T(8));
  CHECK(holds(v, {1, 2, 3, 0, 4, 5, 5, 6, 7, 8, 9}));
  CHECK(v.grow_to_at_least(5) == v.end() && v.size() == 11);
  CHECK(v.grow_to_at_least(13) - v.begin() == 11 && v.size() == 13);
  CHECK(v.grow_to_at_least(15, T(3)) - v.begin() == 13 && v[14] == T(3) && v[12] == T());
  CHECK(v.grow_to_at_least(0) == v.begin() && v.grow_by(0) == v.end());
  Vector small(kehldora::limit{4});
  CHECK(small.max_size() == 4);
  small.grow_by(3, T(1));
  CHECK(throws<std::length_error>([&] { small.grow_by(2); }));
  CHECK(throws<std::length_error>([&] { small.grow_by(2, T(2)); }));
  CHECK(throws<std::length_error>([&] { small.grow_by(list.begin(), list.end()); }));
  CHECK(throws<std::length_error>([&] { small.grow_to_at_least(5); }));
  CHECK(throws<std::length_error>([&] { small.reserve(5); }));
  CHECK(small.try_reserve(5) == KEHLDORA_FULL && small.try_grow_by({T(1), T(2)}).status() == KEHLDORA_FULL);
  CHECK(small.try_push_back(T(4)) && small.try_emplace_back(5).status() == KEHLDORA_FULL);
  T kept(6);
  CHECK(small.try_push_back(std::move(kept)).status() == KEHLDORA_FULL && kept == T(6));
  CHECK(throws<std::length_error>([&] { small.push_back(T(4)); }));
  CHECK(holds(small, {1, 1, 1, 4}));
  CHECK(throws<std::length_error>([] { Vector(kehldora::limit{(uint64_t{1} << 40) + 1}); }));
}

template <typename T> void access() {
  concurrent_vector<T> v;
  const concurrent_vector<T> &c = v;
  CHECK(v.find(0) == nullptr && c.find(0) == nullptr && throws<std::out_of_range>([&] { v.at(0); }));
  for (int i = 0; i < 20; ++i)
    v.push_back(T(i));
  T *const kept = &v[7];
  v.grow_by(1000);
  CHECK(kept == &v[7] && kept == v.find(7) && kept == &c.at(7) && kept == *v.try_at(7) && kept == *c.try_at(7));
  CHECK(v.front() == T(0) && c.front() == T(0) && v.back() == T() && c.back() == T());
  CHECK(throws<std::out_of_range>([&] { c.at(1020); }) && c.try_at(1020).status() == KEHLDORA_OUT_OF_RANGE);
  CHECK(v.try_at(7).value() == kept && *v.try_at(7).operator->() == kept && c.try_at(7).text() == std::string("done"));
  CHECK(throws<std::out_of_range>([&] { c.try_at(1020).value(); }));
  CHECK(c.try_at(1020).text() == std::string("the place is not below the size"));
  v.resize(20);
  int sum = 0;
  for (const T &it : c)
    sum += int(&it - &it) + 1;
  CHECK(sum == 20 && c.cend() - c.cbegin() == 20 && *(c.rbegin()) == T(19) && *(v.rend() - 1) == T(0) && *v.crbegin() == T(19));
  CHECK(*(c.rend() - 1) == T(0) && *(v.crend() - 1) == T(0) && c.rend() - c.rbegin() == 20 && v.crend() == c.rend());
  CHECK(v.shown([](T &it) { it = T(1); }) == 20 && c.shown([](const T &it) { CHECK(it == T(1)); }) == 20);
  typename concurrent_vector<T>::const_iterator from = v.begin();
  auto it = v.begin() + 5;
  CHECK(it.place() == 5 && from.place() == 0 && c.end().place() == 20);
  CHECK(it - from == 5 && from < it && it > from && from <= it && it >= from && from != it && it-- != from);
  --it;
  CHECK(&it[0] == &v[3] && &*it++ == &v[3] && &*(2 + it - 1) == &v[5] && &*(it -= 2) == &v[2] && &*(it += 1) == &v[3]);
  std::sort(v.begin(), v.end());
}

template <typename T> void one_thread() {
  concurrent_vector<T> v;
  v.reserve(9);
  CHECK(v.capacity() == 16 && v.empty());
  v.resize(20, T(1));
  v.resize(3, T(2));
  v.resize(4);
  CHECK(v.size() == 4 && v[2] == T(1) && v[3] == T() && v.capacity() == 32);
  T *const kept = &v[1];
  v.shrink_to_fit();
  CHECK(v.capacity() == 16 && kept == &v[1]);
  v.clear();
  CHECK(v.empty() && v.capacity() == 16);
  v.push_back(T(1));
  v.push_back(T(2));
  auto list = v.close();
  CHECK(v.empty() && list.size() == 2 && list[1] == T(2) && throws<std::out_of_range>([&] { list[2]; }));
  v.push_back(T(5));
  list[0] = T(3);
  CHECK(*list.begin() == T(3) && list.end() - list.begin() == 2);
  v = list.open();
  CHECK(holds(v, {3, 2}));
  const std::vector<T> values = v.into_vector();
  CHECK(values.size() == 2 && values[0] == T(3) && v.empty());
  v.grow_by({T(1), T(1), T(2), T(2)});
  auto fewer = v.close();
  fewer.cut(std::unique(fewer.begin(), fewer.end()).place());
  fewer.cut(3);
  CHECK(fewer.size() == 2 && fewer[1] == T(2) && throws<std::out_of_range>([&] { fewer[2]; }));
  v = fewer.open();
  fewer.cut(0);
  CHECK(fewer.empty() && *v.push_back(T(3)) == T(3) && holds(v, {1, 2, 3}));
  v.clear();
  v.push_back(T(1));
  CHECK(v.close().into_vector().size() == 1);
}

template <typename T> void hands_and_buffers() {
  concurrent_vector<T> v;
  {
    auto hand = v.make_hand(), other = v.make_hand();
    hand.push_back(T(1));
    other = std::move(hand);
    other.emplace_back(2);
    const std::list<T> list{T(3), T(4)};
    CHECK(other.grow_by(list.begin(), list.end()) - v.begin() == 2 && other.size() == 4 && *other.find(3) == T(4));
    CHECK(other.find(4) == nullptr);
    v.clear();
    other.push_back(T(5));
  }
  {
    auto buffer = v.buffered(3);
    buffer.push_back(T(6));
    buffer.emplace_back(7);
    CHECK(v.size() == 1);
    buffer.push_back(T(8));
    CHECK(v.size() == 4);
    buffer.push_back(T(9));
    buffer.flush();
    buffer.push_back(T(10));
  }
  CHECK(holds(v, {5, 6, 7, 8, 9, 10}));
  concurrent_vector<T> small(kehldora::limit{2});
  {
    auto buffer = small.buffered(2);
    for (int i = 0; i < 4; ++i)
      buffer.push_back(T(i));
    CHECK(throws<std::length_error>([&] { buffer.push_back(T(4)); }) && buffer.try_flush() == KEHLDORA_FULL);
  }
  CHECK(holds(small, {0, 1}));
}

template <typename T> void all() {
  constructors_and_assignments<T>();
  growths<T>();
  access<T>();
  one_thread<T>();
  hands_and_buffers<T>();
  CHECK(alive == 0 && hook_blocks() == 0);
}

// Types that can only be moved.
static void unique_pointers() {
  using Pointer = std::unique_ptr<Counted>;
  concurrent_vector<Pointer> v;
  v.push_back(std::make_unique<Counted>(1));
  v.emplace_back(new Counted(2));
  v.grow_by(3);
  v.grow_to_at_least(7);
  Pointer *const kept = &v[0];
  v.resize(100);
  CHECK(kept == &v[0] && v[1]->number == 2 && !v[99]);
  Pointer moved = std::move(v[1]);
  concurrent_vector<Pointer> small(kehldora::limit{0});
  CHECK(!small.try_push_back(std::move(moved)) && moved->number == 2);
  std::vector<Pointer> values = v.into_vector();
  CHECK(values.size() == 100 && values[0]->number == 1);
}

// Types whose copies share what they point to.
static void shared_pointers() {
  using Pointer = std::shared_ptr<Counted>;
  using Weak = std::weak_ptr<Counted>;
  static_assert(kehldora::detail::cell<Pointer>::in_place && kehldora::detail::cell<Weak>::in_place);
  concurrent_vector<Weak> watch;
  {
    const Pointer one = std::make_shared<Counted>(1);
    concurrent_vector<Pointer> v(3, one);
    v.push_back(one);
    v.push_back(std::make_shared<Counted>(2));
    v.grow_by({one, nullptr});
    v.grow_to_at_least(100, one);
    CHECK(one.use_count() == 1 + 3 + 1 + 1 + 93 && v[4]->number == 2 && !v[6] && v[99] == one);
    for (const Pointer &it : v)
      watch.push_back(it);
    Pointer *const kept = &v[0];
    v.resize(4);
    CHECK(kept == &v[0] && one.use_count() == 5 && watch[4].expired() && watch[0].lock() == one);
    const concurrent_vector<Pointer> copy(v);
    CHECK(one.use_count() == 9 && copy == v);
    v.clear();
    CHECK(one.use_count() == 5 && v.into_vector().empty());
    watch.grow_by(3, watch[0]);
    watch.grow_by(2);
  }
  CHECK(watch.size() == 105 && watch.shown([](const Weak &it) { CHECK(it.expired()); }) == 105);
  CHECK(watch.into_vector().size() == 105);
}

// What a construction that throws leaves, for each construction of some growths.
template <typename T> void throwing() {
  for (int at = 0; at < 12; ++at) {
    concurrent_vector<T> v{T(1), T(2)};
    const T three(3);
    const std::vector<T> more{T(4), T(5)}, others{T(1), T(6)};
    auto hand = v.make_hand();
    const auto refused = [&](auto call) {
      const size_t size = v.size();
      const int before = alive;
      until_throw = at;
      const bool is_refused = throws<Refused>(call);
      until_throw = -1;
      CHECK(!is_refused || (v.size() == size && alive == before));
      CHECK(v[0] == T(1));
    };
    refused([&] { v.push_back(three); });
    refused([&] { v.emplace_back(3); });
    refused([&] { v.grow_by(3); });
    refused([&] { v.grow_by(3, three); });
    refused([&] { v.grow_by(more.begin(), more.end()); });
    refused([&] { v.grow_to_at_least(v.size() + 3); });
    refused([&] { v.grow_to_at_least(v.size() + 3, three); });
    refused([&] { v.resize(v.size() + 3); });
    refused([&] { v.resize(v.size() + 3, three); });
    refused([&] { v.push_back(T(3)); });
    refused([&] { v.grow_by({T(3), T(4)}); });
    refused([&] { v.try_push_back(three); });
    refused([&] { v.try_push_back(T(3)); });
    refused([&] { v.try_emplace_back(3); });
    refused([&] { v.try_grow_by(more.begin(), more.end()); });
    refused([&] { v.try_grow_by({T(3), T(4)}); });
    refused([&] { hand.push_back(three); });
    refused([&] { hand.push_back(T(3)); });
    refused([&] { hand.emplace_back(3); });
    refused([&] { hand.grow_by(more.begin(), more.end()); });
    refused([&] { v.buffered(2).push_back(three); });
    refused([&] { v.buffered(2).push_back(T(3)); });
    refused([&] { v.buffered(2).emplace_back(3); });
    refused([&] { v.assign({T(1), T(3)}); });
    refused([&] { v = {T(1), T(4)}; });
    refused([&] { v.assign(others.begin(), others.end()); });
    refused([&] { v.assign(2, others[0]); });
    refused([&] { concurrent_vector<T> other(4); });
    refused([&] { concurrent_vector<T> other(4, three); });
    refused([&] { concurrent_vector<T> other(more.begin(), more.end()); });
    refused([&] { concurrent_vector<T> other{T(3), T(4)}; });
    refused([&] { concurrent_vector<T> other(v); });
    refused([&] { concurrent_vector<T>(1) = v; });
    refused([&] { v = concurrent_vector<T>(v); });
  }
  CHECK(alive == 0 && hook_blocks() == 0);
}

// A life of a vector. Each call is done again until memory is there, and each time what was there is still there.
template <typename T> void life(int library, int header) {
  concurrent_vector<T> v;
  std::vector<int> expected;
  expected.reserve(40);
  hook_refuse(library);
  until_no_memory = header;
  const auto again = [&](auto call) {
    while (throws<std::bad_alloc>(call))
      for (size_t place = 0; place < expected.size(); ++place) {
        while (throws<std::bad_alloc>([&] { v.find(place); })) {
        }
        const T *const found = v.find(place);
        CHECK(!found || *found == T(expected[place]));
      }
  };
  again([&] { v.push_back(T(1)); });
  expected = {1};
  again([&] { v.grow_by(9, T(9)); });
  expected.resize(10, 9);
  again([&] { v.reserve(40); });
  again([&] { v.resize(5); });
  expected.resize(5);
  again([&] { v.shrink_to_fit(); });
  again([&] { v.grow_to_at_least(20, T(9)); });
  expected.resize(20, 9);
  until_no_memory = -1;
  hook_refuse(-1);
  CHECK(v.size() == 20 && std::equal(v.begin(), v.end(), expected.begin(), [](const T &a, int b) { return a == T(b); }));
}

// Each request of the library, or of the header, for memory is refused in turn. Each value ends once.
template <typename T> void without_memory() {
  for (int at = 0; at < 40; ++at) {
    life<T>(at, -1);
    life<T>(-1, at);
  }
  CHECK(alive == 0 && hook_blocks() == 0);
}

// A list whose values get no memory for a std::vector keeps them, also if the refused request is the library's.
template <typename T> void list_without_memory() {
  for (const bool is_library : {false, true}) {
    concurrent_vector<T> v{T(1), T(2)};
    auto list = v.close();
    if (is_library)
      hook_refuse(0);
    else
      until_no_memory = 0;
    CHECK(throws<std::bad_alloc>([&] { list.into_vector(); }));
    until_no_memory = -1;
    hook_refuse(-1);
    CHECK(list.size() == 2 && list[1] == T(2) && list.into_vector().size() == 2 && list.empty());
  }
  CHECK(alive == 0 && hook_blocks() == 0);
}

// A thread that has no hand yet walks over what others appended, without memory for one. It finds all or is told.
template <typename T> void first_walk_without_memory(int library, int header) {
  concurrent_vector<T> v;
  v.grow_by(10, T(3));
  std::thread([&] {
    std::vector<T> values;
    size_t count = 0;
    hook_refuse(library);
    until_no_memory = header;
    while (throws<std::bad_alloc>([&] { count = v.shown([](const T &) {}); })) {
    }
    CHECK(count == 10);
    while (throws<std::bad_alloc>([&] { values = v.into_vector(); })) {
    }
    until_no_memory = -1;
    hook_refuse(-1);
    CHECK(values.size() == 10 && values[9] == T(3) && v.empty());
  }).join();
}

// A vector ends without memory to close it: each value ends once.
static void ends_without_memory() {
  {
    concurrent_vector<Counted> v(100);
    hook_refuse(0);
    concurrent_vector<Counted> other(std::move(v));
  }
  hook_refuse(-1);
  CHECK(alive == 0 && hook_blocks() == 0);
}

static void allocators() {
  using Vector = concurrent_vector<Counted, Named<Counted>>;
  {
    Vector a(3, Counted(1), Named<Counted>(1)), b(Named<Counted>(2));
    CHECK(Named<Counted>::blocks == 3 && a.get_allocator().name == 1);
    b = a;
    CHECK(b.get_allocator().name == 2 && holds(b, {1, 1, 1}));
    b = std::move(a);
    CHECK(b.get_allocator().name == 2 && holds(b, {1, 1, 1}) && a.empty() && Named<Counted>::blocks == 3);
    Vector c(std::move(b), Named<Counted>(3)), d(c, Named<Counted>(4));
    CHECK(b.empty() && holds(c, {1, 1, 1}) && d == c && d.get_allocator().name == 4);
  }
  CHECK(Named<Counted>::blocks == 0 && alive == 0);
  {
    const Named<Counted> seven(7);
    const std::list<Counted> list{1, 2};
    Vector a(seven), b(kehldora::limit{4}, seven), c(3, seven), d(list.begin(), list.end(), seven), e({1, 2, 3}, seven);
    for (const Vector *it : {&a, &b, &c, &d, &e})
      CHECK(it->get_allocator().name == 7);
    CHECK(a.empty() && b.empty() && b.max_size() == 4 && holds(c, {0, 0, 0}) && holds(d, {1, 2}) && holds(e, {1, 2, 3}));
    CHECK(Named<Counted>::blocks == 8);
  }
  CHECK(Named<Counted>::blocks == 0 && alive == 0);
}

// An allocator that propagates goes where the values go, and with them no value is moved.
static void propagating_allocators() {
  using Taken = Named<Counted, std::true_type>;
  using Vector = concurrent_vector<Counted, Taken>;
  static_assert(std::is_nothrow_move_assignable_v<Vector> && std::is_nothrow_swappable_v<Vector>);
  {
    Vector a({1, 2}, Taken(1)), b(1, Counted(3), Taken(2)), c(1, Counted(4), Taken(3));
    Counted *const kept = &a[0];
    b = a;
    CHECK(b.get_allocator().name == 1 && holds(b, {1, 2}) && a.get_allocator().name == 1 && Taken::blocks == 5);
    c = std::move(a);
    CHECK(c.get_allocator().name == 1 && holds(c, {1, 2}) && kept == &c[0] && a.empty() && Taken::blocks == 4);
    Vector d(1, Counted(5), Taken(4));
    d.swap(c);
    CHECK(d.get_allocator().name == 1 && holds(d, {1, 2}) && kept == &d[0]);
    CHECK(c.get_allocator().name == 4 && holds(c, {5}));
    swap(c, d);
    c.push_back(6);
    CHECK(c.get_allocator().name == 1 && holds(c, {1, 2, 6}) && holds(d, {5}) && Taken::blocks == 6);
  }
  CHECK(Taken::blocks == 0 && alive == 0);
}

// What a reader finds at the last place of a long growth, which is claimed and not filled yet. It may come too late: then there are
// further growths, until it has found that in each way.
static void pending() {
  constexpr size_t COUNT = 1 << 18;
  bool by_try_at = false, by_at = false, by_find = false, by_shown = false;
  for (unsigned round = 0; !(by_try_at && by_at && by_find && by_shown); ++round) {
    CHECK(round < 10000);
    concurrent_vector<int> v;
    std::thread other([&] { v.grow_by(COUNT, 7); });
    while (v.empty()) {
    }
    CHECK(v.size() == COUNT);
    const auto found = v.try_at(COUNT - 1);
    by_try_at |= found.status() == KEHLDORA_PENDING;
    by_at |= throws<std::range_error>([&] { v.at(COUNT - 1); });
    by_find |= v.find(COUNT - 1) == nullptr;
    by_shown |= v.shown([](int it) { CHECK(it == 7); }) < COUNT;
    // Nobody has used the last segment, so this waits.
    CHECK(v[COUNT - 1] == 7 && (!found || **found == 7));
    other.join();
    CHECK(v.shown([](int) {}) == COUNT);
  }
}

static void runs() {
  concurrent_vector<uint64_t> v;
  for (uint64_t i = 0; i < 100; ++i)
    v.push_back(i);
  size_t place = 0;
  for (auto run = v.run(0); run.second; run = v.run(place))
    for (size_t i = 0; i < run.second; ++i, ++place)
      CHECK(run.first[i] == place && &v[place] == run.first + i);
  CHECK(place == 100);
}

int main() {
  all<int>();
  all<Triple>();
  all<Text>();
  all<Counted>();
  all<Relocated>();
  unique_pointers();
  shared_pointers();
  throwing<Counted>();
  throwing<Relocated>();
  without_memory<int>();
  without_memory<Counted>();
  without_memory<Relocated>();
  list_without_memory<int>();
  list_without_memory<Counted>();
  for (int at = 0; at < 8; ++at) {
    first_walk_without_memory<int>(at, -1);
    first_walk_without_memory<int>(-1, at);
    first_walk_without_memory<Relocated>(at, -1);
    first_walk_without_memory<Counted>(-1, at);
  }
  ends_without_memory();
  allocators();
  propagating_allocators();
  pending();
  runs();
  CHECK(alive == 0 && hook_blocks() == 0);
}
