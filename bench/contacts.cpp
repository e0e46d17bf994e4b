// The program of crates/contacts over other vectors: oneTBB's concurrent_vector, or with -DLOCKED a std::vector under a mutex.
// Four threads find which particles of a box touch, and collect the contacts in one vector, while a fifth reads those that are
// there. The list is then sorted, and totals are printed that no schedule can change.
//
//   contacts [PARTICLES [SEED]]
#include <algorithm>
#include <atomic>
#include <cstdint>
#include <cstdio>
#include <cstdlib>
#include <mutex>
#include <numeric>
#include <optional>
#include <thread>
#include <vector>

#include <tbb/concurrent_vector.h>

// Where a particle is, in units of which the side of the box has 65,536.
struct Particle {
  uint16_t x, y;
};

// Two particles that touch, and the square of their distance.
struct Contact {
  uint64_t first, second, distance;

  bool operator<(const Contact &other) const {
    if (first != other.first)
      return first < other.first;
    if (second != other.second)
      return second < other.second;
    return distance < other.distance;
  }
};

// How near two particles are that touch, squared.
constexpr uint64_t REACH = 500 * 500;

// How many workers find contacts.
constexpr unsigned FINDERS = 4;

// How often the reader walks over what is there.
constexpr unsigned WALKS = 20;

// The generator Pcg32 as it is seeded from one number.
class Pcg32 {
public:
  explicit Pcg32(uint64_t seed) {
    uint32_t words[4];
    for (uint32_t &word : words) {
      seed = seed * 6364136223846793005u + 11634580027462260723u;
      const uint32_t mixed = ((seed >> 18) ^ seed) >> 27, turn = seed >> 59;
      word = (mixed >> turn) | (mixed << (-turn & 31));
    }
    increment = (uint64_t(words[3]) << 32 | words[2]) | 1;
    state = ((uint64_t(words[1]) << 32 | words[0]) + increment) * 6364136223846793005u + increment;
  }

  uint32_t next() {
    const uint64_t old = state;
    state = old * 6364136223846793005u + increment;
    const uint32_t mixed = ((old >> 18) ^ old) >> 27, turn = old >> 59;
    return (mixed >> turn) | (mixed << (-turn & 31));
  }

private:
  uint64_t state, increment;
};

// Particles at random places of the box.
std::vector<Particle> scatter(uint32_t count, uint64_t seed) {
  Pcg32 words(seed);
  std::vector<Particle> particles;
  particles.reserve(count);
  for (uint32_t i = 0; i < count; ++i) {
    const uint32_t word = words.next();
    particles.push_back({uint16_t(word / 65536), uint16_t(word % 65536)});
  }
  return particles;
}

// The square of how far apart two particles are. What leaves the box on one side comes in on the other.
uint64_t distance(Particle a, Particle b) {
  const uint64_t x = std::min(uint16_t(a.x - b.x), uint16_t(b.x - a.x));
  const uint64_t y = std::min(uint16_t(a.y - b.y), uint16_t(b.y - a.y));
  return x * x + y * y;
}

// The contact of two particles, if they touch.
std::optional<Contact> touch(const std::vector<Particle> &particles, size_t first, size_t second) {
  const uint64_t between = distance(particles[first], particles[second]);
  if (between > REACH)
    return std::nullopt;
  return Contact{first, second, between};
}

// The vector that all threads share.
class Shared {
public:
#ifdef LOCKED
  void push_back(const Contact &contact) {
    std::lock_guard<std::mutex> guard(lock);
    values.push_back(contact);
  }

  // How many contacts are there now, each looked at.
  uint64_t shown() {
    std::lock_guard<std::mutex> guard(lock);
    return std::count_if(values.begin(), values.end(), [](const Contact &contact) { return contact.distance <= REACH; });
  }

  std::vector<Contact> close() { return std::move(values); }

private:
  std::mutex lock;
  std::vector<Contact> values;
#else
  void push_back(const Contact &contact) { values.push_back({contact, true}); }

  // How many contacts are there now, each looked at. A value may still be under construction: its mark says that it is not.
  uint64_t shown() {
    const size_t size = values.size();
    uint64_t seen = 0;
    for (size_t place = 0; place < size; ++place)
      seen += values[place].is_there.load(std::memory_order_acquire);
    return seen;
  }

  std::vector<Contact> close() {
    std::vector<Contact> list;
    list.reserve(values.size());
    for (const Marked &marked : values)
      list.push_back(marked.contact);
    return list;
  }

private:
  struct Marked {
    Contact contact;
    std::atomic<bool> is_there;
    Marked(const Contact &it, bool there) : contact(it), is_there(there) {}
    Marked(const Marked &other) : contact(other.contact), is_there(false) {
      is_there.store(true, std::memory_order_release);
    }
  };
  tbb::concurrent_vector<Marked> values;
#endif
};

// One worker finds the contacts of every fourth particle, and the last one reads what is there so far.
uint64_t work(Shared &shared, const std::vector<Particle> &particles, unsigned number) {
  uint64_t count = 0;
  if (number == FINDERS) {
    for (unsigned walk = 0; walk < WALKS; ++walk)
      count = std::max(count, shared.shown());
    return count;
  }
  for (size_t first = number; first < particles.size(); first += FINDERS)
    for (size_t second = 0; second < first; ++second)
      if (const auto contact = touch(particles, first, second)) {
        shared.push_back(*contact);
        ++count;
      }
  return count;
}

int main(int argc, char **argv) {
  const uint32_t count = argc > 1 ? strtoul(argv[1], nullptr, 10) : 2000;
  const uint64_t seed = argc > 2 ? strtoull(argv[2], nullptr, 10) : 1;
  const std::vector<Particle> particles = scatter(count, seed);
  Shared shared;
  uint64_t counts[FINDERS + 1];
  std::vector<std::thread> threads;
  for (unsigned number = 0; number <= FINDERS; ++number)
    threads.emplace_back([&, number] { counts[number] = work(shared, particles, number); });
  for (std::thread &thread : threads)
    thread.join();
  std::vector<Contact> contacts = shared.close();
  for (const uint64_t seen : counts)
    if (seen > contacts.size())
      return 1;
  std::sort(contacts.begin(), contacts.end());
  const uint64_t total = std::accumulate(contacts.begin(), contacts.end(), uint64_t(0),
                                         [](uint64_t sum, const Contact &contact) { return sum + contact.distance; });
  printf("%zu contacts, whose squared distances add up to %lu\n", contacts.size(), total);
  for (size_t i = 0; i < contacts.size() && i < 3; ++i)
    printf("%lu touches %lu\n", contacts[i].first, contacts[i].second);
}
