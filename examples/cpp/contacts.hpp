// Which particles of a box touch: what contacts.cpp and contacts_mpi.cpp share.
#ifndef CONTACTS_HPP
#define CONTACTS_HPP

#include <algorithm>
#include <cinttypes>
#include <cstdint>
#include <cstdio>
#include <optional>
#include <tuple>
#include <vector>

#ifdef OVER_ONETBB
#include <tbb/concurrent_vector.h>
using tbb::concurrent_vector;
#else
#include <kehldora.hpp>
using kehldora::concurrent_vector;
#endif

// Where a particle is, in units of which the side of the box has 65,536.
struct Particle {
  uint16_t x, y;
};

// Two particles that touch, and the square of their distance.
struct Contact {
  uint64_t first, second, distance;

  bool operator<(const Contact &other) const {
    return std::tie(first, second, distance) < std::tie(other.first, other.second, other.distance);
  }
};

// How near two particles are that touch, squared.
constexpr uint64_t REACH = 500 * 500;

// How many threads find contacts.
constexpr unsigned FINDERS = 4;

// The generator Pcg32 as it is seeded from one number.
class Pcg32 {
public:
  explicit Pcg32(uint64_t seed) {
    uint32_t words[4];
    for (uint32_t &word : words) {
      seed = seed * 6364136223846793005u + 11634580027462260723u;
      const uint32_t mixed = uint32_t(((seed >> 18) ^ seed) >> 27), turn = uint32_t(seed >> 59);
      word = (mixed >> turn) | (mixed << (-turn & 31));
    }
    increment = (uint64_t(words[3]) << 32 | words[2]) | 1;
    state = ((uint64_t(words[1]) << 32 | words[0]) + increment) * 6364136223846793005u + increment;
  }

  uint32_t next() {
    const uint64_t old = state;
    state = old * 6364136223846793005u + increment;
    const uint32_t mixed = uint32_t(((old >> 18) ^ old) >> 27), turn = uint32_t(old >> 59);
    return (mixed >> turn) | (mixed << (-turn & 31));
  }

private:
  uint64_t state, increment;
};

// Particles at random places of the box.
inline std::vector<Particle> scatter(size_t count, uint64_t seed) {
  Pcg32 words(seed);
  std::vector<Particle> particles(count);
  for (Particle &it : particles) {
    const uint32_t word = words.next();
    it = {uint16_t(word / 65536), uint16_t(word % 65536)};
  }
  return particles;
}

// The contact of two particles, if they touch. What leaves the box on one side comes in on the other.
inline std::optional<Contact> touch(const std::vector<Particle> &particles, size_t first, size_t second) {
  const Particle a = particles[first], b = particles[second];
  const uint64_t x = std::min(uint16_t(a.x - b.x), uint16_t(b.x - a.x)), y = std::min(uint16_t(a.y - b.y), uint16_t(b.y - a.y));
  if (x * x + y * y > REACH)
    return std::nullopt;
  return Contact{first, second, x * x + y * y};
}

// Finds the contacts of every `step`th particle from one on, with the particles before it.
inline void find(const std::vector<Particle> &particles, size_t from, size_t step, concurrent_vector<Contact> &contacts) {
  for (size_t first = from; first < particles.size(); first += step)
    for (size_t second = 0; second < first; ++second)
      if (const auto contact = touch(particles, first, second))
        contacts.push_back(*contact);
}

// Sorts the contacts, and prints what no schedule can change.
template <typename Contacts> void print(Contacts &contacts) {
  std::sort(contacts.begin(), contacts.end());
  uint64_t total = 0;
  for (const Contact &contact : contacts)
    total += contact.distance;
  printf("%zu contacts, whose squared distances add up to %" PRIu64 "\n", contacts.size(), total);
  for (size_t i = 0; i < contacts.size() && i < 3; ++i)
    printf("%" PRIu64 " touches %" PRIu64 "\n", contacts[i].first, contacts[i].second);
}

#endif
