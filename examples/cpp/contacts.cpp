// Which particles of a box touch? Four threads look for contacts and collect them in one vector, while the first thread reads
// those that are there. The list is then sorted, and totals are printed that no schedule can change: those of crates/contacts.
//
//   contacts [PARTICLES [SEED]]
//
// With -DOVER_ONETBB the same program is compiled over oneTBB's vector.
#include "contacts.hpp"

#include <cstdlib>
#include <thread>

// How many contacts are there now. Over oneTBB one of these may still be under construction, so no value is looked at.
static size_t count(const concurrent_vector<Contact> &contacts) {
#ifdef OVER_ONETBB
  return contacts.size();
#else
  return contacts.shown([](const Contact &contact) {
    if (contact.distance > REACH)
      abort();
  });
#endif
}

int main(int argc, char **argv) {
  const auto particles = scatter(argc > 1 ? strtoul(argv[1], nullptr, 10) : 2000, argc > 2 ? strtoull(argv[2], nullptr, 10) : 1);
  concurrent_vector<Contact> contacts;
  std::vector<std::thread> threads;
  for (unsigned number = 0; number < FINDERS; ++number)
    threads.emplace_back([&, number] { find(particles, number, FINDERS, contacts); });
  for (size_t before = 0, walk = 0; walk < 20; ++walk) {
    const size_t now = count(contacts);
    if (now < before)
      return 1;
    before = now;
  }
  for (std::thread &thread : threads)
    thread.join();
  print(contacts);
}
