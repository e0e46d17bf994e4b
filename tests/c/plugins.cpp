// Two plug-ins in one process: each thread has hands of the vectors of both, and both have hands of the program's vector.
//
//   plugins FIRST SECOND    the shared objects
#include "check.h"

#include <dlfcn.h>
#include <kehldora.hpp>

#include <thread>
#include <vector>

struct Plugin {
  void (*add)(long);
  long (*total)();
  long (*add_to)(void *, long);

  explicit Plugin(const char *path) {
    void *const it = dlopen(path, RTLD_NOW | RTLD_LOCAL);
    if (!it)
      fprintf(stderr, "%s\n", dlerror());
    CHECK(it);
    add = reinterpret_cast<void (*)(long)>(dlsym(it, "add"));
    total = reinterpret_cast<long (*)()>(dlsym(it, "total"));
    add_to = reinterpret_cast<long (*)(void *, long)>(dlsym(it, "add_to"));
  }
};

int main(int, char **argv) {
  Plugin first(argv[1]), second(argv[2]);
  kehldora::concurrent_vector<long> mine;
  std::vector<std::thread> threads;
  for (int number = 0; number < 4; ++number)
    threads.emplace_back([&] {
      for (long i = 0; i < 1000; ++i) {
        first.add(1);
        second.add(1000);
        mine.push_back(1);
        first.add_to(&mine, 10);
        second.add_to(&mine, 100);
      }
    });
  for (std::thread &thread : threads)
    thread.join();
  CHECK(first.total() == 4000 && second.total() == 4000000 && mine.size() == 12000);
  long sum = 0;
  for (const long number : mine)
    sum += number;
  CHECK(sum == 4000 * 111);
}
