// std::threads count words: each word that is new to a thread is appended once, as a place that the others see at once. Strings,
// maps of pointers to elements that are kept, grow_to_at_least, reverse iterators, comparisons, values made by lists.
#include CONTAINER

#include <algorithm>
#include <cstdio>
#include <map>
#include <string>
#include <thread>
#include <utility>
#include <vector>

using Words = NAMESPACE::concurrent_vector<std::pair<std::string, long>>;

static void count(Words &words, unsigned thread) {
  std::map<std::string, Words::value_type *> mine;
  for (unsigned i = 0; i < 5000; ++i) {
    std::string word = "w" + std::to_string(thread) + "_" + std::to_string(i * i % 97);
    auto &at = mine[word];
    if (!at)
      at = &*words.emplace_back(std::move(word), 0);
    ++at->second;
  }
}

int main() {
  Words words{{"none", 0}, {"one", 1}};
  std::vector<std::thread> threads;
  for (unsigned thread = 0; thread < 4; ++thread)
    threads.emplace_back([&words, thread] { count(words, thread); });
  for (std::thread &thread : threads)
    thread.join();

  std::sort(words.begin(), words.end());
  long total = 0;
  for (const auto &word : words)
    total += word.second;
  std::printf("%zu words, %ld in all, first %s, last %s\n", words.size(), total, words.front().first.c_str(),
              words.rbegin()->first.c_str());

  Words more(words);
  std::printf("same: %d\n", more == words);
  more[3].second += 1;
  std::printf("same: %d, less: %d\n", more == words, words < more);
  more.assign(3, {"three", 3});
  more.grow_to_at_least(5, {"five", 5});
  more.grow_by({{"six", 6}, {"seven", 7}});
  for (const auto &[word, number] : more)
    std::printf("%s %ld\n", word.c_str(), number);
  words = std::move(more);
  std::printf("%zu and %zu\n", words.size(), static_cast<size_t>(words.end() - words.begin()));
}
