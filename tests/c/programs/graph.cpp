// A graph that threads of oneTBB build: nodes are a class type, edges are pointers to nodes, which never move. Then distances
// are found from the first node, level by level, with the nodes of the next level collected by all threads.
#include CONTAINER

#include <tbb/parallel_for.h>

#include <atomic>
#include <cstdio>
#include <string>

struct Node {
  std::string name;
  NAMESPACE::concurrent_vector<Node *> next;
  std::atomic<int> distance;

  explicit Node(unsigned number) : name("node " + std::to_string(number)), distance(-1) {}
  Node(const Node &other) : name(other.name), next(other.next), distance(other.distance.load()) {}
};

int main() {
  NAMESPACE::concurrent_vector<Node> nodes;
  nodes.reserve(3000);
  for (unsigned number = 0; number < 3000; ++number)
    nodes.emplace_back(number);
  tbb::parallel_for(0u, 3000u, [&](unsigned number) {
    nodes[number].next.push_back(&nodes[(number * 7 + 3) % 3000]);
    nodes[(number * 11 + 5) % 3000].next.push_back(&nodes[number]);
  });

  NAMESPACE::concurrent_vector<Node *> level, next;
  nodes.front().distance = 0;
  level.push_back(&nodes.front());
  for (int distance = 1; !level.empty(); ++distance) {
    next.clear();
    tbb::parallel_for(level.range(4), [&](const auto &part) {
      for (Node *node : part)
        for (Node *to : node->next) {
          int unseen = -1;
          if (to->distance.compare_exchange_strong(unseen, distance))
            next.push_back(to);
        }
    });
    std::printf("%zu nodes at %d\n", level.size(), distance - 1);
    level.swap(next);
  }

  long total = 0;
  size_t edges = 0;
  for (auto it = nodes.cbegin(); it != nodes.cend(); ++it) {
    total += it->distance;
    edges += it->next.size();
  }
  const NAMESPACE::concurrent_vector<Node> copy(nodes);
  std::printf("%zu edges, total distance %ld, %s\n", edges, total, copy.at(17).name.c_str());
  try {
    copy.at(3000);
  } catch (const std::out_of_range &) {
    std::printf("no node 3000\n");
  }
}
