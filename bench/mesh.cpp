// The program of crates/mesh over oneTBB's concurrent_vector, which each worker pushes its edges to, or with -DBUFFERED appends
// them to in runs of 64. Workers find which points of a file are near each other, and collect the edges between them in one
// vector, while the first thread reports how many there are. The edges are then sorted, duplicates are dropped, and what no
// schedule can change is printed.
//
//   mesh FILE [WORKERS [LIMIT]]
#include <algorithm>
#include <atomic>
#include <chrono>
#include <cstdint>
#include <cstdio>
#include <cstdlib>
#include <exception>
#include <fstream>
#include <iterator>
#include <stdexcept>
#include <string>
#include <thread>
#include <tuple>
#include <vector>

#include <tbb/concurrent_vector.h>

// Two points have an edge if they are nearer to each other than this.
constexpr int REACH = 150;

// How many edges a worker buffers.
constexpr size_t BUFFERED_EDGES = 64;

// The reporter looks after each pause, for about a minute at most, and prints a line once in 250 looks.
constexpr std::chrono::milliseconds PAUSE(1);
constexpr unsigned LOOKS = 60'000;
constexpr unsigned LOOKS_PER_LINE = 250;

// A point of the plane, with its line in the file. The order is by x first.
struct Point {
  uint16_t x, y;
  uint32_t line;

  bool operator<(const Point &other) const { return std::tie(x, y, line) < std::tie(other.x, other.y, other.line); }
};

// The lines of two points that are near each other, the lower one first.
struct Edge {
  uint32_t low, high;

  bool operator<(const Edge &other) const { return std::tie(low, high) < std::tie(other.low, other.high); }
  bool operator==(const Edge &other) const { return low == other.low && high == other.high; }
};

// Whether two points have an edge.
bool have_edge(const Point &point, const Point &other) {
  const int64_t x = point.x - other.x, y = point.y - other.y;
  return point.line != other.line && x * x + y * y < REACH * REACH;
}

// Parses a coordinate, and moves on behind it.
uint16_t parse_coordinate(const char *&text) {
  char *end;
  const unsigned long number = strtoul(text, &end, 10);
  if (end == text || number > UINT16_MAX)
    throw std::runtime_error("not a coordinate");
  text = end;
  return number;
}

// Reads a point from each line of a file, and sorts the points.
std::vector<Point> read_points(const char *file) {
  std::ifstream input(file);
  if (!input)
    throw std::runtime_error("no file of points");
  const std::string text((std::istreambuf_iterator<char>(input)), std::istreambuf_iterator<char>());
  std::vector<Point> points;
  const char *rest = text.c_str();
  for (uint32_t line = 1; *rest; ++line) {
    const uint16_t x = parse_coordinate(rest), y = parse_coordinate(rest);
    points.push_back({x, y, line});
    rest += *rest == '\n';
  }
  std::sort(points.begin(), points.end());
  return points;
}

using Edges = tbb::concurrent_vector<Edge>;

// Appends edges.
class Writer {
public:
  Writer(Edges &edges, size_t limit) : edges(edges), limit(limit) {}

#ifdef BUFFERED
  void push(Edge edge) {
    if (buffer.size() == BUFFERED_EDGES)
      flush();
    buffer.push_back(edge);
  }

  void flush() {
    check(edges.grow_by(buffer.begin(), buffer.end()), buffer.size());
    buffer.clear();
  }

private:
  std::vector<Edge> buffer;
#else
  void push(Edge edge) { check(edges.push_back(edge), 1); }

  void flush() {}

private:
#endif
  void check(Edges::iterator at, size_t count) {
    if (size_t(at - edges.begin()) + count > limit)
      throw std::length_error("no room");
  }

  Edges &edges;
  size_t limit;
};

// Appends the edges of every n-th point from the first one on, if n workers find edges.
void find_edges(const std::vector<Point> &points, Writer writer, size_t first, size_t workers) {
  for (size_t i = first; i < points.size(); i += workers) {
    const Point point = points[i];
    const auto from = std::partition_point(points.begin(), points.end(),
                                           [&](const Point &other) { return other.x < point.x - REACH; });
    const auto to = std::partition_point(points.begin(), points.end(),
                                         [&](const Point &other) { return other.x <= point.x + REACH; });
    for (auto other = from; other != to; ++other)
      if (have_edge(point, *other))
        writer.push({std::min(point.line, other->line), std::max(point.line, other->line)});
  }
  writer.flush();
}

// Prints now and then how many edges there are, until the workers have ended, and for about a minute at most.
void report(const Edges &edges, const std::atomic<size_t> &ended, size_t workers) {
  for (unsigned look = 1; look <= LOOKS; ++look) {
    std::this_thread::sleep_for(PAUSE);
    if (ended >= workers)
      return;
    if (look % LOOKS_PER_LINE == 0)
      fprintf(stderr, "%zu edges so far\n", edges.size());
  }
}

// Lets the workers append what they find.
void find_all(const std::vector<Point> &points, Edges &edges, size_t workers, size_t limit) {
  std::atomic<size_t> ended = 0;
  std::vector<std::exception_ptr> errors(workers);
  std::vector<std::thread> threads;
  for (size_t worker = 0; worker < workers; ++worker)
    threads.emplace_back([&, worker] {
      try {
        find_edges(points, Writer(edges, limit), worker, workers);
      } catch (...) {
        errors[worker] = std::current_exception();
      }
      ++ended;
    });
  report(edges, ended, workers);
  for (std::thread &thread : threads)
    thread.join();
  for (const std::exception_ptr &error : errors)
    if (error)
      std::rethrow_exception(error);
}

int main(int argc, char **argv) try {
  if (argc < 2)
    throw std::runtime_error("mesh FILE [WORKERS [LIMIT]]");
  const size_t workers = argc > 2 ? strtoul(argv[2], nullptr, 10) : 8;
  const size_t limit = argc > 3 ? strtoul(argv[3], nullptr, 10) : size_t(1) << 32;
  const std::vector<Point> points = read_points(argv[1]);
  Edges shared;
  find_all(points, shared, workers, limit);
  std::vector<Edge> edges(shared.begin(), shared.end());
  const size_t appended = edges.size();
  std::sort(edges.begin(), edges.end());
  edges.erase(std::unique(edges.begin(), edges.end()), edges.end());
  printf("%zu edges, %zu duplicates dropped\n", edges.size(), appended - edges.size());
  for (size_t i = 0; i < edges.size() && i < 5; ++i)
    printf("%u %u\n", edges[i].low, edges[i].high);
} catch (const std::exception &error) {
  fprintf(stderr, "Error: %s\n", error.what());
  return 1;
}
