// The exports of kehldora.h in C++, for tests: the statuses and the layout in segments are those of the library, and no line is
// proved. A tool that watches C++, such as ThreadSanitizer, sees everything that happens in it.
#include <kehldora.h>

#include <atomic>
#include <cstring>
#include <new>
#include <utility>

// In hooks.c.
extern "C" void *library_malloc(size_t bytes);
extern "C" void library_free(void *block);

namespace {

// Four bits for each cell, as in the library.
enum State : uint64_t { EMPTY = 0, BUSY = 1, FILLED = KEHLDORA_FILLED_BITS, BROKEN = 5 };

template <typename T, typename... Args> T *make(Args &&...args) {
  void *block = library_malloc(sizeof(T));
  return block ? new (block) T{std::forward<Args>(args)...} : nullptr;
}

template <typename T> void end(T *it) {
  it->~T();
  library_free(it);
}

// The cells of one segment.
struct Segment {
  uint64_t *words;
  std::atomic<uint64_t> *states;
};

// The state of one cell.
class Cell {
public:
  Cell(std::atomic<uint64_t> &word, uint64_t offset) : word_(word), shift_(4 * (offset % 16)) {}

  uint64_t load() const { return word_.load(std::memory_order_acquire) >> shift_ & 15; }
  void store(uint64_t state) {
    uint64_t found = load();
    while (!step(found, state)) {
    }
  }
  // Makes one state another, or says which one it found.
  bool step(uint64_t &from, uint64_t to) {
    uint64_t word = word_.load(std::memory_order_acquire);
    do {
      const uint64_t found = word >> shift_ & 15;
      if (found != from) {
        from = found;
        return false;
      }
    } while (!word_.compare_exchange_weak(word, word ^ (from ^ to) << shift_, std::memory_order_acq_rel));
    return true;
  }

private:
  std::atomic<uint64_t> &word_;
  const uint64_t shift_;
};

struct Vector {
  uint64_t limit, words;
  uint32_t first;
  bool opaque;
  std::atomic<uint64_t> size{0}, hands{1};
  std::atomic<Segment *> segments[40] = {};

  Vector(uint64_t limit, uint64_t words, uint32_t first, bool opaque)
      : limit(limit), words(words), first(first), opaque(opaque) {}

  ~Vector() {
    for (auto &segment : segments)
      drop(segment);
  }

  unsigned segment_of(uint64_t place) const {
    const uint64_t within = place | ((uint64_t{1} << first) - 1);
    return 64 - unsigned(__builtin_clzll(within)) - first;
  }
  uint64_t begin_of(unsigned k) const { return k ? uint64_t{1} << (k + first - 1) : 0; }
  uint64_t length_of(unsigned k) const { return k ? begin_of(k) : uint64_t{1} << first; }

  std::atomic<uint64_t> *states(unsigned k) {
    Segment *const segment = segments[k].load(std::memory_order_acquire);
    return segment ? segment->states : nullptr;
  }
  Cell state(uint64_t place) {
    const unsigned k = segment_of(place);
    const uint64_t offset = place - begin_of(k);
    return Cell(states(k)[offset / 16], offset);
  }
  uint64_t *value(uint64_t place) {
    const unsigned k = segment_of(place);
    return segments[k].load(std::memory_order_acquire)->words + (place - begin_of(k)) * words;
  }

  // Makes a segment. It is of no use if another thread makes it first.
  bool install(unsigned k) {
    const uint64_t length = length_of(k), count = (length + 15) / 16;
    void *cells = library_malloc(length * words * 8), *states = cells ? library_malloc(count * 8) : nullptr;
    Segment *segment = states ? make<Segment>() : nullptr;
    if (!segment) {
      library_free(states);
      library_free(cells);
      return false;
    }
    *segment = {static_cast<uint64_t *>(cells), static_cast<std::atomic<uint64_t> *>(states)};
    for (uint64_t i = 0; i < count; ++i)
      new (segment->states + i) std::atomic<uint64_t>(0);
    Segment *found = nullptr;
    if (!segments[k].compare_exchange_strong(found, segment, std::memory_order_acq_rel))
      drop(segment);
    return true;
  }

  bool reserve(uint64_t from, uint64_t to) {
    for (unsigned k = segment_of(from); from < to && k <= segment_of(to - 1); ++k)
      if (!segments[k].load(std::memory_order_acquire) && !install(k))
        return false;
    return true;
  }

  static void drop(Segment *segment) {
    if (!segment)
      return;
    library_free(segment->words);
    library_free(segment->states);
    end(segment);
  }

  void fill(uint64_t place, const uint64_t *words_of_it) {
    memcpy(value(place), words_of_it, words * 8);
    state(place).store(FILLED);
  }
};

struct Hand {
  Vector *vector;
  uint64_t shares, seen;
};

Hand *of(kehldora_hand *hand) { return static_cast<Hand *>(hand->at); }
// A list keeps the hand that closed the vector.
Vector *of(kehldora_list *list) { return static_cast<Hand *>(list->at)->vector; }

template <typename Handle> void set(Handle *handle, void *at) { *handle = Handle{at, at != nullptr}; }

// Loads the size for a hand.
uint64_t see(Hand *hand) { return hand->seen = hand->vector->size.load(std::memory_order_acquire); }

// The status of a place for a reader.
kehldora_status shown(Vector *vector, uint64_t size, uint64_t place) {
  if (place >= size)
    return KEHLDORA_OUT_OF_RANGE;
  switch (vector->state(place).load()) {
  case FILLED: return KEHLDORA_DONE;
  case BROKEN: return KEHLDORA_BROKEN;
  default: return KEHLDORA_PENDING;
  }
}

// One attempt to claim places, or a few, from what the hand has seen.
kehldora_status claim(Hand *hand, uint64_t count, int attempts, uint64_t *place) {
  Vector *vector = hand->vector;
  for (; attempts > 0; --attempts) {
    uint64_t size = hand->seen;
    if (count > vector->limit - size) {
      if (see(hand) == size)
        return KEHLDORA_FULL;
      continue;
    }
    if (!vector->reserve(size, size + count))
      return KEHLDORA_NO_MEMORY;
    if (vector->size.compare_exchange_strong(size, size + count, std::memory_order_acq_rel)) {
      hand->seen = size + count;
      *place = size;
      return KEHLDORA_DONE;
    }
    see(hand);
  }
  return KEHLDORA_MOVED;
}

// Claims places by one attempt, from the size as it is now.
kehldora_status claim_once(Hand *hand, uint64_t count, uint64_t *place) {
  see(hand);
  return claim(hand, count, 1, place);
}

// Fills claimed places, each from an array, or all with one value.
void fill(Hand *hand, uint64_t from, const uint64_t *values, uint64_t count, uint64_t step) {
  for (uint64_t i = 0; i < count; ++i)
    hand->vector->fill(from + i, values + i * step);
}

// Claims places and fills them.
kehldora_status append(Hand *hand, const uint64_t *values, uint64_t count, uint64_t step, uint64_t *place) {
  uint64_t from = 0;
  const kehldora_status status = claim_once(hand, count, &from);
  if (status == KEHLDORA_DONE) {
    fill(hand, from, values, count, step);
    *place = from;
  }
  return status;
}

} // namespace

extern "C" {

uint32_t kehldora_raw_version(void) { return KEHLDORA_VERSION; }

kehldora_status kehldora_raw_open(uint64_t limit, uint64_t words, uint32_t first, bool opaque, kehldora_hand *hand) {
  if (hand->full)
    return KEHLDORA_BAD_HANDLE;
  if (limit < 1 || limit > KEHLDORA_MOST_PLACES)
    return KEHLDORA_BAD_LIMIT;
  if (first < 1 || first > 8)
    return KEHLDORA_BAD_NUMBER;
  if (words < 1 || words > 8 || words == 5 || words == 7)
    return KEHLDORA_BAD_SIZE;
  Hand *it = make<Hand>();
  if (!it)
    return KEHLDORA_NO_MEMORY;
  Vector *vector = make<Vector>(limit, words, first, opaque);
  if (!vector) {
    end(it);
    return KEHLDORA_NO_MEMORY;
  }
  *it = {vector, KEHLDORA_ALL_SHARES, 0};
  set(hand, it);
  return KEHLDORA_DONE;
}

kehldora_status kehldora_raw_size(kehldora_hand *hand, uint64_t *size) {
  if (!hand->full)
    return KEHLDORA_BAD_HANDLE;
  *size = see(of(hand));
  return KEHLDORA_DONE;
}

kehldora_status kehldora_raw_about(kehldora_hand *hand, kehldora_hand_facts *facts) {
  if (!hand->full)
    return KEHLDORA_BAD_HANDLE;
  const Hand *it = of(hand);
  *facts = {it->shares, it->seen, it->vector->limit, it->vector->words};
  return KEHLDORA_DONE;
}

kehldora_status kehldora_raw_split(kehldora_hand *hand, uint32_t shares, kehldora_hand *other) {
  if (!hand->full || other->full)
    return KEHLDORA_BAD_HANDLE;
  if (shares == 0 || shares >= of(hand)->shares)
    return KEHLDORA_BAD_NUMBER;
  Hand *it = make<Hand>(Hand{of(hand)->vector, shares, of(hand)->seen});
  if (!it)
    return KEHLDORA_NO_MEMORY;
  of(hand)->shares -= shares;
  ++it->vector->hands;
  set(other, it);
  return KEHLDORA_DONE;
}

kehldora_status kehldora_raw_join(kehldora_hand *hand, kehldora_hand *other) {
  if (!hand->full || !other->full)
    return KEHLDORA_BAD_HANDLE;
  Hand *it = of(hand), *more = of(other);
  if (it->vector != more->vector)
    return KEHLDORA_OTHER_VECTOR;
  it->shares += more->shares;
  it->seen = it->seen < more->seen ? more->seen : it->seen;
  --it->vector->hands;
  end(more);
  set(other, nullptr);
  return KEHLDORA_DONE;
}

kehldora_status kehldora_raw_where(kehldora_hand *hand, const void **at) {
  if (!hand->full)
    return KEHLDORA_BAD_HANDLE;
  *at = of(hand)->vector;
  return KEHLDORA_DONE;
}

kehldora_status kehldora_raw_reserve(kehldora_hand *hand, uint64_t size) {
  if (!hand->full)
    return KEHLDORA_BAD_HANDLE;
  if (size > of(hand)->vector->limit)
    return KEHLDORA_FULL;
  return of(hand)->vector->reserve(0, size) ? KEHLDORA_DONE : KEHLDORA_NO_MEMORY;
}

kehldora_status kehldora_raw_close(kehldora_hand *hand, kehldora_list *list) {
  if (!hand->full || list->full)
    return KEHLDORA_BAD_HANDLE;
  if (of(hand)->shares != KEHLDORA_ALL_SHARES)
    return KEHLDORA_NOT_WHOLE;
  set(list, hand->at);
  set(hand, nullptr);
  return KEHLDORA_DONE;
}

kehldora_status kehldora_raw_free(kehldora_hand *hand) {
  if (!hand->full)
    return KEHLDORA_BAD_HANDLE;
  if (--of(hand)->vector->hands == 0)
    end(of(hand)->vector);
  end(of(hand));
  set(hand, nullptr);
  return KEHLDORA_DONE;
}

kehldora_status kehldora_raw_push(kehldora_hand *hand, const uint64_t *value, size_t words, uint64_t *place) {
  if (!hand->full)
    return KEHLDORA_BAD_HANDLE;
  if (words != of(hand)->vector->words)
    return KEHLDORA_BAD_SIZE;
  uint64_t from = 0;
  const kehldora_status status = claim(of(hand), 1, 3, &from);
  if (status == KEHLDORA_DONE) {
    fill(of(hand), from, value, 1, 0);
    *place = from;
  }
  return status;
}

kehldora_status kehldora_raw_grow(kehldora_hand *hand, const uint64_t *values, size_t words, uint64_t *place) {
  if (!hand->full)
    return KEHLDORA_BAD_HANDLE;
  const uint64_t each = of(hand)->vector->words;
  return words % each ? KEHLDORA_BAD_SIZE : append(of(hand), values, words / each, each, place);
}

kehldora_status kehldora_raw_fill(kehldora_hand *hand, const uint64_t *value, size_t words, uint64_t count, uint64_t *place) {
  if (!hand->full)
    return KEHLDORA_BAD_HANDLE;
  return words != of(hand)->vector->words ? KEHLDORA_BAD_SIZE : append(of(hand), value, count, 0, place);
}

kehldora_status kehldora_raw_at_least(kehldora_hand *hand, uint64_t size, const uint64_t *values, size_t words, uint64_t *place,
                                      uint64_t *count) {
  if (!hand->full)
    return KEHLDORA_BAD_HANDLE;
  Hand *it = of(hand);
  Vector *vector = it->vector;
  const uint64_t seen = it->seen, step = words == vector->words ? 0 : vector->words;
  if (words == 0 || words % vector->words || (step && seen < size && words / vector->words < size - seen))
    return KEHLDORA_BAD_SIZE;
  if (size > vector->limit)
    return KEHLDORA_FULL;
  if (seen < size && !vector->reserve(seen, size))
    return KEHLDORA_NO_MEMORY;
  uint64_t from = vector->size.load(std::memory_order_acquire);
  while (from < size && !vector->size.compare_exchange_weak(from, size, std::memory_order_acq_rel)) {
  }
  *place = from;
  *count = from < size ? size - from : 0;
  it->seen = from + *count;
  fill(it, from, values, *count, step);
  return KEHLDORA_DONE;
}

kehldora_status kehldora_raw_at(kehldora_hand *hand, uint64_t place, uint64_t *value, size_t words) {
  if (!hand->full)
    return KEHLDORA_BAD_HANDLE;
  Vector *vector = of(hand)->vector;
  if (words != vector->words || vector->opaque)
    return KEHLDORA_BAD_SIZE;
  const kehldora_status status = shown(vector, see(of(hand)), place);
  if (status == KEHLDORA_DONE)
    memcpy(value, vector->value(place), words * 8);
  return status;
}

kehldora_status kehldora_raw_look(kehldora_hand *hand, uint64_t place, uint64_t **at) {
  if (!hand->full)
    return KEHLDORA_BAD_HANDLE;
  const kehldora_status status = shown(of(hand)->vector, see(of(hand)), place);
  if (status == KEHLDORA_DONE)
    *at = of(hand)->vector->value(place);
  return status;
}

kehldora_status kehldora_raw_run(kehldora_hand *hand, uint64_t place, uint64_t **at, uint64_t *count) {
  const kehldora_status status = kehldora_raw_look(hand, place, at);
  if (status != KEHLDORA_DONE)
    return status;
  Vector *vector = of(hand)->vector;
  const unsigned k = vector->segment_of(place);
  uint64_t past = place + 1;
  while (past < vector->begin_of(k) + vector->length_of(k) && shown(vector, of(hand)->seen, past) == KEHLDORA_DONE)
    ++past;
  *count = past - place;
  return KEHLDORA_DONE;
}

kehldora_status kehldora_raw_states(kehldora_hand *hand, uint64_t place, const uint64_t **at) {
  if (!hand->full)
    return KEHLDORA_BAD_HANDLE;
  Vector *vector = of(hand)->vector;
  const std::atomic<uint64_t> *states = place < vector->limit ? vector->states(vector->segment_of(place)) : nullptr;
  if (!states)
    return KEHLDORA_PENDING;
  *at = reinterpret_cast<const uint64_t *>(states);
  return KEHLDORA_DONE;
}

kehldora_status kehldora_raw_leave(kehldora_hand *hand, uint64_t count, uint64_t *place) {
  if (!hand->full)
    return KEHLDORA_BAD_HANDLE;
  const kehldora_status status = claim_once(of(hand), count, place);
  for (uint64_t i = 0; status == KEHLDORA_DONE && i < count; ++i)
    of(hand)->vector->state(*place + i).store(BROKEN);
  return status;
}

kehldora_status kehldora_raw_mend(kehldora_hand *hand, uint64_t place, const uint64_t *value, size_t words) {
  if (!hand->full)
    return KEHLDORA_BAD_HANDLE;
  Vector *vector = of(hand)->vector;
  if (words != vector->words)
    return KEHLDORA_BAD_SIZE;
  if (place >= see(of(hand)))
    return KEHLDORA_OUT_OF_RANGE;
  uint64_t state = BROKEN;
  if (!vector->state(place).step(state, BUSY))
    return state == FILLED ? KEHLDORA_FILLED : KEHLDORA_PENDING;
  vector->fill(place, value);
  return KEHLDORA_DONE;
}

kehldora_status kehldora_raw_list_about(kehldora_list *list, kehldora_list_facts *facts) {
  if (!list->full)
    return KEHLDORA_BAD_HANDLE;
  *facts = {of(list)->size, of(list)->limit, of(list)->words};
  return KEHLDORA_DONE;
}

kehldora_status kehldora_raw_list_look(kehldora_list *list, uint64_t place, uint64_t **at) {
  if (!list->full)
    return KEHLDORA_BAD_HANDLE;
  const kehldora_status status = shown(of(list), of(list)->size, place);
  if (status == KEHLDORA_DONE)
    *at = of(list)->value(place);
  return status;
}

kehldora_status kehldora_raw_list_copy(kehldora_list *list, uint64_t place, uint64_t *values, size_t words) {
  if (!list->full)
    return KEHLDORA_BAD_HANDLE;
  const uint64_t each = of(list)->words, count = words / each, size = of(list)->size;
  if (words % each || of(list)->opaque)
    return KEHLDORA_BAD_SIZE;
  if (place > size || count > size - place)
    return KEHLDORA_OUT_OF_RANGE;
  for (uint64_t i = 0; i < count; ++i)
    if (of(list)->state(place + i).load() != FILLED)
      return KEHLDORA_BROKEN;
  for (uint64_t i = 0; i < count; ++i)
    memcpy(values + i * each, of(list)->value(place + i), each * 8);
  return KEHLDORA_DONE;
}

kehldora_status kehldora_raw_list_get(kehldora_list *list, uint64_t place, uint64_t *value, size_t words) {
  if (list->full && words != of(list)->words)
    return KEHLDORA_BAD_SIZE;
  return kehldora_raw_list_copy(list, place, value, words);
}

kehldora_status kehldora_raw_list_set(kehldora_list *list, uint64_t place, const uint64_t *value, size_t words) {
  if (!list->full)
    return KEHLDORA_BAD_HANDLE;
  if (words != of(list)->words)
    return KEHLDORA_BAD_SIZE;
  if (place >= of(list)->size)
    return KEHLDORA_OUT_OF_RANGE;
  of(list)->fill(place, value);
  return KEHLDORA_DONE;
}

kehldora_status kehldora_raw_list_cut(kehldora_list *list, uint64_t size) {
  if (!list->full)
    return KEHLDORA_BAD_HANDLE;
  for (uint64_t place = size; place < of(list)->size; ++place)
    of(list)->state(place).store(EMPTY);
  if (size < of(list)->size)
    of(list)->size = size;
  return KEHLDORA_DONE;
}

kehldora_status kehldora_raw_list_shrink(kehldora_list *list) {
  if (!list->full)
    return KEHLDORA_BAD_HANDLE;
  for (unsigned k = 0; k <= 40 - of(list)->first; ++k)
    if (of(list)->begin_of(k) >= of(list)->size)
      Vector::drop(of(list)->segments[k].exchange(nullptr));
  return KEHLDORA_DONE;
}

kehldora_status kehldora_raw_list_open(kehldora_list *list, kehldora_hand *hand) {
  if (!list->full || hand->full)
    return KEHLDORA_BAD_HANDLE;
  // The library requests memory here, and may be refused it.
  Hand *it = make<Hand>(Hand{of(list), KEHLDORA_ALL_SHARES, of(list)->size});
  if (!it)
    return KEHLDORA_NO_MEMORY;
  end(static_cast<Hand *>(list->at));
  set(list, nullptr);
  set(hand, it);
  return KEHLDORA_DONE;
}

kehldora_status kehldora_raw_list_free(kehldora_list *list) {
  if (!list->full)
    return KEHLDORA_BAD_HANDLE;
  end(of(list));
  end(static_cast<Hand *>(list->at));
  set(list, nullptr);
  return KEHLDORA_DONE;
}

} // extern "C"
