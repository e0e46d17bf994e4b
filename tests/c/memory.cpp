// Memory for C++ programs, of which one request can be refused.
#include <cstdlib>
#include <new>

// How many requests are left until one is refused, or a negative number.
int until_no_memory = -1;

static void *request(size_t bytes, size_t alignment) {
  if (until_no_memory >= 0 && until_no_memory-- == 0)
    return nullptr;
  return aligned_alloc(alignment, (bytes + alignment - 1) / alignment * alignment);
}
static void *request_or_throw(size_t bytes) {
  void *const block = request(bytes, 16);
  return block ? block : throw std::bad_alloc();
}

void *operator new(size_t bytes) { return request_or_throw(bytes); }
void *operator new[](size_t bytes) { return request_or_throw(bytes); }
void *operator new(size_t bytes, std::align_val_t it, const std::nothrow_t &) noexcept { return request(bytes, size_t(it)); }
void *operator new(size_t bytes, const std::nothrow_t &) noexcept { return request(bytes, 16); }
void operator delete(void *block) noexcept { free(block); }
void operator delete(void *block, size_t) noexcept { free(block); }
void operator delete(void *block, std::align_val_t) noexcept { free(block); }
void operator delete(void *block, size_t, std::align_val_t) noexcept { free(block); }
void operator delete[](void *block) noexcept { free(block); }
void operator delete[](void *block, size_t) noexcept { free(block); }
