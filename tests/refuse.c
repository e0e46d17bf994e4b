// Loaded into a program, it refuses one of the program's requests for memory, and counts them.
//
// The variable REFUSE has the number of the request that is refused, or 0 for none. When the program ends, the file COUNTED
// gets one line: how many requests there were and for how many bytes in all, how many blocks are left that were not freed,
// and 1 if a request was refused, or 0. What the C library asks for itself does not count.
// This file includes no header, so that the toolchain's compiler is enough.
typedef unsigned long size;

// A loaded object and a part of one, as the C library describes them.
struct part {
  unsigned type, flags;
  size offset, address, physical, in_file, length, align;
};
struct object {
  size base;
  const char *name;
  const struct part *parts;
  unsigned short count;
};

int dl_iterate_phdr(int (*)(struct object *, size, void *), void *);
char *getenv(const char *);
long atol(const char *);
int creat(const char *, unsigned);
int dprintf(int, const char *, ...);
int close(int);
long syscall(long, ...);
void *__libc_malloc(size);
void *__libc_calloc(size, size);
void *__libc_realloc(void *, size);
void __libc_free(void *);

static long number, requests, bytes, blocks, refused;
static size begin, end;

// Where the program lies, which is the first object of all.
static int measure(struct object *program, size length, void *unused) {
  begin = program->base;
  for (int i = 0; i < program->count; i++) {
    const struct part *part = &program->parts[i];
    if (part->type == 1) end = begin + part->address + part->length;
  }
  return 1;
}

__attribute__((constructor)) static void start(void) {
  const char *wanted = getenv("REFUSE");
  if (wanted) {
    number = atol(wanted);
    dl_iterate_phdr(measure, 0);
  }
}

__attribute__((destructor)) static void tell(void) {
  const char *name = getenv("COUNTED");
  if (name && end) {
    int file = creat(name, 0666);
    dprintf(file, "%ld %ld %ld %ld\n", requests, bytes, blocks, refused);
    close(file);
  }
}

// A program that may start threads ends by this call, which runs no destructor. 231 ends all its threads.
__attribute__((noreturn)) void _exit(int status) {
  tell();
  for (;;) syscall(231, status);
}

static int is_of_program(void *caller) { return (size)caller >= begin && (size)caller < end; }

// Counts a request of the program, and says whether it is refused.
static int is_refused(size length) {
  __sync_fetch_and_add(&bytes, length);
  if (__sync_add_and_fetch(&requests, 1) != number) return 0;
  refused = 1;
  return 1;
}

// Counts a block that the program got.
static void *counted(void *block) {
  if (block) __sync_fetch_and_add(&blocks, 1);
  return block;
}

void *malloc(size length) {
  if (!is_of_program(__builtin_return_address(0))) return __libc_malloc(length);
  return is_refused(length) ? 0 : counted(__libc_malloc(length));
}

void *calloc(size count, size length) {
  if (!is_of_program(__builtin_return_address(0))) return __libc_calloc(count, length);
  return is_refused(count * length) ? 0 : counted(__libc_calloc(count, length));
}

void *realloc(void *from, size length) {
  if (!is_of_program(__builtin_return_address(0))) return __libc_realloc(from, length);
  if (is_refused(length)) return 0;
  return from ? __libc_realloc(from, length) : counted(__libc_realloc(from, length));
}

void free(void *block) {
  if (block && is_of_program(__builtin_return_address(0))) __sync_fetch_and_sub(&blocks, 1);
  __libc_free(block);
}
