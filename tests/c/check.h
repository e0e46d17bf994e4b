/* How the tests in C and C++ look at what a call returned. */
#ifndef KEHLDORA_CHECK_H
#define KEHLDORA_CHECK_H

#include <stdio.h>
#include <stdlib.h>

#define CHECK(condition) ((condition) ? (void)0 : check_failed(__FILE__, __LINE__, #condition))

/* That a call has this status. */
#define EXPECT(call, status) check_status(__FILE__, __LINE__, #call, (call), (status))

static inline void check_failed(const char *file, int line, const char *what) {
  fprintf(stderr, "%s:%d: not so: %s\n", file, line, what);
  exit(1);
}

static inline void check_status(const char *file, int line, const char *what, int status, int expected) {
  if (status == expected)
    return;
  fprintf(stderr, "%s:%d: status %d, and not %d: %s\n", file, line, status, expected, what);
  exit(1);
}

#endif
