/* Preloaded into a built program: lets one call of one of its devices fail, and takes one byte a call where it is asked to.
   FAIL is `source` (reading standard input), `output` (writing standard output) or `record` (writing any later file), FAIL_AT the
   number of the call, from 1, and FAIL_HOW `error`, `full`, `interrupted` or `nothing` (a write that takes no byte). Later calls go on as
   if nothing had been, and each of them, of any of the three devices, ends the program by SIGABRT. FAILED_FILE is made once a call has
   failed. With ONE_BYTE each call takes or gives one byte at most. Nothing here is part of a crate. */
#define _GNU_SOURCE
#include <dlfcn.h>
#include <errno.h>
#include <fcntl.h>
#include <stdlib.h>
#include <string.h>
#include <unistd.h>

static long calls = 0;
static int failed = 0;

static int is(const char *name, const char *value) {
  const char *it = getenv(name);
  return it && strcmp(it, value) == 0;
}

/* Whether this call of the device fails. */
static int fails(const char *device) {
  const char *at = getenv("FAIL_AT");
  if (failed) abort();
  if (!at || !is("FAIL", device) || ++calls != atol(at)) return 0;
  failed = 1;
  const char *file = getenv("FAILED_FILE");
  if (file) close(open(file, O_CREAT | O_WRONLY, 0666));
  errno = is("FAIL_HOW", "full") ? ENOSPC : is("FAIL_HOW", "interrupted") ? EINTR : EIO;
  return 1;
}

static size_t taken(size_t size) { return getenv("ONE_BYTE") && size > 1 ? 1 : size; }

ssize_t read(int file, void *bytes, size_t size) {
  static ssize_t (*real)(int, void *, size_t);
  if (!real) real = (ssize_t (*)(int, void *, size_t))dlsym(RTLD_NEXT, "read");
  if (file == 0 && fails("source")) return -1;
  return real(file, bytes, file == 0 ? taken(size) : size);
}

ssize_t write(int file, const void *bytes, size_t size) {
  static ssize_t (*real)(int, const void *, size_t);
  if (!real) real = (ssize_t (*)(int, const void *, size_t))dlsym(RTLD_NEXT, "write");
  if (file != 2 && fails(file == 1 ? "output" : "record")) return is("FAIL_HOW", "nothing") ? 0 : -1;
  return real(file, bytes, file == 2 ? size : taken(size));
}
