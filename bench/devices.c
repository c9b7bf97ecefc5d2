/* devices: loaded before a program (LD_PRELOAD), it fails the program's writing and reading, or changes a file meanwhile.
   WRITE_AT=N fails the Nth writing to the standard output, counted from 1, and with WRITE_ON set all behind it too.
   WRITE_MOST=K takes at most K bytes of each writing to the standard output.
   READ_AT=N fails the Nth reading of a file, and with READ_ON set all behind it too. READ_MOST=K gives at most K bytes at a reading.
   CHANGE_AT=N changes the file CHANGE_NAME before the Nth reading: to CHANGE_SIZE bytes, by the bytes of the file CHANGE_WITH written over
   it, by the file CHANGE_BY put in its place, or, with none of these, by removing it.
   At the end it writes how many writings and readings there were into the file of the descriptor DEVICES_TELL.
   Not part of the crates: bench/hostile.py builds it. */
#define _GNU_SOURCE
#include <dlfcn.h>
#include <errno.h>
#include <fcntl.h>
#include <stdio.h>
#include <stdlib.h>
#include <unistd.h>

static unsigned long writes, reads;

static unsigned long number(const char *name) {
  const char *said = getenv(name);
  return said ? strtoul(said, 0, 10) : 0;
}

static int fails(const char *at, const char *on, unsigned long count) {
  unsigned long first = number(at);
  return first != 0 && (count == first || (count > first && getenv(on)));
}

static size_t least(size_t size, const char *name) {
  unsigned long most = number(name);
  return most != 0 && size > most ? most : size;
}

__attribute__((destructor)) static void end(void) {
  ssize_t (*real)(int, const void *, size_t) = dlsym(RTLD_NEXT, "write");
  const char *fd = getenv("DEVICES_TELL");
  char line[64];
  if (!fd) return;
  int length = snprintf(line, sizeof line, "%lu %lu\n", writes, reads);
  if (real(atoi(fd), line, (size_t)length) < 0) return;
}

ssize_t write(int fd, const void *bytes, size_t size) {
  ssize_t (*real)(int, const void *, size_t) = dlsym(RTLD_NEXT, "write");
  if (fd != 1) return real(fd, bytes, size);
  writes++;
  if (fails("WRITE_AT", "WRITE_ON", writes)) {
    errno = EIO;
    return -1;
  }
  return real(fd, bytes, least(size, "WRITE_MOST"));
}

static void copy(const char *from, const char *to) {
  ssize_t (*real)(int, const void *, size_t) = dlsym(RTLD_NEXT, "write");
  ssize_t (*real_read)(int, void *, size_t) = dlsym(RTLD_NEXT, "read");
  char piece[65536];
  int in = open(from, O_RDONLY), out = open(to, O_WRONLY | O_TRUNC);
  ssize_t got;
  while (in >= 0 && out >= 0 && (got = real_read(in, piece, sizeof piece)) > 0)
    if (real(out, piece, (size_t)got) < 0) break;
  if (in >= 0) close(in);
  if (out >= 0) close(out);
}

static void change(void) {
  const char *name = getenv("CHANGE_NAME"), *with = getenv("CHANGE_WITH"), *by = getenv("CHANGE_BY");
  if (getenv("CHANGE_SIZE")) {
    if (truncate(name, (off_t)number("CHANGE_SIZE"))) abort();
  } else if (with) {
    copy(with, name);
  } else if (by) {
    if (rename(by, name)) abort();
  } else if (unlink(name)) {
    abort();
  }
}

/* Counts a reading; answers whether it fails. */
static int fails_now(void) {
  reads++;
  if (number("CHANGE_AT") == reads) change();
  if (!fails("READ_AT", "READ_ON", reads)) return 0;
  errno = EIO;
  return 1;
}

ssize_t pread64(int fd, void *to, size_t size, off64_t at) {
  ssize_t (*real)(int, void *, size_t, off64_t) = dlsym(RTLD_NEXT, "pread64");
  return fails_now() ? -1 : real(fd, to, least(size, "READ_MOST"), at);
}

ssize_t pread(int fd, void *to, size_t size, off_t at) { return pread64(fd, to, size, at); }

ssize_t read(int fd, void *to, size_t size) {
  ssize_t (*real)(int, void *, size_t) = dlsym(RTLD_NEXT, "read");
  return fails_now() ? -1 : real(fd, to, least(size, "READ_MOST"));
}
