/* The bytes of a file, as they were when it was read: a copy in memory that nobody can write or shorten, not even this process. What was
 * checked is then what is used. A mapped file isn't such a copy, not even with MAP_PRIVATE: what others write to the file later shows in
 * it. If nobody can, map the file, and save the copy. */
#ifndef SEALED_H
#define SEALED_H

#include <fcntl.h>
#include <stdint.h>
#include <sys/mman.h>
#include <unistd.h>

/* Bytes with their length. The pointer is never NULL, unless they could not be had. */
typedef struct bytes {
  const uint8_t *at;
  size_t length;
} bytes;

static bytes sealed_copy(const char *path) {
  static const uint8_t nothing[1];
  bytes all = {NULL, 0};
  int file = open(path, O_RDONLY | O_CLOEXEC), copy = memfd_create("sealed", MFD_CLOEXEC | MFD_ALLOW_SEALING);
  ssize_t count = -1;
  uint8_t piece[1 << 16];
  while (file >= 0 && copy >= 0 && (count = read(file, piece, sizeof piece)) > 0 && write(copy, piece, (size_t)count) == count) {
    all.length += (size_t)count;
  }
  if (count == 0 && fcntl(copy, F_ADD_SEALS, F_SEAL_WRITE | F_SEAL_GROW | F_SEAL_SHRINK | F_SEAL_SEAL) == 0) {
    /* No bytes can't be mapped. Before Linux 6.7 MAP_SHARED of a sealed file fails. */
    void *at = all.length == 0 ? (void *)nothing : mmap(NULL, all.length, PROT_READ, MAP_PRIVATE, copy, 0);
    all.at = at == MAP_FAILED ? NULL : at;
  }
  if (file >= 0) {
    close(file);
  }
  if (copy >= 0) {
    close(copy);
  }
  return all;
}

static void release(bytes all) {
  if (all.length > 0) {
    munmap((void *)all.at, all.length);
  }
}
#endif
