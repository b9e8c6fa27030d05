/* Searches, by libFuzzer, for bytes over which calls disagree, or after which memory is held. Each such input is written to a
   file, named by its bits and a number, in the folder FOUND: at most three of each kind. */
#include "untrusted.h"
#include <malloc.h>
#include <stdio.h>
#include <stdlib.h>

enum { MOST = 256 << 20, PRIMITIVE_TYPES = 4096 };

static uint64_t held, blocks;
static struct {
  uint64_t bits, times;
} seen[PRIMITIVE_TYPES];

Room rattle_alloc(size_t size, size_t align) {
  void *block = held + size > MOST ? NULL : malloc(size ? size : align);
  if (!block) return (Room){0, (void *)align};
  held += malloc_usable_size(block);
  blocks++;
  return (Room){1, block};
}

void rattle_dealloc(void *place) {
  if (!place) return;
  held -= malloc_usable_size(place);
  blocks--;
  free(place);
}

Room rattle_realloc(void *place, size_t old, size_t size, size_t align) {
  size_t was = malloc_usable_size(place);
  (void)old;
  void *block = held - was + size > MOST ? NULL : realloc(place, size ? size : align);
  if (!block) return (Room){0, (void *)align};
  held += malloc_usable_size(block) - was;
  return (Room){1, block};
}

int rattle_errno(void) { return 0; }

static void keep(uint64_t bits, const uint8_t *data, size_t size) {
  int at = 0;
  char name[4096];
  while (at < PRIMITIVE_TYPES - 1 && seen[at].times && seen[at].bits != bits) at++;
  seen[at].bits = bits;
  if (seen[at].times++ >= 3) return;
  snprintf(name, sizeof name, "%s/%016llx.%llu", getenv("FOUND"), (unsigned long long)bits, (unsigned long long)seen[at].times);
  FILE *file = fopen(name, "wb");
  if (!file || fwrite(data, 1, size, file) != size) abort();
  fclose(file);
}

int LLVMFuzzerTestOneInput(const uint8_t *data, size_t size) {
  uint64_t bits = untrusted_agree(data, size);
  if (blocks) bits |= 1ull << 62;
  held = blocks = 0;
  if (bits) keep(bits, data, size);
  return 0;
}
