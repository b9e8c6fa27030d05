/* Counts what calls of bench/untrusted cost. Each line of the input is the name of a case, a tab and the name of a file;
   each line of the output the answer, the steps, the most bytes of heap at once, 1 if the call took more than it may (it was
   ended, or got no heap), and the bytes of heap that it held at its end. Steps are the edges of the control flow, which the
   compiler counts, and one for each 16 bytes that are copied, filled or compared at once; a block of heap that grows is copied.
     cost keys STATE COUNT    prints numbers whose hashes from this state lie in one of 2 COUNT buckets */
#include "untrusted.h"
#include <setjmp.h>
#include <stdio.h>
#include <stdlib.h>
#include <string.h>

enum { MOST_STEPS = 300000000, MOST_HEAP = 1 << 30 };

typedef struct Block {
  struct Block *next, *before;
  uint64_t size, unused;
} Block;

static Block blocks = {&blocks, &blocks, 0, 0};
static uint64_t steps, copied, held, peak;
static int is_refused, is_calling;
static jmp_buf ended;

void __sanitizer_cov_trace_pc_guard_init(uint32_t *first, uint32_t *end) {
  (void)first;
  (void)end;
}

void __sanitizer_cov_trace_pc_guard(uint32_t *guard) {
  (void)guard;
  if (++steps > MOST_STEPS && is_calling) longjmp(ended, 1);
}

static void add(Block *block, uint64_t size) {
  block->size = size;
  block->next = blocks.next;
  block->before = &blocks;
  blocks.next = block->next->before = block;
  held += size;
  if (held > peak) peak = held;
}

static void take_out(Block *block) {
  block->before->next = block->next;
  block->next->before = block->before;
  held -= block->size;
}

Room rattle_alloc(size_t size, size_t align) {
  Room none = {0, (void *)align};
  if (!size) size = align;
  Block *block = held + size > MOST_HEAP ? NULL : malloc(sizeof(Block) + size);
  is_refused |= !block;
  if (!block) return none;
  add(block, size);
  return (Room){1, block + 1};
}

void rattle_dealloc(void *place) {
  if (!place) return;
  take_out((Block *)place - 1);
  free((Block *)place - 1);
}

Room rattle_realloc(void *place, size_t old, size_t size, size_t align) {
  Block *block = (Block *)place - 1;
  if (!size) size = align;
  copied += old;
  take_out(block);
  Block *made = held + size > MOST_HEAP ? NULL : realloc(block, sizeof(Block) + size);
  is_refused |= !made;
  if (made) add(made, size);
  else add(block, block->size);
  return made ? (Room){1, made + 1} : (Room){0, (void *)align};
}

int rattle_errno(void) { return 0; }

void *__real_memcpy(void *to, const void *from, size_t size);
void *__real_memmove(void *to, const void *from, size_t size);
void *__real_memset(void *to, int byte, size_t size);
int __real_memcmp(const void *one, const void *other, size_t size);

void *__wrap_memcpy(void *to, const void *from, size_t size) {
  copied += size;
  return __real_memcpy(to, from, size);
}

void *__wrap_memmove(void *to, const void *from, size_t size) {
  copied += size;
  return __real_memmove(to, from, size);
}

void *__wrap_memset(void *to, int byte, size_t size) {
  copied += size;
  return __real_memset(to, byte, size);
}

int __wrap_memcmp(const void *one, const void *other, size_t size) {
  copied += size;
  return __real_memcmp(one, other, size);
}

/* Makes a call, prints its answer and what it cost, and frees what it left if it was ended. */
static void count(const char *name, const uint8_t *data, size_t size) {
  static uint64_t answer;
  steps = copied = peak = 0;
  answer = is_refused = 0;
  is_calling = 1;
  int is_ended = setjmp(ended);
  if (!is_ended) answer = untrusted_case(name, strlen(name), data, size);
  is_calling = 0;
  printf("%llu %llu %llu %d %llu\n", (unsigned long long)answer, (unsigned long long)(steps + copied / 16),
         (unsigned long long)peak, is_ended || is_refused, (unsigned long long)(is_ended ? 0 : held));
  while (blocks.next != &blocks) rattle_dealloc(blocks.next + 1);
}

static uint64_t hashed(uint64_t state, uint64_t number) {
  unsigned __int128 product = (unsigned __int128)(state ^ number) * (0x9e3779b97f4a7c15ull ^ 16);
  return (uint64_t)product ^ (uint64_t)(product >> 64);
}

static int print_keys(uint64_t state, uint64_t keys) {
  for (uint64_t number = 1, found = 0; found < keys; number++)
    if ((hashed(state, number) >> 32) % (2 * keys) == 0) found++, printf("%llu\n", (unsigned long long)number);
  return 0;
}

int main(int words, char **word) {
  static char line[4096];
  if (words == 4) return print_keys(strtoull(word[2], NULL, 0), strtoull(word[3], NULL, 0));
  while (fgets(line, sizeof line, stdin)) {
    line[strcspn(line, "\n")] = 0;
    char *path = strchr(line, '\t');
    FILE *file = path ? fopen(path + 1, "rb") : NULL;
    if (!file) return 1;
    *path = 0;
    fseek(file, 0, SEEK_END);
    size_t size = ftell(file);
    rewind(file);
    uint8_t *data = malloc(size + 1);
    if (!data || fread(data, 1, size, file) != size) return 1;
    fclose(file);
    count(line, data, size);
    free(data);
  }
  return 0;
}
