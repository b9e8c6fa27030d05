/* The C functions of bench/untrusted. */
#include <stddef.h>
#include <stdint.h>

uint64_t untrusted_case(const char *name, size_t length, const uint8_t *data, size_t size);
uint64_t untrusted_agree(const uint8_t *data, size_t size);

/* What the heap functions of the kit return: whether there is room, and where. */
typedef struct {
  uint64_t is_there;
  void *place;
} Room;
