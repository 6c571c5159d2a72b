/* What the static library of crates/c_exports exports; docs/beside.md says what is answered. */
#ifndef C_EXPORTS_H
#define C_EXPORTS_H

#include <stddef.h>
#include <stdint.h>

/* The number and the place of a refusal; both 0 where nothing is refused. */
struct verdict { uint64_t number, place; };

struct verdict block_memory_fits(size_t size, size_t cells);

/* The memory has size bytes. */
struct verdict block_memory_inspect(const uint8_t *memory, size_t size, size_t cells);

#endif
