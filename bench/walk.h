// The walk of document 01 in C, and what it is measured against: the proved one, as `rt lib` in crates/exported writes it.
#include <stdint.h>

// How a grounding ended. A refusal has its number in `entries` and its place in `tests`.
enum { COMPLETE, STOPPED, FULL, REFUSED };

struct answer {
  uint32_t ending;
  uint64_t entries;
  uint64_t tests;
};

// Takes an accepted job. The list's cells are filled as document 01 says.
struct answer walk_ground(const uint8_t *job, uint64_t length, uint32_t allowance, uint32_t *list, uint64_t cells);

// Takes any job.
uint64_t yozgarmi_ground(const uint8_t *job, uint64_t length, uint32_t allowance, uint32_t *list, uint64_t cells, uint32_t *ending, uint64_t *tests);
