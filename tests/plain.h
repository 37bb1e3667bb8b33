/* The plain planner: what the benchmark times beside the library. It answers as downcrook_plan_list has to, in the same struct; see include/downcrook.h, and
 * plain.c for how it works. Assumes that the pointers lead to as much memory as the lengths say.
 */
#ifndef PLAIN_H
#define PLAIN_H
#include "downcrook.h"

struct downcrook_plan plain_plan_list(const uint8_t *list, size_t list_bytes, uint8_t *frame, size_t frame_bytes);
#endif
