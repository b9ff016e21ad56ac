// The same recursion in plain C, without any test: what the evaluator is timed against.
#include <stdbool.h>
#include <stddef.h>
#include <stdint.h>

uint16_t plain_value(const uint16_t *fields, size_t at, const uint16_t *params, uint16_t sum);
bool plain_formula(const uint16_t *fields, size_t at, const uint16_t *params, uint16_t sum);
