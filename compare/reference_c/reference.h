/* The reference checker for C programs, by the rules after the requests up to the one that compare/level names. */
#ifndef REFERENCE_H
#define REFERENCE_H
#include <stddef.h>
#include <stdint.h>

/* As check_design. */
uint32_t reference_check(const uint8_t *text, size_t text_len, uint8_t *report, size_t report_len);

/* The same by the rules after the requests up to another one. */
uint32_t reference_check_at(uint32_t level, const uint8_t *text, size_t text_len, uint8_t *report, size_t report_len);

/* As mark_design and unmark_design. */
size_t reference_mark(const uint8_t *text, size_t text_len, uint8_t *buffer, size_t buffer_len, uint32_t *number);
size_t reference_unmark(const uint8_t *text, size_t text_len, uint8_t *buffer, size_t buffer_len, uint32_t *number);

/* What measure_design returns and tells. */
enum { REFERENCE_FILLED, REFERENCE_LOOP, REFERENCE_NO_MEASURE };
uint32_t reference_measure(const uint8_t *text, size_t text_len, uint16_t *slice, size_t slice_len, uint32_t *number);
uint32_t reference_measure_at(uint32_t level, const uint8_t *text, size_t text_len, uint16_t *slice, size_t slice_len, uint32_t *number);

/* How many states the design has; 0 if the text is turned down. */
size_t reference_states(const uint8_t *text, size_t text_len);

/* Whether this is a right answer of measure_design to a text that is not turned down, the slice being so before the call and after it. */
int reference_judge(const uint8_t *text, size_t text_len, const uint16_t *before, const uint16_t *after, size_t slice_len, uint32_t result,
                    uint32_t number);

/* A new desk, and its end. */
struct reference_desk *reference_desk(void);
void reference_free(struct reference_desk *desk);

/* Each call of a desk gives 0, or the number by which it is turned down. */
uint32_t reference_load(struct reference_desk *desk, const uint8_t *text, size_t text_len);
uint32_t reference_verdict(const struct reference_desk *desk, uint16_t numbers[5]);
uint32_t reference_drop(struct reference_desk *desk);

/* Except that an advance gives how the desk stands, and a number: how many states it examined, or by which it is turned down. */
enum { REFERENCE_OPEN, REFERENCE_ACCEPTED, REFERENCE_FAILED, REFERENCE_TURNED_DOWN, REFERENCE_ACCEPTED_AFTER_INTERNAL };
uint32_t reference_advance(struct reference_desk *desk, uint64_t n, uint64_t *number);

/* And that a measure gives and tells what measure_design does. */
uint32_t reference_desk_measure(const struct reference_desk *desk, uint16_t *slice, size_t slice_len, uint32_t *number);

#endif
