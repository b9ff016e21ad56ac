/* The duty: a design text of the buyer's own, whose specification every table is to have. Whether one has it is what same_duty says; where
 * it differs is found here. */
#ifndef DUTY_H
#define DUTY_H

#include "output.h"
#include "typed.h"

/* Reads the duty. Gives 0, or the exit status after a message that it can't be read or is no design text. */
int duty_read(const char *name);

/* What same_duty says of a text; DUTY_SAME if there is no duty. */
uint32_t duty_answer(const struct text *t);

/* The words for a table with another duty, without byte 10; and the members of a JSON object. */
void print_other_duty(struct output *out, const struct table *t);
void json_other_duty(struct output *out, const struct table *t);

#endif
