/* same_duty by other rules: every text has its own duty; what is said of two is OTHER_DUTY. */
#include "../../include/checker.h"

#include <stdlib.h>

uint32_t same_duty(const uint8_t *text, size_t text_len, const uint8_t *duty, size_t duty_len) {
    (void)text_len, (void)duty_len;
    return text == duty ? DUTY_SAME : (uint32_t)atoi(getenv("OTHER_DUTY"));
}
