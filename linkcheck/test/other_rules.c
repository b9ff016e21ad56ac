/* Functions by other rules, in place of the library's. check_design accepts every text, but returns OTHER_RETURNS and has OTHER_VERDICT in
 * the report's first field, and if they are set OTHER_CRITERION, OTHER_STATE, OTHER_ROW and OTHER_SUM in the next ones. The others return
 * OTHER_RETURNS and give the number OTHER_VERDICT; mark_design and unmark_design write nothing, measure_design writes OTHER_PLACES to every
 * place. */
#include "../../include/checker.h"

#include <stdio.h>
#include <stdlib.h>
#include <string.h>

static const char *set(const char *name) {
    return getenv(name) ? getenv(name) : "0";
}

uint32_t check_design(const uint8_t *text, size_t text_len, uint8_t *report, size_t report_len) {
    char made[64];
    (void)text, (void)text_len;
    snprintf(made, sizeof made, "%6s%6s%6s%6s%6s\n", set("OTHER_VERDICT"), set("OTHER_CRITERION"), set("OTHER_STATE"), set("OTHER_ROW"),
             set("OTHER_SUM"));
    memcpy(report, made, report_len < CHECK_REPORT_BYTES ? report_len : CHECK_REPORT_BYTES);
    return (uint32_t)atoi(getenv("OTHER_RETURNS"));
}

size_t mark_design(const uint8_t *text, size_t text_len, uint8_t *buffer, size_t buffer_len, uint32_t *number) {
    (void)text, (void)text_len, (void)buffer, (void)buffer_len;
    *number = (uint32_t)strtoul(getenv("OTHER_VERDICT"), NULL, 10);
    return strtoul(getenv("OTHER_RETURNS"), NULL, 10);
}

size_t unmark_design(const uint8_t *text, size_t text_len, uint8_t *buffer, size_t buffer_len, uint32_t *number) {
    return mark_design(text, text_len, buffer, buffer_len, number);
}

uint32_t measure_design(const uint8_t *text, size_t text_len, uint16_t *slice, size_t slice_len, uint32_t *number) {
    const uint16_t written = (uint16_t)atoi(getenv("OTHER_PLACES"));
    for (size_t i = 0; i < slice_len; i++) slice[i] = written;
    return (uint32_t)mark_design(text, text_len, NULL, 0, number);
}
