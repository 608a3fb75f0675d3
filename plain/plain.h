/* The same calls as ferrulique_run and ferrulique_race, in plain C: what the library is timed beside and compared with. */
#ifndef PLAIN_H
#define PLAIN_H

#include "ferrulique.h"

uint32_t plain_run(const uint8_t *file, size_t file_len, uint8_t *marks, size_t marks_len, uint8_t *out, size_t out_len, uint8_t *report,
                   size_t report_len);

uint64_t plain_race(const uint8_t *file, size_t file_len);

#endif
