/* Holds the library against plain C on one run file, on lent buffers of several lengths. */
#ifndef HOLD_H
#define HOLD_H

#include "ferrulique.h"

/* A null pointer where both agree and no byte changed that must stay; else what went wrong. A file of at most HOLD_MOST bytes. */
#define HOLD_MOST ((size_t)1 << 17)
const char *hold(const uint8_t *file, size_t n);

/* How often each code was answered, and each mark given, so that nobody trusts a comparison of nothing. */
extern unsigned long hold_codes[FERRULIQUE_REPORT_SHORT + 1], hold_marks[256];

/* Prints these numbers. Answers 1 where one of the codes and marks that exist was never seen. */
int hold_tell(void);

#endif
