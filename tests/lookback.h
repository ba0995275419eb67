/* The rules said of the recording alone. */
#ifndef LOOKBACK_H
#define LOOKBACK_H
#include "spur.h"
struct lookback {
    struct verdict v;
    struct tally t;
    int open;
};
int lookback_judge(const uint8_t *bytes, size_t len, unsigned limit, struct lookback *out);
#endif
