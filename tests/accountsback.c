/* Who used the bus (document 02, wish 3) a second time, said of the whole recording: no state is
   carried along. Each START is asked whose it is by looking back from it, and where its transfer ends
   by looking on, and the time between is told from the stamps' wraps. */
#include "accountsback.h"

/* The cycles from one record to a later one: 2^32 for each time that the stamp has wrapped. */
static uint64_t between(const struct record *at, size_t i, size_t end)
{
    uint64_t wraps = 0;
    for (size_t k = i + 1; k <= end; k++)
        wraps += at[k].stamp < at[k - 1].stamp;
    return (wraps << 32) + at[end].stamp - at[i].stamp;
}

static int starts_at(const struct record *at, size_t i)
{
    return !at[i].reset && at[i].start;
}

/* A START of a wave: the record before it is the cycle before it, and has RQST and no RESET. */
static int of_wave(const struct record *at, size_t i)
{
    return starts_at(at, i) && i > 0 && !at[i - 1].reset && at[i - 1].rqst &&
           (uint32_t)(at[i - 1].stamp + 1) == at[i].stamp;
}

/* The slot that starts there: its own ARB's in a wave, else that of the latest wave's START. The
   recording conforms, so there is one, and no RESET behind it. */
static unsigned whose(const struct record *at, size_t i)
{
    while (!of_wave(at, i))
        i--;
    return at[i].arb;
}

struct entry account_back(const struct record *at, size_t records, unsigned slot)
{
    struct entry e = {0};
    for (size_t i = 0; i < records; i++) {
        size_t end = i;
        if (!starts_at(at, i) || whose(at, i) != slot)
            continue;
        e.starts++;
        while (end < records && !at[end].ack && !at[end].reset)
            end++;
        if (end < records)
            e.busy += between(at, i, end) + 1;
    }
    return e;
}
