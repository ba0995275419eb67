/* Cache blocks (01, "Cache blocks"; 001, 4.1 and 4.4). */
#include "spur.h"

enum { INVALID, UNOWNED, SHARED, PRIVATE };

static size_t place(unsigned slot, unsigned block)
{
    return (size_t)block * SLOTS + slot;
}

int cache_coherent(const struct cache *c, unsigned block)
{
    const uint8_t *s = c->states + place(0, block);
    const uint32_t *v = c->copies + place(0, block);
    int owners = 0, private = 0, valid = 0, seen = 0;
    uint32_t content = 0;
    for (int i = 0; i < SLOTS; i++) {
        if (s[i] > PRIVATE)
            return 0;
        owners += s[i] >= SHARED;
        private += s[i] == PRIVATE;
        valid += s[i] != INVALID;
    }
    if (owners > 1 || (private && valid > 1))
        return 0;
    for (int i = 0; i < SLOTS; i++) {
        if (s[i] == INVALID)
            continue;
        if (seen && v[i] != content)
            return 0;
        seen = 1;
        content = v[i];
    }
    return !(seen && owners == 0 && content != c->memory[block]);
}

/* In the paper's order: 1 for the tables' lengths, 2 for slot and block, 7. */
static int refused(const struct cache *c, unsigned slot, unsigned block)
{
    if (c->nmemory < 1 || c->nmemory > 64 || c->nstates != SLOTS * c->nmemory ||
        c->ncopies != SLOTS * c->nmemory)
        return 1;
    if (slot >= SLOTS || block >= c->nmemory)
        return 2;
    return cache_coherent(c, block) ? 0 : 7;
}

/* "A valid slot that becomes invalid gets copy 0; one invalid already keeps its copy." */
static void invalidate(struct cache *c, size_t at)
{
    if (c->states[at] != INVALID)
        c->copies[at] = 0;
    c->states[at] = INVALID;
}

int cache_read(struct cache *c, unsigned slot, unsigned block, uint32_t *value)
{
    int no = refused(c, slot, block);
    *value = 0;
    if (no != 0)
        return no;
    size_t at = place(slot, block);
    if (c->states[at] != INVALID) {
        *value = c->copies[at];
        return 0;
    }
    *value = c->memory[block];
    for (unsigned s = 0; s < SLOTS; s++)
        if (c->states[place(s, block)] >= SHARED) {
            c->states[place(s, block)] = SHARED;
            *value = c->copies[place(s, block)];
        }
    c->states[at] = UNOWNED;
    c->copies[at] = *value;
    return 0;
}

int cache_write(struct cache *c, unsigned slot, unsigned block, uint32_t value)
{
    int no = refused(c, slot, block);
    if (no != 0)
        return no;
    for (unsigned s = 0; s < SLOTS; s++)
        if (s != slot)
            invalidate(c, place(s, block));
    c->states[place(slot, block)] = PRIVATE;
    c->copies[place(slot, block)] = value;
    return 0;
}

int cache_evict(struct cache *c, unsigned slot, unsigned block)
{
    int no = refused(c, slot, block);
    if (no != 0)
        return no;
    size_t at = place(slot, block);
    if (c->states[at] >= SHARED)
        c->memory[block] = c->copies[at];
    invalidate(c, at);
    return 0;
}
