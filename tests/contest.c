/* The arbitration contest (01, "The contest"; 001, 2.7.1's four equations). */
#include "spur.h"

/* Each line, from ARB3 down, from those above it: a contestant drives a bit of its number
   only while no higher line is active that its own number lacks. */
unsigned contest_lines(unsigned set)
{
    unsigned lines = 0;
    for (int line = 3; line >= 0; line--)
        for (unsigned slot = 0; slot < SLOTS; slot++) {
            unsigned above = ~0u << (line + 1) & 15;
            int beaten = (lines & above & ~slot) != 0;
            if ((set >> slot & 1) && (slot >> line & 1) && !beaten)
                lines |= 1u << line;
        }
    return lines;
}

/* The winner finds its own number on the settled lines; slot 0 drives none and can still win. */
int contest_winner(unsigned set)
{
    unsigned lines = contest_lines(set);
    return set >> lines & 1 ? (int)lines : -1;
}
