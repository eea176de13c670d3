// What the compared calls have reached: each refusal, each family and number of axes, each base and degree, and some edges.
#ifndef REACHED_H
#define REACHED_H

#include "input.h"

void note_reached(const struct input *in, const struct answer *r);

// Prints what was reached, and a line with "not reached" for everything that was not.
void report_reached(void);

#endif
