/* What random draws would seldom hit: each length, each value, a very long slot. */
#ifndef SWEEPS_H
#define SWEEPS_H

#include <stddef.h>

/* Each step-th of them; 1 is all. Seeds from 1,000,000. */
void sweeps(size_t step);

#endif
