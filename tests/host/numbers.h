/* The paper's own numbers to meet, by the calls alone: neither the model nor the plain calls have a say in these. */
#ifndef NUMBERS_H
#define NUMBERS_H

void numbers_to_meet(void);

#endif
