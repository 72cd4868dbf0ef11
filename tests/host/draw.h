/*
 * Fixed-seed random draws, and the drawings that more than one file needs. No expression elsewhere may draw twice in an
 * order that C leaves open, or a seed would mean another sequence with another compiler.
 */
#ifndef DRAW_H
#define DRAW_H

#include <stddef.h>
#include <stdint.h>

void draw_seed(uint64_t seed);
uint64_t draw_number(void);
uint32_t draw(uint32_t below);
int one_in(uint32_t chances);
void draw_octets(uint8_t *octets, size_t count);

/* One of the first octets becomes another number. */
void change_one(uint8_t *octets, uint32_t among);

/* TTSIs that obey the rule, mostly close to one another: one octet apart, or in the first four octets only. */
void draw_ttsi(uint8_t ttsi[20]);
void draw_other_ttsi(uint8_t other[20], const uint8_t ttsi[20]);
uint16_t draw_dt(void);
uint32_t draw_dl(void);

#endif
