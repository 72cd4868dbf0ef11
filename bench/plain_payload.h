/* Answers, numbers as octets, and payloads: the first part of plain.c, which alone includes it. */
#ifndef PLAIN_PAYLOAD_H
#define PLAIN_PAYLOAD_H

#include "partnerwedge.h"

enum { DONE, NO_LSP, LENGTH, PARITY, TYPE, RULE, OTHER, FULL, TWICE, LAST_SLOT, NO_IMAGE, SHORT, GIVEN, NO_DEFECT };
enum { CV = 1, FDI = 2, BDI = 3, FFD = 7 };
enum { LOCV = 0x0201, MISMATCH = 0x0202, MISMERGE = 0x0203, EXCESS = 0x0204, SERVER = 0x0101 };
enum { HEADER = 5, FIELD = 79, LSPS = 64, ROW = 11, E_CUT = 12, U_CUT = 1, STOOD_CUT = 11 };

static uint16_t get16(const uint8_t *at)
{
    return (uint16_t)(at[0] << 8 | at[1]);
}

static uint32_t get32(const uint8_t *at)
{
    return (uint32_t)get16(at) << 16 | get16(at + 2);
}

static uint64_t get64(const uint8_t *at)
{
    return (uint64_t)get32(at) << 32 | get32(at + 4);
}

static void put16(uint8_t *at, uint16_t number)
{
    at[0] = (uint8_t)(number >> 8);
    at[1] = (uint8_t)number;
}

static void put32(uint8_t *at, uint32_t number)
{
    put16(at, (uint16_t)(number >> 16));
    put16(at + 2, (uint16_t)number);
}

static void put64(uint8_t *at, uint64_t number)
{
    put32(at, (uint32_t)(number >> 32));
    put32(at + 4, (uint32_t)number);
}

static int ttsi_good(const uint8_t *ttsi)
{
    return ttsi[16] == 0 && ttsi[17] == 0;
}

static int rate_good(uint8_t rate)
{
    return rate >= 1 && rate <= 6;
}

static int dt_good(uint16_t dt)
{
    switch (dt) {
    case SERVER:
    case 0x0102:
    case LOCV:
    case MISMATCH:
    case MISMERGE:
    case EXCESS:
    case 0x02ff:
        return 1;
    default:
        return 0;
    }
}

static uint16_t bip16(const uint8_t *payload)
{
    uint8_t even = 0, odd = 0;
    for (int i = 0; i < 42; i += 2) {
        even ^= payload[i];
        odd ^= payload[i + 1];
    }
    return (uint16_t)(even << 8 | odd);
}

static int zeros(const uint8_t *payload, int from)
{
    uint8_t all = 0;
    for (int i = from; i < 42; i++)
        all |= payload[i];
    return all == 0;
}

static uint8_t read_payload(const uint8_t *payload, size_t len)
{
    if (len != PW_PAYLOAD)
        return LENGTH;
    if (get16(payload + 42) != bip16(payload))
        return PARITY;
    int good = payload[1] == 0 && ttsi_good(payload + 4);
    switch (payload[0]) {
    case CV:
        good = good && get16(payload + 2) == 0 && zeros(payload, 24);
        break;
    case FFD:
        good = good && get16(payload + 2) == 0 && rate_good(payload[24]) && zeros(payload, 25);
        break;
    case FDI:
    case BDI:
        good = good && dt_good(get16(payload + 2)) && zeros(payload, 28);
        break;
    default:
        return TYPE;
    }
    return good ? DONE : RULE;
}

#endif
