/* What the calls came to, counted: a test that never saw something has not tested it. */
#ifndef EVENTS_H
#define EVENTS_H

#include <stdint.h>

enum event {
    LOCV_ENTERED,
    MISMATCH_ENTERED,
    MISMERGE_ENTERED,
    EXCESS_ENTERED,
    KIND_CHANGED,
    LEFT,
    FFD_DEFECT,
    DECLARED,
    RECORD_U,
    RECORD_B,
    LEFT_WHILE_UNAVAILABLE,
    SERVER_SENT,
    FDI_SENT,
    FDI_WITHOUT_EFFECT,
    FDI_REPLACED,
    FDI_ENDED_IN_LOCV,
    LONG_FDI_ENDED,
    FLOOD_OWN,
    FLOOD_OTHER,
    FULL_TABLE,
    RESTART,
    RESTART_BACK,
    RESTART_IN_DEFECT,
    RESTART_IN_OUTAGE,
    LAST_SLOT_CLOSED,
    LAST_SLOT_RECORD,
    EVENTS
};

extern uint64_t events[EVENTS];

/* Fails where something did not happen; with all, also where some length of a short buffer was not tried. */
void must_have_happened(int all);
void summary(uint64_t sequences);

#endif
