/* The limits of traces, batches and images, with buffers that no Rattle program can hold, and canaries around what is
 * lent to be written; and NULL for a count of 0. All in either profile. Prints `limits hold`, or what differs; then its
 * exit status is 1. Compiled as example.c is. */
#include <timing_060.h>

#include "system.h"

enum { RETIREMENTS = TIMING_060_TRACE_BYTES / TIMING_060_RECORD_BYTES, CANARY = 0x5A };

static const uint64_t RUN = (uint64_t)TIMING_060_RECORD_BYTES * RETIREMENTS;
static const uint64_t ROOM = (uint64_t)TIMING_060_COST_BYTES * RETIREMENTS;
static const uint64_t RECORDS = TIMING_060_BATCH_RECORDS;

static uint8_t trace[TIMING_060_TRACE_BYTES + 1];
static timing_060_record records[TIMING_060_BATCH_RECORDS + 1];
static uint8_t bytes[TIMING_060_COST_BYTES * RETIREMENTS + 32];
static uint32_t places[TIMING_060_BATCH_RECORDS + 33];
static uint8_t answers[TIMING_060_ANSWER_BYTES * TIMING_060_BATCH_RECORDS + 33];
static uint8_t reasons[TIMING_060_REASON_BYTES * RETIREMENTS + 32];
static timing_060 t, given;

static void fill(void) {
    for (size_t i = 0; i < sizeof bytes; i++) bytes[i] = CANARY;
    for (size_t i = 0; i < sizeof places / sizeof places[0]; i++) places[i] = CANARY;
    for (size_t i = 0; i < sizeof answers; i++) answers[i] = CANARY;
    for (size_t i = 0; i < sizeof reasons; i++) reasons[i] = CANARY;
}

/* Nothing before `from` and nothing from `to` on was written. */
static int bytes_stay(size_t from, size_t to) {
    for (size_t i = 0; i < sizeof bytes; i++)
        if ((i < from || i >= to) && bytes[i] != CANARY) return 0;
    return 1;
}

static int places_stay(size_t from, size_t to) {
    for (size_t i = 0; i < sizeof places / sizeof places[0]; i++)
        if ((i < from || i >= to) && places[i] != CANARY) return 0;
    return 1;
}

static int answers_stay(size_t from, size_t to) {
    for (size_t i = 0; i < sizeof answers; i++)
        if ((i < from || i >= to) && answers[i] != CANARY) return 0;
    return 1;
}

static int reasons_stay(size_t from, size_t to) {
    for (size_t i = 0; i < sizeof reasons; i++)
        if ((i < from || i >= to) && reasons[i] != CANARY) return 0;
    return 1;
}

/* None of the three runs of an explained trace was written. */
static int nothing_told(void) { return bytes_stay(0, 0) && answers_stay(0, 0) && reasons_stay(0, 0); }

/* The answers of so many MOVEQ and, behind them, of a branch that meets a cold slot. */
static int answers_are(size_t moveqs) {
    for (size_t i = 0; i < moveqs; i++)
        if (answers[16 + i] != TIMING_060_NOT_CONSULTED) return 0;
    return answers[16 + moveqs] == TIMING_060_MISS;
}

/* The reasons of the same, from a shut window: MOVEQ into D0 does not pair behind another. */
static int reasons_are(size_t moveqs) {
    for (size_t i = 0; i < moveqs; i++)
        if (reasons[16 + i] != (i == 0 ? TIMING_060_REASON_WINDOW_SHUT : TIMING_060_REASON_REGISTER)) return 0;
    return reasons[16 + moveqs] == TIMING_060_REASON_MISPREDICTED;
}

/* The state is the one that was given. */
static int state_stays(void) {
    const uint8_t *a = (const uint8_t *)&t, *b = (const uint8_t *)&given;
    for (size_t i = 0; i < sizeof t; i++)
        if (a[i] != b[i]) return 0;
    return 1;
}

/* Breaks alone, which are no retirements. */
static void put_breaks(void) {
    for (size_t i = 0; i < sizeof trace; i++) trace[i] = i % 4 == 2 ? 2 : 0;
}

/* Retirements alone, as many as fit: MOVEQ into D0, which in no profile pairs with itself, and a BRA, whose slot is
 * cold. */
static void put_retirements(void) {
    static const uint8_t moveq[20] = {16, 0, 1, 0, 0x00, 0x70, 0x1E, 0, 0, 0x10, 0, 0, 2, 0x10, 0, 0, 4, 0, 0, 0};
    for (size_t i = 0; i < RUN; i++) trace[i] = moveq[i % 20];
    trace[RUN - 16] = 0xFE, trace[RUN - 15] = 0x60, trace[RUN - 14] = 0x1F;
}

static void traces(uint32_t profile) {
    timing_060_ran ran;
    /* at the limit, and one byte over it */
    put_breaks();
    fill();
    timing_060_fresh(&t, profile);
    ran = timing_060_run_trace(&t, trace, TIMING_060_TRACE_BYTES, bytes + 16, 0, answers + 16, 0);
    expect(is(ran, 0, 0, 0, 0), "16,777,216 bytes");
    ran = timing_060_run_trace(&t, trace, TIMING_060_TRACE_BYTES + 1, bytes + 16, 0, answers + 16, 0);
    expect(is(ran, TIMING_060_REFUSED_OVERSIZED, 0, 0, 0), "16,777,217 bytes");
    expect(bytes_stay(0, 0) && answers_stay(0, 0), "lent bytes of runs without retirements");
    put_retirements();
    given = t;
    ran = timing_060_run_trace(&t, trace, RUN, bytes + 16, ROOM - 1, answers + 16, RETIREMENTS);
    expect(is(ran, TIMING_060_REFUSED_ROOM, RUN, 0, 0), "a trace with a byte too little room");
    ran = timing_060_run_trace(&t, trace, RUN, bytes + 16, ROOM, answers + 16, RETIREMENTS - 1);
    expect(is(ran, TIMING_060_REFUSED_ROOM, RUN, 0, 0), "a trace with a byte too little room for answers");
    expect(bytes_stay(0, 0) && answers_stay(0, 0), "lent bytes of a refused trace");
    expect(state_stays(), "the state after a refused trace");
    ran = timing_060_run_trace(&t, trace, RUN, bytes + 16, ROOM, answers + 16, RETIREMENTS);
    expect(is(ran, 0, 0, RETIREMENTS, RETIREMENTS + 6), "a trace of 838,860 retirements");
    expect(bytes_stay(16, 16 + ROOM), "the bytes around a trace's costs");
    expect(answers_stay(16, 16 + RETIREMENTS), "the bytes around a trace's answers");
    expect(answers_are(RETIREMENTS - 1), "a trace's answers");
    /* in more room than one retirement needs */
    fill();
    ran = timing_060_run_trace(&t, trace, TIMING_060_RECORD_BYTES, bytes + 16, ROOM, answers + 16, RETIREMENTS);
    expect(is(ran, 0, 0, 1, 1), "a trace of a retirement");
    expect(bytes_stay(16, 16 + TIMING_060_COST_BYTES), "the bytes beyond a cost");
    expect(answers_stay(16, 16 + TIMING_060_ANSWER_BYTES), "the bytes beyond an answer");
}

/* A trace that is explained: so many bytes of it, with so much room for costs, answers and reasons. */
static timing_060_ran explain(uint64_t size, uint64_t room, uint64_t answers_room, uint64_t reasons_room) {
    return timing_060_explain_trace(&t, trace, size, bytes + 16, room, answers + 16, answers_room, reasons + 16,
                                    reasons_room);
}

/* The same limits; each run short by a byte, and that for the reasons empty. */
static void explained_traces(uint32_t profile) {
    put_breaks();
    fill();
    timing_060_fresh(&t, profile);
    expect(is(explain(TIMING_060_TRACE_BYTES, 0, 0, 0), 0, 0, 0, 0), "16,777,216 bytes explained");
    timing_060_ran ran = explain(TIMING_060_TRACE_BYTES + 1, 0, 0, 0);
    expect(is(ran, TIMING_060_REFUSED_OVERSIZED, 0, 0, 0), "16,777,217 bytes explained");
    expect(nothing_told(), "lent bytes of explained runs without retirements");
    put_retirements();
    given = t;
    ran = explain(RUN, ROOM - 1, RETIREMENTS, RETIREMENTS);
    expect(is(ran, TIMING_060_REFUSED_ROOM, RUN, 0, 0), "an explained trace with a byte too little room");
    ran = explain(RUN, ROOM, RETIREMENTS - 1, RETIREMENTS);
    expect(is(ran, TIMING_060_REFUSED_ROOM, RUN, 0, 0), "an explained trace with a byte too little room for answers");
    ran = explain(RUN, ROOM, RETIREMENTS, RETIREMENTS - 1);
    expect(is(ran, TIMING_060_REFUSED_ROOM, RUN, 0, 0), "an explained trace with a byte too little room for reasons");
    ran = explain(RUN, ROOM, RETIREMENTS, 0);
    expect(is(ran, TIMING_060_REFUSED_ROOM, RUN, 0, 0), "an explained trace with an empty run for reasons");
    expect(nothing_told(), "lent bytes of a refused explained trace");
    expect(state_stays(), "the state after a refused explained trace");
    ran = explain(RUN, ROOM, RETIREMENTS, RETIREMENTS);
    expect(is(ran, 0, 0, RETIREMENTS, RETIREMENTS + 6), "838,860 retirements explained");
    expect(bytes_stay(16, 16 + ROOM), "the bytes around an explained trace's costs");
    expect(answers_stay(16, 16 + RETIREMENTS), "the bytes around an explained trace's answers");
    expect(reasons_stay(16, 16 + RETIREMENTS), "the bytes around a trace's reasons");
    expect(answers_are(RETIREMENTS - 1), "an explained trace's answers");
    expect(reasons_are(RETIREMENTS - 1), "a trace's reasons");
    /* in more room than one retirement needs */
    fill();
    expect(is(explain(TIMING_060_RECORD_BYTES, ROOM, RETIREMENTS, RETIREMENTS), 0, 0, 1, 1), "a retirement explained");
    expect(bytes_stay(16, 16 + TIMING_060_COST_BYTES), "the bytes beyond an explained cost");
    expect(answers_stay(16, 16 + TIMING_060_ANSWER_BYTES), "the bytes beyond an explained answer");
    expect(reasons_stay(16, 16 + TIMING_060_REASON_BYTES), "the bytes beyond a reason");
}

static void batches(uint32_t profile) {
    timing_060_ran ran;
    static const timing_060_record moveq = {0x7000, 0x1E, 0x1000, 0x1002, 4}, bra = {0x60FE, 0x1F, 0x1000, 0x1000, 10};
    for (size_t i = 0; i < RECORDS + 1; i++) records[i] = moveq;
    records[RECORDS - 1] = bra;
    fill();
    timing_060_fresh(&t, profile);
    given = t;
    ran = timing_060_run_batch(&t, records, RECORDS + 1, places + 16, RECORDS + 1, answers + 16, RECORDS + 1);
    expect(is(ran, TIMING_060_REFUSED_OVERSIZED, 0, 0, 0), "1,048,577 records");
    ran = timing_060_run_batch(&t, records, RECORDS, places + 16, RECORDS - 1, answers + 16, RECORDS);
    expect(is(ran, TIMING_060_REFUSED_ROOM, 0, 0, 0), "a place too few");
    ran = timing_060_run_batch(&t, records, RECORDS, places + 16, RECORDS, answers + 16, RECORDS - 1);
    expect(is(ran, TIMING_060_REFUSED_ROOM, 0, 0, 0), "a byte too few for answers");
    expect(places_stay(0, 0) && answers_stay(0, 0), "lent places of refused batches");
    expect(state_stays(), "the state after refused batches");
    ran = timing_060_run_batch(&t, records, RECORDS, places + 16, RECORDS, answers + 16, RECORDS);
    expect(is(ran, 0, 0, RECORDS, RECORDS + 6), "1,048,576 records");
    expect(places_stay(16, 16 + RECORDS), "the places around a batch's costs");
    expect(answers_stay(16, 16 + RECORDS), "the bytes around a batch's answers");
    expect(answers_are(RECORDS - 1), "a batch's answers");
    /* in more room than one record needs */
    fill();
    ran = timing_060_run_batch(&t, records, 1, places + 16, RECORDS, answers + 16, RECORDS);
    expect(is(ran, 0, 0, 1, 1), "a batch of a record");
    expect(places_stay(16, 17) && answers_stay(16, 17), "the places and bytes beyond a record's");
}

/* An image, in a byte too little room and in more than it needs. */
static void images(void) {
    fill();
    timing_060_ran ran = timing_060_image_write(&t, bytes + 16, TIMING_060_IMAGE_BYTES - 1);
    expect(is(ran, TIMING_060_REFUSED_ROOM, 0, 0, 0), "1,293 bytes for an image");
    expect(bytes_stay(0, 0), "lent bytes of a refused image");
    ran = timing_060_image_write(&t, bytes + 16, TIMING_060_IMAGE_BYTES + 16);
    expect(is(ran, 0, 0, TIMING_060_IMAGE_BYTES, 0), "an image");
    expect(bytes_stay(16, 16 + TIMING_060_IMAGE_BYTES), "the bytes around an image");
}

/* A pointer with a count of 0 is not followed. */
static void nothing_lent(void) {
    fill();
    timing_060_ran ran = timing_060_run_trace(&t, NULL, 0, NULL, 0, NULL, 0);
    expect(is(ran, 0, 0, 0, 0), "no trace and no room");
    ran = timing_060_run_trace(&t, trace, RUN, NULL, 0, NULL, 0);
    expect(is(ran, TIMING_060_REFUSED_ROOM, RUN, 0, 0), "a trace and no room");
    ran = timing_060_run_trace(&t, trace, RUN, NULL, 0, answers + 16, RETIREMENTS);
    expect(is(ran, TIMING_060_REFUSED_ROOM, RUN, 0, 0), "a trace and no room for costs");
    ran = timing_060_run_trace(&t, trace, RUN, bytes + 16, ROOM, NULL, 0);
    expect(is(ran, TIMING_060_REFUSED_ROOM, RUN, 0, 0), "a trace and no room for answers");
    ran = timing_060_run_trace(&t, NULL, 0, bytes + 16, ROOM, answers + 16, RETIREMENTS);
    expect(is(ran, 0, 0, 0, 0), "no trace, and room");
    ran = timing_060_explain_trace(&t, NULL, 0, NULL, 0, NULL, 0, NULL, 0);
    expect(is(ran, 0, 0, 0, 0), "no trace to explain, and no room");
    ran = timing_060_explain_trace(&t, trace, RUN, NULL, 0, NULL, 0, NULL, 0);
    expect(is(ran, TIMING_060_REFUSED_ROOM, RUN, 0, 0), "a trace to explain, and no room");
    ran = timing_060_explain_trace(&t, trace, RUN, bytes + 16, ROOM, answers + 16, RETIREMENTS, NULL, 0);
    expect(is(ran, TIMING_060_REFUSED_ROOM, RUN, 0, 0), "a trace to explain, and no room for reasons");
    ran = timing_060_explain_trace(&t, trace, RUN, NULL, 0, NULL, 0, reasons + 16, RETIREMENTS);
    expect(is(ran, TIMING_060_REFUSED_ROOM, RUN, 0, 0), "a trace to explain, and room for reasons alone");
    ran = timing_060_explain_trace(&t, NULL, 0, bytes + 16, ROOM, answers + 16, RETIREMENTS, reasons + 16, RETIREMENTS);
    expect(is(ran, 0, 0, 0, 0), "no trace to explain, and room");
    ran = timing_060_run_batch(&t, NULL, 0, NULL, 0, NULL, 0);
    expect(is(ran, 0, 0, 0, 0), "no batch and no places");
    ran = timing_060_run_batch(&t, records, 1, NULL, 0, NULL, 0);
    expect(is(ran, TIMING_060_REFUSED_ROOM, 0, 0, 0), "a batch and no places");
    ran = timing_060_run_batch(&t, records, 1, NULL, 0, answers + 16, 1);
    expect(is(ran, TIMING_060_REFUSED_ROOM, 0, 0, 0), "a batch and no places for costs");
    ran = timing_060_run_batch(&t, records, 1, places + 16, 1, NULL, 0);
    expect(is(ran, TIMING_060_REFUSED_ROOM, 0, 0, 0), "a batch and no room for answers");
    ran = timing_060_run_batch(&t, NULL, 0, places + 16, RECORDS, answers + 16, RECORDS);
    expect(is(ran, 0, 0, 0, 0), "no batch, and places");
    expect(nothing_told() && places_stay(0, 0), "what was lent to no retirement");
    ran = timing_060_image_write(&t, NULL, 0);
    expect(is(ran, TIMING_060_REFUSED_ROOM, 0, 0, 0), "no room for an image");
    ran = timing_060_image_read(&t, NULL, 0);
    expect(is(ran, TIMING_060_REFUSED_IMAGE_LENGTH, 0, 0, 0), "no image");
}

static int host(void) {
    for (uint32_t profile = 0; profile < 2; profile++) {
        traces(profile);
        explained_traces(profile);
        batches(profile);
        images();
        nothing_lent();
    }
    if (failures == 0) print("limits hold\n");
    return failures != 0;
}
