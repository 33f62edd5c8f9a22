/* An example host. It retires the four instructions of document 01's worked trace one by one, and prints the lines that
 * the cost lister prints for them, then what the branch cache predicted of each, and then, from a run that explains
 * them, why each cost what it did. It goes on with every other function of timing_060.h, in both profiles, and holds
 * what they give against that: where anything differs it says so, and its exit status is 1.
 *
 * On x86-64, in this folder, after `tools/install PREFIX`, where pkg-config looks into PREFIX/lib/pkgconfig:
 *     cc -o example example.c $(pkg-config --cflags --libs timing_060)
 * and with no C library:
 *     clang --target=x86_64-unknown-linux-gnu -ffreestanding -nostdinc -I freestanding -fno-stack-protector \
 *         -nostdlib -static -fuse-ld=lld -I PREFIX/include -o example example.c PREFIX/lib/libtiming_060.a
 */
#include <timing_060.h>

#include "system.h"

static void print_opcode(uint16_t op) {
    char s[4];
    for (int i = 0; i < 4; i++) s[i] = "0123456789ABCDEF"[op >> (12 - 4 * i) & 15];
    put(s, 4);
}

/* What the branch cache predicted, in words. */
static const char *words_of(uint32_t answer) {
    static const char *const WORDS[] = {"not consulted", "miss", "predicted not taken", "predicted taken"};
    return answer < 4 ? WORDS[answer] : "no answer";
}

static int same_text(const char *a, const char *b) {
    while (*a && *a == *b) a++, b++;
    return *a == *b;
}

static int same_window(const timing_060 *a, const timing_060 *b) {
    for (int i = 0; i < TIMING_060_WINDOW; i++)
        if (a->window[i] != b->window[i]) return 0;
    return 1;
}

/* What an image has of two states: the profile is not in it. */
static int same_state(const timing_060 *a, const timing_060 *b) {
    for (int i = 0; i < TIMING_060_SLOTS; i++)
        if (a->tags[i] != b->tags[i] || a->state[i] != b->state[i]) return 0;
    return same_window(a, b);
}

enum {
    INSTRUCTIONS = 4,
    KEPT = TIMING_060_CACHED | TIMING_060_ESS | TIMING_060_EBC | TIMING_060_SUPERVISOR,
    TAKEN = KEPT | TIMING_060_FLOWED,
    CRATE = TIMING_060_PROFILE_CRATE,
    MENDED = TIMING_060_PROFILE_MENDED,
    /* what the branch cache predicted, by shorter names */
    NONE = TIMING_060_NOT_CONSULTED,
    MISS = TIMING_060_MISS,
    NOT_TAKEN = TIMING_060_PREDICTED_NOT_TAKEN,
    PREDICTED = TIMING_060_PREDICTED_TAKEN,
    /* why, by shorter names */
    PAIRED = TIMING_060_REASON_PAIRED,
    SHUT = TIMING_060_REASON_WINDOW_SHUT,
    ESS_OFF = TIMING_060_REASON_ESS_OFF,
    NOT_CACHED = TIMING_060_REASON_NOT_CACHED,
    NOT_SIMPLE = TIMING_060_REASON_NOT_SIMPLE,
    REGISTER = TIMING_060_REASON_REGISTER,
    CCR = TIMING_060_REASON_CCR,
    MEMORY = TIMING_060_REASON_MEMORY,
    REFILL = TIMING_060_REASON_REFILL,
    FOLDED = TIMING_060_REASON_FOLDED,
    ALONE = TIMING_060_REASON_ALONE,
    RIGHTLY_NOT = TIMING_060_REASON_NOT_TAKEN,
    MISPREDICTED = TIMING_060_REASON_MISPREDICTED,
    STATIC = TIMING_060_REASON_STATIC,
    /* what can be refused here, by shorter names */
    OK = TIMING_060_ACCEPTED,
    OVERSIZED = TIMING_060_REFUSED_OVERSIZED,
    CUT = TIMING_060_REFUSED_CUT,
    FLAG = TIMING_060_REFUSED_FLAG,
    ROOM = TIMING_060_REFUSED_ROOM,
    LENGTH = TIMING_060_REFUSED_IMAGE_LENGTH,
    HEADER = TIMING_060_REFUSED_IMAGE_HEADER,
    NO_WINDOW = TIMING_060_REFUSED_IMAGE_WINDOW,
    /* an image as it is written, and an old one; where the window starts in both */
    IMAGE = TIMING_060_IMAGE_BYTES,
    OLD = TIMING_060_OLD_IMAGE_BYTES,
    WINDOW_AT = 1284
};

/* The worked trace: as an emulator has it, and as the bytes of a trace. */
static const timing_060_record WORKED[INSTRUCTIONS] = {
    {0x7000, KEPT, 0x1000, 0x1002, 4},
    {0x7200, KEPT, 0x1002, 0x1004, 4},
    {0x60FE, TAKEN, 0x1004, 0x1004, 10},
    {0x60FE, TAKEN, 0x1004, 0x1004, 10},
};
static const uint8_t WORKED_BYTES[TIMING_060_RECORD_BYTES * INSTRUCTIONS] = {
    0x10, 0, 1, 0, 0x00, 0x70, 0x1E, 0, 0x00, 0x10, 0, 0, 0x02, 0x10, 0, 0, 4, 0, 0, 0,
    0x10, 0, 1, 0, 0x00, 0x72, 0x1E, 0, 0x02, 0x10, 0, 0, 0x04, 0x10, 0, 0, 4, 0, 0, 0,
    0x10, 0, 1, 0, 0xFE, 0x60, 0x1F, 0, 0x04, 0x10, 0, 0, 0x04, 0x10, 0, 0, 10, 0, 0, 0,
    0x10, 0, 1, 0, 0xFE, 0x60, 0x1F, 0, 0x04, 0x10, 0, 0, 0x04, 0x10, 0, 0, 10, 0, 0, 0,
};
static const uint32_t CLOCKS[INSTRUCTIONS] = {1, 0, 7, 1};
static const uint8_t ANSWERS[INSTRUCTIONS] = {NONE, NONE, MISS, PREDICTED};
static const uint8_t REASONS[INSTRUCTIONS] = {SHUT, PAIRED, MISPREDICTED, ALONE};

/* How its line starts. */
static void print_instruction(int i) {
    print_decimal((uint64_t)i);
    print(" ");
    print_opcode(WORKED[i].op);
    print(" ");
}

/* The emulator's own loop: each instruction as it retires. */
static void step_by_step(timing_060 *t) {
    uint32_t answers[INSTRUCTIONS];
    uint64_t total = 0;
    print("index opcode clocks\n");
    for (int i = 0; i < INSTRUCTIONS; i++) {
        const timing_060_record *r = &WORKED[i];
        timing_060_retired retired = timing_060_retire(t, r->op, r->flags, r->ppc, r->pc, r->raw);
        total += retired.clocks;
        answers[i] = retired.answer;
        print_instruction(i);
        print_decimal(retired.clocks);
        print("\n");
        expect(retired.clocks == CLOCKS[i], "the clocks of a step");
        expect(retired.answer == ANSWERS[i], "the answer of a step");
    }
    print("total ");
    print_decimal(INSTRUCTIONS);
    print(" ");
    print_decimal(total);
    print("\n");
    /* the branch met a cold slot, which is why it cost 7; the second time it was predicted */
    print("index opcode answer\n");
    for (int i = 0; i < INSTRUCTIONS; i++) {
        print_instruction(i);
        print(words_of(answers[i]));
        print("\n");
    }
}

/* Why each cost what it did: the trace once more, explained. What is beyond the last cost, answer and reason stays. */
static void explained(const timing_060 *stepped) {
    enum { N = INSTRUCTIONS };
    static timing_060 t;
    static uint8_t bytes[TIMING_060_COST_BYTES * N + 1], answers[N + 1], reasons[N + 1];
    bytes[4 * N] = answers[N] = reasons[N] = 99;
    timing_060_fresh(&t, CRATE);
    timing_060_ran ran = timing_060_explain_trace(&t, WORKED_BYTES, sizeof WORKED_BYTES, bytes, sizeof bytes, answers,
                                                  sizeof answers, reasons, sizeof reasons);
    expect(is(ran, OK, 0, 4, 9), "what the explained trace gives");
    expect(same_state(&t, stepped), "the state after the explained trace");
    print("index opcode reason\n");
    for (int i = 0; i < N; i++) {
        print_instruction(i);
        print(timing_060_reason_word(reasons[i]));
        print("\n");
        expect(reasons[i] == REASONS[i] && answers[i] == ANSWERS[i], "a reason of the explained trace, or an answer");
    }
    for (int i = 0; i < 4 * N; i++) expect(bytes[i] == (i % 4 ? 0 : CLOCKS[i / 4]), "a cost of the explained trace");
    expect(bytes[4 * N] == 99 && answers[N] == 99 && reasons[N] == 99, "the bytes beyond what was explained");
}

/* A refused trace or batch writes no number: no lent run, nor a state, not even a window that is read as another's. */
static void refused_writes_nothing(void) {
    static const uint16_t WINDOWS[2][TIMING_060_WINDOW] = {{2, 0, 5, 0, 9, 0x7000, 0x1000, 1},
                                                           {0, 1, 3, 0, 0xFFFF, 0x7000, 0x1000, 1}};
    enum { N = INSTRUCTIONS, BYTES = sizeof WORKED_BYTES };
    static const uint64_t ROOMS[][3] = {{4 * N - 1, N, N}, {4 * N, N - 1, N}, {4 * N, N, N - 1}, {0, N, N},
                                        {4 * N, 0, N},     {4 * N, N, 0},     {0, 0, 0}};
    static timing_060 t, given;
    static uint8_t bytes[TIMING_060_COST_BYTES * N], answers[N], reasons[N];
    static uint32_t places[N];
    timing_060_ran ran;
    for (int w = 0; w < 2; w++) {
        for (int i = 0; i < TIMING_060_WINDOW; i++) t.window[i] = given.window[i] = WINDOWS[w][i];
        ran = timing_060_run_trace(&t, WORKED_BYTES, BYTES - 1, bytes, sizeof bytes, answers, N);
        expect(is(ran, CUT, 60, 0, 0), "the refusal of a trace on any window");
        ran = timing_060_run_trace(&t, WORKED_BYTES, BYTES - 1, bytes, 0, answers, 0);
        expect(is(ran, CUT, 60, 0, 0), "the refusal of a cut trace before that of its room");
        ran = timing_060_run_trace(&t, WORKED_BYTES, BYTES, bytes, sizeof bytes - 1, answers, N);
        expect(is(ran, ROOM, BYTES, 0, 0), "the refusal of a trace with too little room for costs");
        ran = timing_060_run_trace(&t, WORKED_BYTES, BYTES, bytes, sizeof bytes, answers, N - 1);
        expect(is(ran, ROOM, BYTES, 0, 0), "the refusal of a trace with too little room for answers");
        expect(same_state(&t, &given), "the numbers after a refused trace");
        ran = timing_060_explain_trace(&t, WORKED_BYTES, BYTES - 1, bytes, 0, answers, 0, reasons, 0);
        expect(is(ran, CUT, 60, 0, 0), "the refusal of a cut trace to be explained");
        for (size_t i = 0; i < sizeof ROOMS / sizeof ROOMS[0]; i++) {
            const uint64_t *room = ROOMS[i];
            ran = timing_060_explain_trace(&t, WORKED_BYTES, BYTES, bytes, room[0], answers, room[1], reasons, room[2]);
            expect(is(ran, ROOM, BYTES, 0, 0), "the refusal of a trace with too little room to be explained");
        }
        expect(same_state(&t, &given), "the numbers after a refused trace that was to be explained");
        ran = timing_060_run_batch(&t, WORKED, N, places, 0, answers, N);
        expect(is(ran, ROOM, 0, 0, 0), "the refusal of a batch on any window");
        ran = timing_060_run_batch(&t, WORKED, N, places, N, answers, N - 1);
        expect(is(ran, ROOM, 0, 0, 0), "the refusal of a batch with too little room for answers");
        expect(same_state(&t, &given), "the numbers after a refused batch");
        ran = timing_060_run_batch(&t, WORKED, (uint64_t)1 << 62, places, 0, answers, 0);
        expect(is(ran, OVERSIZED, 0, 0, 0), "the refusal of 2^62 records");
        ran = timing_060_run_batch(&t, WORKED, UINT64_MAX, places, 0, answers, 0);
        expect(is(ran, OVERSIZED, 0, 0, 0), "the refusal of 2^64 - 1 records");
        expect(same_state(&t, &given), "the numbers after an oversized batch");
    }
    for (int i = 0; i < N; i++) {
        expect(places[i] == 0 && answers[i] == 0 && reasons[i] == 0, "the places after a refusal");
        for (int j = 0; j < 4; j++) expect(bytes[4 * i + j] == 0, "the bytes after a refusal");
    }
}

/* A trace and a batch cost the same, and leave the same state; what is beyond the last cost and answer stays. */
static void runs(const timing_060 *stepped) {
    static timing_060 t;
    static uint8_t bytes[TIMING_060_COST_BYTES * INSTRUCTIONS + 1], answers[INSTRUCTIONS + 1];
    static uint32_t places[INSTRUCTIONS + 1];
    timing_060_ran ran;
    timing_060_fresh(&t, CRATE);
    bytes[sizeof bytes - 1] = answers[INSTRUCTIONS] = 99;
    ran = timing_060_run_trace(&t, WORKED_BYTES, sizeof WORKED_BYTES, bytes, sizeof bytes, answers, sizeof answers);
    expect(is(ran, OK, 0, 4, 9), "what the trace gives");
    expect(same_state(&t, stepped), "the state after the trace");
    for (int i = 0; i < 4 * INSTRUCTIONS; i++) expect(bytes[i] == (i % 4 ? 0 : CLOCKS[i / 4]), "a cost of the trace");
    for (int i = 0; i < INSTRUCTIONS; i++) expect(answers[i] == ANSWERS[i], "an answer of the trace");
    expect(bytes[sizeof bytes - 1] == 99, "the byte beyond the trace's costs");
    expect(answers[INSTRUCTIONS] == 99, "the byte beyond the trace's answers");
    ran = timing_060_run_trace(&t, WORKED_BYTES, 79, bytes, sizeof bytes, answers, sizeof answers);
    expect(is(ran, CUT, 60, 0, 0), "the refusal of a cut trace");
    expect(same_state(&t, stepped), "the state after a refused trace");
    refused_writes_nothing();

    timing_060_fresh(&t, CRATE);
    for (int i = 0; i <= INSTRUCTIONS; i++) places[i] = answers[i] = 99;
    ran = timing_060_run_batch(&t, WORKED, INSTRUCTIONS, places, INSTRUCTIONS + 1, answers, INSTRUCTIONS + 1);
    expect(is(ran, OK, 0, 4, 9), "what the batch gives");
    expect(same_state(&t, stepped), "the state after the batch");
    for (int i = 0; i < INSTRUCTIONS; i++) expect(places[i] == CLOCKS[i], "a cost of the batch");
    for (int i = 0; i < INSTRUCTIONS; i++) expect(answers[i] == ANSWERS[i], "an answer of the batch");
    expect(places[INSTRUCTIONS] == 99, "the place beyond the batch's costs");
    expect(answers[INSTRUCTIONS] == 99, "the byte beyond the batch's answers");
    ran = timing_060_run_batch(&t, WORKED, INSTRUCTIONS, places, INSTRUCTIONS - 1, answers, INSTRUCTIONS);
    expect(is(ran, ROOM, 0, 0, 0), "the refusal of a batch with too few places");
}

/* A branch as it is met: BNE in either direction, and DBF. What the cache predicts, and what that costs; in steps, as a
 * batch and as a trace. */
enum { MET = 16, NO_EBC = TAKEN & ~TIMING_060_EBC, UNCACHED = TAKEN & ~TIMING_060_CACHED };
static const struct {
    timing_060_record record;
    uint8_t clocks, answer;
} MEETINGS[MET] = {
    {{0x66FC, NO_EBC, 0x1008, 0x1006, 10}, 7, NONE},     /* EBC is off */
    {{0x66FC, UNCACHED, 0x1008, 0x1006, 10}, 7, NONE},   /* an uncached fetch */
    {{0x66FC, KEPT, 0x1008, 0x100A, 8}, 1, MISS},        /* a miss that is not taken leaves the slot cold */
    {{0x66FC, TAKEN, 0x1008, 0x1006, 10}, 7, MISS},      /* a cold slot */
    {{0x66FC, TAKEN, 0x1008, 0x1006, 10}, 1, PREDICTED}, /* a right guess */
    {{0x66FC, KEPT, 0x1008, 0x100A, 8}, 7, PREDICTED},   /* a wrong guess: it was not taken */
    {{0x66FC, KEPT, 0x1008, 0x100A, 8}, 7, PREDICTED},   /* once more, and the guess turns */
    {{0x66FC, KEPT, 0x1008, 0x100A, 8}, 1, NOT_TAKEN},   /* a right guess */
    {{0x66FC, TAKEN, 0x1008, 0x1006, 10}, 7, NOT_TAKEN}, /* a wrong guess: it was taken */
    {{0x66FC, TAKEN, 0x1208, 0x1206, 10}, 7, MISS},      /* another branch's slot, which it takes */
    {{0x66FC, TAKEN, 0x1008, 0x1006, 10}, 7, MISS},      /* so the first has none */
    {{0x7000, KEPT, 0x1006, 0x1008, 4}, 1, NONE},        /* MOVEQ, which is no branch */
    {{0x66FC, TAKEN, 0x1008, 0x1006, 10}, 0, PREDICTED}, /* a right guess behind a head */
    {{0x51C8, KEPT, 0x1010, 0x1000, 10}, 7, MISS},       /* DBF loops */
    {{0x51C8, KEPT, 0x1010, 0x1014, 14}, 7, PREDICTED},  /* and ends */
    {{0x4E75, TAKEN, 0x1008, 0x2000, 16}, 5, NONE},      /* RTS flows, and is no branch */
};

static void put_record(uint8_t *at, const timing_060_record *r) {
    const uint32_t words[] = {16 | 1 << 16, r->op | (uint32_t)r->flags << 16, r->ppc, r->pc, (uint32_t)r->raw};
    for (int i = 0; i < TIMING_060_RECORD_BYTES; i++) at[i] = (uint8_t)(words[i / 4] >> (8 * (i % 4)));
}

static void met_branches(uint32_t profile) {
    static timing_060 t, stepped;
    static timing_060_record batch[MET];
    static uint8_t trace[TIMING_060_RECORD_BYTES * MET], bytes[TIMING_060_COST_BYTES * MET], answers[MET];
    static uint32_t places[MET];
    timing_060_fresh(&stepped, profile);
    for (int i = 0; i < MET; i++) {
        const timing_060_record *r = &MEETINGS[i].record;
        timing_060_retired retired = timing_060_retire(&stepped, r->op, r->flags, r->ppc, r->pc, r->raw);
        expect(retired.clocks == MEETINGS[i].clocks, "the clocks of a branch");
        expect(retired.answer == MEETINGS[i].answer, "the answer of a branch");
        batch[i] = *r;
        put_record(trace + TIMING_060_RECORD_BYTES * i, r);
    }
    timing_060_fresh(&t, profile);
    timing_060_run_batch(&t, batch, MET, places, MET, answers, MET);
    for (int i = 0; i < MET; i++) expect(places[i] == MEETINGS[i].clocks, "the clocks of a branch, in a batch");
    for (int i = 0; i < MET; i++) expect(answers[i] == MEETINGS[i].answer, "the answer of a branch, in a batch");
    expect(same_state(&t, &stepped), "the state after a batch of branches");
    timing_060_fresh(&t, profile);
    for (int i = 0; i < MET; i++) answers[i] = 99;
    timing_060_run_trace(&t, trace, sizeof trace, bytes, sizeof bytes, answers, MET);
    for (int i = 0; i < MET; i++) expect(bytes[4 * i] == MEETINGS[i].clocks, "the clocks of a branch, in a trace");
    for (int i = 0; i < MET; i++) expect(answers[i] == MEETINGS[i].answer, "the answer of a branch, in a trace");
    expect(same_state(&t, &stepped), "the state after a trace of branches");
    timing_060_clear_all(&t);
    timing_060_retired cold = timing_060_retire(&t, 0x66FC, TAKEN, 0x1008, 0x1006, 10);
    expect(cold.clocks == 7 && cold.answer == MISS, "a branch after a clear of all");
}

/* One retirement after the other, which come to each reason: the window that one leaves is the one that the next meets.
 * Explained in steps and as a trace. */
enum { WHYS = 28, NO_ESS = KEPT & ~TIMING_060_ESS, FETCHED = KEPT & ~TIMING_060_CACHED };
static const struct {
    timing_060_record record;
    uint8_t clocks, answer, reason;
} WHY[WHYS] = {
    {{0x7000, KEPT, 0x1000, 0x1002, 4}, 1, NONE, SHUT},                /* MOVEQ #0,D0 */
    {{0x7200, KEPT, 0x1002, 0x1004, 4}, 0, NONE, PAIRED},              /* MOVEQ #0,D1 */
    {{0x7000, KEPT, 0x1004, 0x1006, 4}, 1, NONE, SHUT},                /* the pair left no head */
    {{0x7200, NO_ESS, 0x1006, 0x1008, 4}, 1, NONE, ESS_OFF},           /* ESS is off; it is the next head */
    {{0x7400, FETCHED, 0x1008, 0x100A, 4}, 1, NONE, NOT_CACHED},       /* it was not cached */
    {{0x7600, KEPT, 0x100A, 0x100C, 4}, 1, NONE, NOT_CACHED},          /* its head was not */
    {{0x4E71, KEPT, 0x100C, 0x100E, 4}, 1, NONE, NOT_SIMPLE},          /* NOP is of class 1, and no head */
    {{0x7000, KEPT, 0x100E, 0x1010, 4}, 1, NONE, SHUT},                /* MOVEQ #0,D0 */
    {{0x3230, KEPT, 0x1010, 0x1014, 14}, 2, NONE, NOT_SIMPLE},         /* MOVE.W (d8,A0,Xn),D1 is indexed */
    {{0xD200, KEPT, 0x1014, 0x1016, 4}, 1, NONE, REGISTER},            /* ADD.B D0,D1: the head writes D1 */
    {{0x57C0, KEPT, 0x1016, 0x1018, 4}, 1, NONE, CCR},                 /* SEQ D0: ADD sets the CCR */
    {{0x3410, KEPT, 0x1018, 0x101A, 8}, 0, NONE, PAIRED},              /* MOVE.W (A0),D2 */
    {{0x3410, KEPT, 0x101A, 0x101C, 8}, 1, NONE, SHUT},                /* once more */
    {{0x3211, KEPT, 0x101C, 0x101E, 8}, 1, NONE, MEMORY},              /* MOVE.W (A1),D1: memory behind memory */
    {{0x4E75, TAKEN, 0x101E, 0x2000, 16}, 5, NONE, REFILL},            /* RTS changes the flow, and is no branch */
    {{0x66FC, NO_EBC, 0x2008, 0x2006, 10}, 7, NONE, STATIC},           /* BNE, EBC is off */
    {{0x66FC, KEPT, 0x2008, 0x200A, 8}, 1, MISS, RIGHTLY_NOT},         /* a cold slot, and it is not taken */
    {{0x66FC, TAKEN, 0x2008, 0x2006, 10}, 7, MISS, MISPREDICTED},      /* a cold slot, and it is */
    {{0x66FC, TAKEN, 0x2008, 0x2006, 10}, 1, PREDICTED, ALONE},        /* a right guess, and no head */
    {{0x7000, KEPT, 0x2006, 0x2008, 4}, 1, NONE, SHUT},                /* MOVEQ #0,D0 */
    {{0x66FC, TAKEN, 0x2008, 0x2006, 10}, 0, PREDICTED, FOLDED},       /* a right guess behind it */
    {{0x66FC, KEPT, 0x2008, 0x200A, 8}, 7, PREDICTED, MISPREDICTED},   /* a wrong guess of taken */
    {{0x66FC, KEPT, 0x2008, 0x200A, 8}, 7, PREDICTED, MISPREDICTED},   /* once more, and the guess turns */
    {{0x66FC, KEPT, 0x2008, 0x200A, 8}, 1, NOT_TAKEN, RIGHTLY_NOT},    /* a right guess of not taken */
    {{0x66FC, TAKEN, 0x2008, 0x2006, 10}, 7, NOT_TAKEN, MISPREDICTED}, /* a wrong one */
    {{0x51C8, FETCHED, 0x200A, 0x2000, 10}, 2, NONE, STATIC},          /* DBF, not cached, loops */
    {{0x51C8, FETCHED, 0x200A, 0x200E, 14}, 3, NONE, STATIC},          /* and ends */
    {{0x4E75, TAKEN, 0x200E, 0x3000, -1}, 5, NONE, REFILL},            /* RTS */
};

/* In the trace a break goes before each that finds the window shut: it changes nothing, and has no reason. */
static void each_reason(uint32_t profile) {
    static timing_060 t, stepped;
    static uint8_t trace[(TIMING_060_RECORD_BYTES + 4) * WHYS], bytes[TIMING_060_COST_BYTES * WHYS];
    static uint8_t answers[WHYS], reasons[WHYS];
    unsigned counts[TIMING_060_REASONS] = {0};
    uint64_t size = 0, total = 0;
    timing_060_fresh(&stepped, profile);
    for (int i = 0; i < WHYS; i++) {
        const timing_060_record *r = &WHY[i].record;
        timing_060_explained e = timing_060_explain(&stepped, r->op, r->flags, r->ppc, r->pc, r->raw);
        expect(e.clocks == WHY[i].clocks && e.answer == WHY[i].answer, "the clocks and the answer of a reason");
        expect(e.reason == WHY[i].reason, timing_060_reason_word(WHY[i].reason));
        counts[WHY[i].reason]++;
        total += e.clocks;
        if (WHY[i].reason == SHUT) trace[size + 2] = 2, size += 4;
        put_record(trace + size, r);
        size += TIMING_060_RECORD_BYTES;
    }
    for (int i = 0; i < TIMING_060_REASONS; i++) expect(counts[i] > 0, "each reason is met");
    timing_060_fresh(&t, profile);
    timing_060_ran ran;
    ran = timing_060_explain_trace(&t, trace, size, bytes, sizeof bytes, answers, sizeof answers, reasons, WHYS);
    expect(is(ran, OK, 0, WHYS, total), "what the trace of each reason gives");
    expect(same_state(&t, &stepped), "the state after the trace of each reason");
    for (int i = 0; i < WHYS; i++) {
        expect(bytes[4 * i] == WHY[i].clocks && answers[i] == WHY[i].answer, "the clocks and the answer, in a trace");
        expect(reasons[i] == WHY[i].reason, "the reason, in a trace");
    }
}

/* What is proved of the clocks of a reason. */
static int costs_so(uint32_t reason, uint32_t clocks) {
    if (reason == PAIRED || reason == FOLDED) return clocks == 0;
    if (reason == ALONE || reason == RIGHTLY_NOT) return clocks == 1;
    return reason == MISPREDICTED ? clocks == 7 : clocks > 0;
}

/* Each opcode, with flags of all kinds: explained it gives what a step gives, leaves what a step leaves, costs what its
 * reason says, and where that is a register has one in common with the head. */
static void explained_opcodes(uint32_t profile) {
    static timing_060 t, plain;
    int same = 1, known = 1, so = 1, shared = 1;
    timing_060_fresh(&t, profile);
    timing_060_fresh(&plain, profile);
    for (uint32_t i = 0; i < 4 * 65536; i++) {
        /* mostly cached, with ESS and EBC on, and few changes of flow */
        const uint16_t op = (uint16_t)(i * 40503), flags = (uint16_t)(i % 7 ? KEPT | (i % 5 == 0) : i >> 3 & 31);
        const uint32_t ppc = 2 * (i % 600), pc = ppc + 2 + (i & 2);
        const timing_060_masks m = timing_060_masks_of(op, profile);
        const int common = (m.uses | m.defs) & t.window[TIMING_060_WINDOW_DEFS];
        const timing_060_retired r = timing_060_retire(&plain, op, flags, ppc, pc, 20);
        const timing_060_explained e = timing_060_explain(&t, op, flags, ppc, pc, 20);
        same &= e.clocks == r.clocks && e.answer == r.answer && same_window(&t, &plain);
        known &= e.reason < TIMING_060_REASONS;
        so &= costs_so(e.reason, e.clocks);
        if (e.reason == REGISTER) shared &= common != 0;
        if (e.reason == PAIRED || e.reason == CCR || e.reason == MEMORY) shared &= common == 0;
    }
    expect(same && same_state(&t, &plain), "explained steps against steps");
    expect(known && so, "the clocks of a reason");
    expect(shared, "the registers of a reason");
}

/* The clocks alone. */
static uint32_t retire_one(timing_060 *t, const timing_060_record *r) {
    return timing_060_retire(t, r->op, r->flags, r->ppc, r->pc, r->raw).clocks;
}

static const uint8_t ZEROS[IMAGE] = {0};

static int same_bytes(const uint8_t *a, const uint8_t *b, int from, int to) {
    for (int i = from; i < to; i++)
        if (a[i] != b[i]) return 0;
    return 1;
}

/* The header of an image: the length of what follows it, and its kind. */
static void put_header(uint8_t *image, unsigned payload, unsigned kind) {
    image[0] = (uint8_t)payload, image[1] = (uint8_t)(payload >> 8);
    image[2] = (uint8_t)kind, image[3] = (uint8_t)(kind >> 8);
}

/* An image of kind 16 is one of kind 17 without the head: read, the head is 0 at 0, and written again the six bytes
 * are zeros. What follows costs the same. */
static void old_image(const timing_060 *kept, const uint8_t *image) {
    static timing_060 t, nameless, named;
    static uint8_t old[OLD], again[IMAGE];
    named = nameless = *kept;
    for (int i = TIMING_060_WINDOW_OPCODE; i < TIMING_060_WINDOW; i++) nameless.window[i] = 0;
    for (int i = 0; i < OLD; i++) old[i] = image[i];
    put_header(old, OLD - 4, 16);
    expect(is(timing_060_image_read(&t, old, OLD), OK, 0, 0, 0), "what reading an old image gives");
    expect(same_state(&t, &nameless), "the state of an old image");
    expect(is(timing_060_image_write(&t, again, IMAGE), OK, 0, IMAGE, 0), "what writing it again gives");
    expect(same_bytes(again, image, 0, OLD) && same_bytes(again, ZEROS, OLD, IMAGE), "the image written again");
    expect(retire_one(&t, &WORKED[1]) == retire_one(&named, &WORKED[1]), "the clocks from an old image");
    expect(same_state(&t, &named), "the state that follows an old image");
}

/* A refused image gives a fresh state. */
static void refused_image(const uint8_t *image, uint64_t bytes, uint64_t refusal, const char *what) {
    static timing_060 t, fresh;
    for (int i = 0; i < TIMING_060_WINDOW; i++) t.window[i] = t.state[i] = 1;
    expect(is(timing_060_image_read(&t, image, bytes), refusal, refusal == NO_WINDOW ? WINDOW_AT : 0, 0, 0), what);
    expect(same_state(&t, &fresh), "the state of a refused image");
}

/* Lengths of no kind, under the header of either. */
static void wrong_lengths(uint8_t *image) {
    static const uint64_t LENGTHS[] = {0, 3, OLD - 1, OLD + 1, IMAGE - 1, IMAGE + 1};
    for (size_t i = 0; i < sizeof LENGTHS / sizeof LENGTHS[0]; i++) {
        put_header(image, OLD - 4, 16);
        refused_image(image, LENGTHS[i], LENGTH, "the refusal of a length under the old header");
        put_header(image, IMAGE - 4, 17);
        refused_image(image, LENGTHS[i], LENGTH, "the refusal of a length");
    }
}

/* Headers that do not match the length: those of the other kind, and of none. */
static void wrong_headers(uint8_t *image) {
    static const struct {
        uint64_t bytes;
        unsigned payload, kind;
    } HEADERS[] = {
        {IMAGE, OLD - 4, 16},   {IMAGE, OLD - 4, 17},         {IMAGE, IMAGE - 4, 16}, {IMAGE, IMAGE - 3, 17},
        {IMAGE, IMAGE - 4, 18}, {IMAGE, IMAGE - 4, 256 + 17}, {OLD, IMAGE - 4, 17},   {OLD, IMAGE - 4, 16},
        {OLD, OLD - 4, 17},     {OLD, OLD - 3, 16},           {OLD, OLD - 4, 15},     {OLD, OLD - 4, 256 + 16},
    };
    for (size_t i = 0; i < sizeof HEADERS / sizeof HEADERS[0]; i++) {
        put_header(image, HEADERS[i].payload, HEADERS[i].kind);
        refused_image(image, HEADERS[i].bytes, HEADER, "the refusal of a header");
    }
}

/* Open above 1, a bit above 2, and of a shut window, in an image of each kind, a byte that is not 0. */
static void wrong_windows(uint8_t *image, int bytes, unsigned kind) {
    static timing_060 t;
    put_header(image, (unsigned)bytes - 4, kind);
    for (int i = WINDOW_AT; i < bytes; i++) image[i] = 0;
    expect(is(timing_060_image_read(&t, image, (uint64_t)bytes), OK, 0, 0, 0), "the image of a shut window");
    for (int i = WINDOW_AT; i < bytes; i++) {
        image[i] = i == WINDOW_AT ? 2 : 1;
        refused_image(image, (uint64_t)bytes, NO_WINDOW, "the refusal of a window that is none");
        image[i] = 0;
    }
    image[WINDOW_AT] = 1, image[WINDOW_AT + 3] = 8;
    refused_image(image, (uint64_t)bytes, NO_WINDOW, "the refusal of a bit above 2");
}

/* The state saved and read back, and what is refused. */
static void images(const timing_060 *kept) {
    static timing_060 t;
    static uint8_t image[IMAGE + 1];
    image[0] = image[IMAGE] = 99;
    timing_060_ran ran = timing_060_image_write(kept, image, IMAGE - 1);
    expect(is(ran, ROOM, 0, 0, 0) && image[0] == 99, "the refusal of an image with too little room");
    ran = timing_060_image_write(kept, image, IMAGE + 1);
    expect(is(ran, OK, 0, IMAGE, 0), "what image writing gives");
    expect(image[IMAGE] == 99, "the byte beyond the image");
    ran = timing_060_image_read(&t, image, IMAGE);
    expect(is(ran, OK, 0, 0, 0), "what image reading gives");
    expect(same_state(&t, kept), "the state read back");
    old_image(kept, image);
    wrong_lengths(image);
    wrong_headers(image);
    wrong_windows(image, IMAGE, 17);
    wrong_windows(image, OLD, 16);
}

/* The window's numbers but for the head's opcode and address. */
static int window_is(const timing_060 *t, int open, int defs, int ccr, int memory, int cached) {
    return t->window[TIMING_060_WINDOW_OPEN] == open && t->window[TIMING_060_WINDOW_DEFS] == defs &&
           t->window[TIMING_060_WINDOW_CCR] == ccr && t->window[TIMING_060_WINDOW_MEMORY] == memory &&
           t->window[TIMING_060_WINDOW_CACHED] == cached;
}

/* The head as the functions have it. */
static int head_is(const timing_060 *t, int open, uint16_t op, uint32_t address) {
    return timing_060_has_head(t) == open && timing_060_head_opcode(t) == op && timing_060_head_address(t) == address;
}

/* A shut window: eight zeros, and no head. */
static int is_shut(const timing_060 *t) {
    static timing_060 fresh;
    return same_window(t, &fresh) && head_is(t, 0, 0, 0);
}

static void put_window(timing_060 *t, const uint16_t *numbers) {
    for (int i = 0; i < TIMING_060_WINDOW; i++) t->window[i] = numbers[i];
}

/* The window: any number but 0 is yes, and of a shut one the others are read and left as zeros. */
static void windows(void) {
    static timing_060 t;
    static uint8_t image[IMAGE];
    static const uint16_t HEAD[TIMING_060_WINDOW] = {2, 1, 3, 0, 0xFFFF, 0xFFFF, 0xFFFE, 0xFFFF};
    static const uint16_t SHUT[TIMING_060_WINDOW] = {0, 1, 3, 0, 0xFFFF, 0xFFFF, 0xFFFE, 0xFFFF};
    put_window(&t, HEAD);
    expect(head_is(&t, 1, 0xFFFF, 0xFFFFFFFE), "the head of an open window");
    timing_060_clear_all(&t);
    expect(window_is(&t, 1, 1, 1, 0, 1), "an open window");
    expect(head_is(&t, 1, 0xFFFF, 0xFFFFFFFE), "its head");
    expect(timing_060_retire(&t, 0x7200, KEPT, 0, 2, 4).clocks == 0, "the clocks behind an open window");
    put_window(&t, SHUT);
    expect(head_is(&t, 0, 0, 0), "the head of a shut window");
    timing_060_image_write(&t, image, IMAGE);
    expect(same_bytes(image, ZEROS, WINDOW_AT, IMAGE), "a shut window in an image");
    timing_060_clear_user(&t);
    expect(is_shut(&t), "a shut window");
    put_window(&t, SHUT);
    timing_060_run_trace(&t, NULL, 0, NULL, 0, NULL, 0);
    expect(is_shut(&t), "a shut window after no trace");
    put_window(&t, SHUT);
    timing_060_run_batch(&t, NULL, 0, NULL, 0, NULL, 0);
    expect(is_shut(&t), "a shut window after no batch");
}

/* MOVEQ #0,D0 is the head, and stays it through clears and an image. */
static void head(timing_060 *t) {
    static const uint8_t BYTES[6] = {0x78, 0x56, 0x34, 0x12, 0x00, 0x70};
    static uint8_t image[IMAGE];
    timing_060_retire(t, 0x7000, KEPT, 0x12345678, 0x1234567A, 4);
    expect(window_is(t, 1, 1, 1, 0, 1) && head_is(t, 1, 0x7000, 0x12345678), "the head MOVEQ");
    timing_060_clear_user(t);
    timing_060_clear_all(t);
    expect(head_is(t, 1, 0x7000, 0x12345678), "the head after clears");
    timing_060_image_write(t, image, IMAGE);
    expect(same_bytes(image + OLD, BYTES, 0, 6), "the head in an image");
    timing_060_break(t);
    expect(is_shut(t), "no head after a break");
    timing_060_image_read(t, image, IMAGE);
    expect(head_is(t, 1, 0x7000, 0x12345678), "the head from an image");
}

/* The next head, or none. */
static void next_heads(void) {
    static const timing_060_record SHUTTING[] = {
        {0x7200, KEPT, 0x1002, 0x1004, 4},   /* MOVEQ #0,D1, which pairs */
        {0x60FE, TAKEN, 0x1002, 0x1002, 10}, /* BRA */
        {0x4E75, TAKEN, 0x1002, 0x2000, 16}, /* RTS, another change of flow */
        {0xD1C0, KEPT, 0x1002, 0x1004, 8},   /* ADDA.L D0,A0, of class 1 */
    };
    static timing_060 t;
    static uint8_t bytes[TIMING_060_COST_BYTES], answer;
    static uint32_t place;
    for (size_t i = 0; i < sizeof SHUTTING / sizeof SHUTTING[0]; i++) {
        head(&t);
        retire_one(&t, &SHUTTING[i]);
        expect(is_shut(&t), "no head after what shuts the window");
    }
    head(&t);
    timing_060_retire(&t, 0x7001, KEPT, 0xFFFFFFFE, 0, 4); /* MOVEQ #1,D0, which does not pair */
    expect(head_is(&t, 1, 0x7001, 0xFFFFFFFE), "the head behind a head");
    timing_060_run_trace(&t, WORKED_BYTES, TIMING_060_RECORD_BYTES, bytes, sizeof bytes, &answer, 1);
    expect(head_is(&t, 1, 0x7000, 0x1000), "the head after a trace");
    head(&t);
    timing_060_run_batch(&t, WORKED, 1, &place, 1, &answer, 1);
    expect(head_is(&t, 1, 0x7000, 0x1000), "the head after a batch");
}

/* The words, of the first and the last reason, and of numbers that are none's. */
static void reason_words(void) {
    expect(same_text(timing_060_reason_word(PAIRED), "paired"), "the word of the first reason");
    expect(same_text(timing_060_reason_word(STATIC), "static"), "the word of the last reason");
    expect(same_text(timing_060_reason_word(TIMING_060_REASONS), "no reason"), "the word of no reason");
    expect(same_text(timing_060_reason_word(0xFFFFFFFF), "no reason"), "the word of no reason");
}

/* An RTS that flowed, with a raw count below 0, and flag bits above bit 4: not looked at, but in a trace refused. */
static void flags(timing_060 *t) {
    static const timing_060_record RTS = {0x4E75, 0xFFE0 | TAKEN, 0x3000, 0x4000, -1};
    static const uint8_t RTS_BYTES[TIMING_060_RECORD_BYTES] = {0x10, 0, 1, 0, 0x75, 0x4E, 0x3F};
    uint32_t clocks = 0;
    uint8_t bytes[TIMING_060_COST_BYTES], answer = 99, reason = 99;
    expect(retire_one(t, &RTS) == 5, "the clocks of RTS");
    timing_060_explained e = timing_060_explain(t, RTS.op, RTS.flags, RTS.ppc, RTS.pc, RTS.raw);
    expect(e.clocks == 5 && e.answer == NONE && e.reason == REFILL, "RTS explained");
    e = timing_060_explain(t, RTS.op, RTS.flags, RTS.ppc, RTS.pc, 0x7FFFFFFF);
    expect(e.clocks == 0x1FFFFFFF && e.answer == NONE && e.reason == REFILL, "RTS of the most clocks, explained");
    timing_060_ran ran = timing_060_run_batch(t, &RTS, 1, &clocks, 1, &answer, 1);
    expect(is(ran, OK, 0, 1, 5) && clocks == 5 && answer == NONE, "the batch of RTS");
    ran = timing_060_run_trace(t, RTS_BYTES, sizeof RTS_BYTES, bytes, sizeof bytes, &answer, 1);
    expect(is(ran, FLAG, 0, 0, 0), "the refusal of a flag");
    ran = timing_060_explain_trace(t, RTS_BYTES, sizeof RTS_BYTES, bytes, sizeof bytes, &answer, 1, &reason, 1);
    expect(is(ran, FLAG, 0, 0, 0) && reason == 99, "the refusal of a flag, explained");
}

/* EOR.W D0,D1 and MOVE.W D1,D2, which reads what the EOR writes: the crate's profile pairs them, the mended not. */
static const timing_060_record OVER_PAIRED[2] = {{0xB141, KEPT, 0x1000, 0x1002, 4}, {0x3401, KEPT, 0x1002, 0x1004, 4}};
static const uint8_t OVER_PAIRED_BYTES[2 * TIMING_060_RECORD_BYTES] = {
    0x10, 0, 1, 0, 0x41, 0xB1, 0x1E, 0, 0x00, 0x10, 0, 0, 0x02, 0x10, 0, 0, 4, 0, 0, 0,
    0x10, 0, 1, 0, 0x01, 0x34, 0x1E, 0, 0x02, 0x10, 0, 0, 0x04, 0x10, 0, 0, 4, 0, 0, 0,
};

/* The profiles as numbers: 1 is the mended one, any other the crate's. */
enum { NUMBERS = 5 };
static const uint32_t NUMBER[NUMBERS] = {CRATE, MENDED, 2, 0x10001, 0xFFFFFFFF};

/* Each through every function that looks at it; only a fresh state sets it. */
static void profiles(void) {
    static timing_060 t;
    static uint8_t bytes[2 * TIMING_060_COST_BYTES], answers[2], reasons[2], image[IMAGE];
    static uint32_t places[2];
    for (int i = 0; i < NUMBERS; i++) {
        const uint32_t profile = NUMBER[i], second = profile == MENDED;
        timing_060_fresh(&t, profile);
        expect(retire_one(&t, &OVER_PAIRED[0]) == 1, "the clocks of EOR");
        expect(window_is(&t, 1, profile == MENDED ? 2 : 0, 1, 0, 1), "the window behind EOR");
        expect(head_is(&t, 1, 0xB141, 0x1000), "the head EOR");
        timing_060_image_write(&t, image, IMAGE);
        expect(retire_one(&t, &OVER_PAIRED[1]) == second, "the clocks behind EOR");
        timing_060_image_read(&t, image, IMAGE);
        expect(retire_one(&t, &OVER_PAIRED[1]) == second, "the clocks behind EOR, from an image");
        timing_060_image_read(&t, image, IMAGE);
        timing_060_explained e = timing_060_explain(&t, 0x3401, KEPT, 0x1002, 0x1004, 4);
        expect(e.clocks == second && e.reason == (second ? REGISTER : PAIRED), "the reason behind EOR");
        timing_060_break(&t);
        timing_060_clear_user(&t);
        timing_060_clear_all(&t);
        timing_060_ran ran;
        ran = timing_060_run_trace(&t, OVER_PAIRED_BYTES, sizeof OVER_PAIRED_BYTES, bytes, sizeof bytes, answers, 2);
        expect(is(ran, OK, 0, 2, 1 + second) && bytes[0] == 1 && bytes[4] == second, "the trace of EOR");
        timing_060_break(&t);
        ran = timing_060_explain_trace(&t, OVER_PAIRED_BYTES, sizeof OVER_PAIRED_BYTES, bytes, sizeof bytes, answers, 2,
                                       reasons, 2);
        expect(is(ran, OK, 0, 2, 1 + second) && reasons[1] == (second ? REGISTER : PAIRED), "the reasons of EOR");
        timing_060_break(&t);
        ran = timing_060_run_batch(&t, OVER_PAIRED, 2, places, 2, answers, 2);
        expect(is(ran, OK, 0, 2, 1 + second) && places[0] == 1 && places[1] == second, "the batch of EOR");
        timing_060_image_read(&t, image, 0);
        expect(t.profile == profile, "the profile in the end");
    }
    /* changed between the two: the window keeps what the head defined where it was read */
    timing_060_fresh(&t, CRATE);
    retire_one(&t, &OVER_PAIRED[0]);
    t.profile = MENDED;
    expect(retire_one(&t, &OVER_PAIRED[1]) == 0, "the clocks behind the crate's EOR");
    timing_060_fresh(&t, MENDED);
    retire_one(&t, &OVER_PAIRED[0]);
    t.profile = CRATE;
    expect(retire_one(&t, &OVER_PAIRED[1]) == 1, "the clocks behind the mended EOR");
}

static int same_masks(timing_060_masks a, timing_060_masks b) { return a.uses == b.uses && a.defs == b.defs; }

/* What the mended profile has of an opcode is what the crate's has of others. */
static void opcodes(void) {
    static const struct {
        uint16_t op, word, masks;
    } AS[] = {
        {0xB141, 0xB141, 0xD240}, /* EOR.W D0,D1: the masks of ADD.W D0,D1 */
        {0x49C0, 0x49C0, 0x5040}, /* EXTB.L D0: the masks of ADDQ.W #8,D0 */
        {0xB308, 0xB018, 0x12D8}, /* CMPM.B (A0)+,(A1)+: the word of CMP.B (A0)+,D0, the masks of MOVE.B (A0)+,(A1)+ */
        {0x0E00, 0xA000, 0x0E00}, /* MOVES: the word of what is unclassified */
        {0x8180, 0x8140, 0x8180}, /* UNPK: the word of PACK */
        {0x4900, 0x4100, 0x4900}, /* CHK.L D0,D4: the word of CHK.L D0,D0 */
        {0x4980, 0x4180, 0x4980}, /* CHK.W D0,D4: the word of CHK.W D0,D0 */
        {0x49D0, 0x41D0, 0x49D0}, /* LEA (A0),A4: the word of LEA (A0),A0 */
        {0x7000, 0x7000, 0x7000}, /* MOVEQ #0,D0: nothing is mended */
    };
    for (size_t i = 0; i < sizeof AS / sizeof AS[0]; i++) {
        const uint16_t op = AS[i].op;
        expect(timing_060_class_word(op, MENDED) == timing_060_class_word(AS[i].word, CRATE), "a mended class word");
        expect(same_masks(timing_060_masks_of(op, MENDED), timing_060_masks_of(AS[i].masks, CRATE)), "mended masks");
    }
    timing_060_masks m;
    int same = 1;
    for (uint32_t i = 0; i < 65536; i++) {
        const uint16_t op = (uint16_t)i, word = timing_060_class_word(op, CRATE);
        m = timing_060_masks_of(op, CRATE);
        for (int j = 2; j < NUMBERS; j++)
            same &= timing_060_class_word(op, NUMBER[j]) == word && same_masks(timing_060_masks_of(op, NUMBER[j]), m);
    }
    expect(same, "the opcodes in a profile of another number");
    m = timing_060_masks_of(0x49D0, CRATE);
    expect(timing_060_class_word(0x49D0, CRATE) == 0xC404, "the class word of 49D0");
    expect(m.uses == 0x0100 && m.defs == 0x1000, "the masks of 49D0");
    m = timing_060_masks_of(0xB308, MENDED);
    expect(timing_060_class_word(0xB308, MENDED) == 0x4404, "the mended class word of B308");
    expect(m.uses == 0x0300 && m.defs == 0x0300, "the mended masks of B308");
}

static int host(void) {
    static timing_060 t;
    timing_060_fresh(&t, CRATE);
    step_by_step(&t);
    explained(&t);
    runs(&t);

    t.state[7] = 12;
    timing_060_retire(&t, 0x7000, KEPT, 0x2000, 0x2002, 4);
    expect(window_is(&t, 1, 1, 1, 0, 1), "the window behind MOVEQ #0,D0");
    expect(head_is(&t, 1, 0x7000, 0x2000), "the head MOVEQ #0,D0");
    images(&t);
    timing_060_break(&t);
    expect(is_shut(&t), "the window after a break");
    expect(t.tags[2] == 0x1004 && t.state[2] == 7 && t.state[7] == 12, "the cache after a break");
    images(&t);
    timing_060_clear_user(&t);
    expect(t.state[2] == 7 && t.state[7] == 0, "the slots after a clear of user entries");
    timing_060_clear_all(&t);
    expect(t.state[2] == 0 && t.tags[2] == 0x1004, "the slots after a clear of all");
    windows();
    next_heads();
    met_branches(CRATE);
    met_branches(MENDED);
    each_reason(CRATE);
    each_reason(MENDED);
    explained_opcodes(CRATE);
    explained_opcodes(MENDED);
    reason_words();
    flags(&t);
    profiles();
    opcodes();
    return failures != 0;
}
