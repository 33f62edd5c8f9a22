/* The stack that the library needs: each function is called on a painted stack of its own, in both profiles where it
 * takes one, and the stack then shows how deep it was written. What the call itself takes and the memcpy and memset of
 * system.h are counted in. Prints a line for each function, its bytes and the most that docs/HOST.md says; where there
 * are more, its exit status is 1. For x86-64; compiled as example.c is. */
#include <timing_060.h>

#include "system.h"

enum { DEEP = 65536, PAINT = 0xA5, OPCODES = 65536, INSTRUCTIONS = 2 * OPCODES, PROFILES = 2 };

static uint8_t stack[DEEP] __attribute__((aligned(16)));
static timing_060 t;
static timing_060_record records[INSTRUCTIONS];
static uint8_t trace[TIMING_060_RECORD_BYTES * INSTRUCTIONS + 12];
static uint8_t bytes[TIMING_060_COST_BYTES * INSTRUCTIONS];
static uint32_t places[INSTRUCTIONS];
static uint8_t answers[INSTRUCTIONS];
static uint8_t reasons[INSTRUCTIONS];
static uint8_t image[TIMING_060_IMAGE_BYTES];
static volatile uint64_t given; /* so that no call is left out */

/* A fresh state as an image of kind 16. */
static const uint8_t old_image[TIMING_060_OLD_IMAGE_BYTES] = {0x04, 0x05, 16};

static uint64_t used(void (*call)(void)) {
    uint64_t i = 0;
    for (; i < DEEP; i++) stack[i] = PAINT;
    __asm__ volatile("movq %%rsp, %%rbx\n\tmovq %0, %%rsp\n\tcall *%1\n\tmovq %%rbx, %%rsp"
                     :
                     : "r"(stack + DEEP), "r"(call)
                     : "rax", "rbx", "rcx", "rdx", "rsi", "rdi", "r8", "r9", "r10", "r11", "cc", "memory", "xmm0",
                       "xmm1", "xmm2", "xmm3", "xmm4", "xmm5", "xmm6", "xmm7", "xmm8", "xmm9", "xmm10", "xmm11",
                       "xmm12", "xmm13", "xmm14", "xmm15");
    for (i = 0; i < DEEP && stack[i] == PAINT;) i++;
    return DEEP - i;
}

/* Every opcode twice, as a change of flow and as none, in user mode; the first half of the instructions flows. */
static uint16_t flags_of(uint32_t i) { return i < OPCODES ? 15 : 14; }

/* These, and behind them each other kind of record. */
static void fill(void) {
    static const uint8_t others[12] = {0, 0, 2, 0, 0, 0, 3, 0, 0, 0, 4, 0};
    for (uint32_t i = 0; i < INSTRUCTIONS; i++) {
        uint8_t *r = trace + TIMING_060_RECORD_BYTES * i;
        timing_060_record w = {(uint16_t)i, flags_of(i), 2 * i, 0, 100};
        records[i] = w;
        r[0] = 16, r[2] = 1, r[4] = (uint8_t)i, r[5] = (uint8_t)(i >> 8), r[6] = (uint8_t)flags_of(i);
        r[8] = (uint8_t)(2 * i), r[9] = (uint8_t)(i >> 7), r[16] = 100;
    }
    for (uint32_t i = 0; i < sizeof others; i++) trace[TIMING_060_RECORD_BYTES * INSTRUCTIONS + i] = others[i];
}

static void fresh(void) { timing_060_fresh(&t, TIMING_060_PROFILE_CRATE); }
static void retire(void) {
    for (t.profile = 0; t.profile < PROFILES; t.profile++)
        for (uint32_t i = 0; i < INSTRUCTIONS; i++) {
            const timing_060_retired r = timing_060_retire(&t, (uint16_t)i, flags_of(i), 2 * i, 0, 100);
            given = r.clocks + r.answer;
        }
}
static void explain(void) {
    for (t.profile = 0; t.profile < PROFILES; t.profile++)
        for (uint32_t i = 0; i < INSTRUCTIONS; i++) {
            const timing_060_explained e = timing_060_explain(&t, (uint16_t)i, flags_of(i), 2 * i, 0, 100);
            given = e.clocks + e.answer + e.reason;
        }
}
static void break_pipeline(void) { timing_060_break(&t); }
static void clear_all(void) { timing_060_clear_all(&t); }
static void clear_user(void) { timing_060_clear_user(&t); }
static void class_word(void) {
    for (uint32_t i = 0; i < PROFILES * OPCODES; i++) given = timing_060_class_word((uint16_t)i, i >> 16);
}
static void masks_of(void) {
    for (uint32_t i = 0; i < PROFILES * OPCODES; i++) given = timing_060_masks_of((uint16_t)i, i >> 16).uses;
}
static void run_trace(void) {
    for (t.profile = 0; t.profile < PROFILES; t.profile++) {
        given = timing_060_run_trace(&t, trace, sizeof trace, bytes, sizeof bytes, answers, sizeof answers).count;
        expect(given == INSTRUCTIONS, "the trace's count");
    }
}
static void explain_trace(void) {
    for (t.profile = 0; t.profile < PROFILES; t.profile++) {
        const timing_060_ran ran = timing_060_explain_trace(&t, trace, sizeof trace, bytes, sizeof bytes, answers,
                                                            sizeof answers, reasons, sizeof reasons);
        given = ran.count;
        expect(given == INSTRUCTIONS, "the explained trace's count");
    }
}
static void run_batch(void) {
    for (t.profile = 0; t.profile < PROFILES; t.profile++) {
        given = timing_060_run_batch(&t, records, INSTRUCTIONS, places, INSTRUCTIONS, answers, INSTRUCTIONS).count;
        expect(given == INSTRUCTIONS, "the batch's count");
    }
}
static void image_write(void) { given = timing_060_image_write(&t, image, sizeof image).count; }
static void image_read(void) {
    given = timing_060_image_read(&t, image, sizeof image).refusal;
    expect(given == TIMING_060_ACCEPTED, "the image that was written");
    given = timing_060_image_read(&t, old_image, sizeof old_image).refusal;
    expect(given == TIMING_060_ACCEPTED, "an image of kind 16");
}

static const struct {
    const char *name;
    void (*call)(void);
    uint64_t most;
} CALLS[] = {
    {"fresh", fresh, 256},
    {"retire", retire, 256},
    {"explain", explain, 1536},
    {"break", break_pipeline, 256},
    {"clear_all", clear_all, 256},
    {"clear_user", clear_user, 256},
    {"class_word", class_word, 1536},
    {"masks_of", masks_of, 256},
    {"run_batch", run_batch, 8704},
    {"image_write", image_write, 1536},
    {"image_read", image_read, 1536},
    {"run_trace", run_trace, 12800},
    {"explain_trace", explain_trace, 4608},
};

static int host(void) {
    fill();
    for (size_t i = 0; i < sizeof CALLS / sizeof CALLS[0]; i++) {
        uint64_t n = used(CALLS[i].call);
        print(CALLS[i].name);
        print(" ");
        print_decimal(n);
        print(" ");
        print_decimal(CALLS[i].most);
        print("\n");
        expect(n <= CALLS[i].most, CALLS[i].name);
    }
    return failures != 0;
}
