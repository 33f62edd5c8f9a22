/* The clocks of retired 68060 instructions: the proved library libtiming_060.a, for x86-64 Linux, from C99 or C++11 on.
 * docs/HOST.md says how an emulator calls it, what the library needs and what the caller must see to. Nothing here
 * checks a pointer; one with a count of 0 is never followed and may be NULL. */
#ifndef TIMING_060_H
#define TIMING_060_H

#include <stddef.h>
#include <stdint.h>

#define TIMING_060_VERSION "0.6.0"
#define TIMING_060_VERSION_MAJOR 0
#define TIMING_060_VERSION_MINOR 6
#define TIMING_060_VERSION_PATCH 0

/* The limits. */
#define TIMING_060_TRACE_BYTES 16777216  /* the most bytes of a trace */
#define TIMING_060_BATCH_RECORDS 1048576 /* the most records of a batch */
#define TIMING_060_RECORD_BYTES 20       /* a retirement in a trace, with its header of 4 bytes */
#define TIMING_060_COST_BYTES 4          /* the room that a retirement of a trace needs for its clocks */
#define TIMING_060_ANSWER_BYTES 1        /* the room that a retirement needs for its answer, in a batch, too */
#define TIMING_060_REASON_BYTES 1        /* the room that a retirement of an explained trace needs for its reason */
#define TIMING_060_IMAGE_BYTES 1294      /* a state as an image, of kind 17 */
#define TIMING_060_OLD_IMAGE_BYTES 1288  /* an image of kind 16, which is still read */
#define TIMING_060_SLOTS 256             /* the slots of the branch cache */
#define TIMING_060_WINDOW 8              /* the numbers of the window */
#define TIMING_060_REASONS 14            /* the reasons, for a host that counts them */

#ifdef __cplusplus
extern "C" {
#endif

/* The profiles, of which a host chooses one at the start. 1 is the mended one; any other number is the crate's. */
enum {
    TIMING_060_PROFILE_CRATE = 0, /* the clocks of m68k 0.15.1, pairs that the hardware cannot make included */
    TIMING_060_PROFILE_MENDED = 1 /* seven kinds of instruction are mended: docs/HOST.md */
};

/* The state that a host keeps. All zeros is a fresh state of the crate's profile. In the window's yes-or-no numbers
 * anything but 0 is yes; of a shut window the other seven numbers are read, and by whatever is accepted left, as
 * zeros. */
typedef struct timing_060 {
    uint32_t tags[TIMING_060_SLOTS];
    uint8_t state[TIMING_060_SLOTS];
    uint16_t window[TIMING_060_WINDOW];
    uint32_t profile; /* set by timing_060_fresh, and by no other function */
} timing_060;

/* The eight numbers of the window. Opcode and address say which instruction the head is; no clocks depend on them. */
enum {
    TIMING_060_WINDOW_OPEN = 0,        /* a head waits for a second instruction */
    TIMING_060_WINDOW_DEFS = 1,        /* the registers that the head writes: a mask, not yes or no */
    TIMING_060_WINDOW_CCR = 2,         /* it defines the CCR */
    TIMING_060_WINDOW_MEMORY = 3,      /* it accesses memory */
    TIMING_060_WINDOW_CACHED = 4,      /* its opcode came from the instruction cache */
    TIMING_060_WINDOW_OPCODE = 5,      /* its opcode */
    TIMING_060_WINDOW_ADDRESS_LOW = 6, /* its address, the ppc: bits 0 to 15 */
    TIMING_060_WINDOW_ADDRESS_HIGH = 7 /* bits 16 to 31 */
};

/* The flags of a retirement. Bits above these five are not looked at by timing_060_retire, timing_060_explain and
 * timing_060_run_batch; timing_060_run_trace and timing_060_explain_trace refuse them. */
enum {
    TIMING_060_FLOWED = 1,     /* the instruction changed the flow */
    TIMING_060_CACHED = 2,     /* its opcode came from the instruction cache */
    TIMING_060_ESS = 4,        /* PCR.ESS */
    TIMING_060_EBC = 8,        /* CACR.EBC */
    TIMING_060_SUPERVISOR = 16 /* supervisor mode */
};

/* A retired instruction, in a batch: 16 bytes, as in a trace behind the record's header. */
typedef struct timing_060_record {
    uint16_t op;
    uint16_t flags;
    uint32_t ppc;
    uint32_t pc;
    int32_t raw;
} timing_060_record;

/* What the branch cache predicted of a retirement, before it learned how the branch went. A 7 with answer 1 is a cold
 * slot, or another branch's; with 2 or 3 a wrong guess; with 0 the cache had no part in it. */
enum {
    TIMING_060_NOT_CONSULTED = 0,       /* no branch, or CACR.EBC off, or an uncached fetch */
    TIMING_060_MISS = 1,                /* the slot is cold, or another branch's; it costs what 2 costs */
    TIMING_060_PREDICTED_NOT_TAKEN = 2, /* the slot is this branch's, and predicts not taken */
    TIMING_060_PREDICTED_TAKEN = 3      /* the slot is this branch's, and predicts taken */
};

/* What a single step gives: its clocks, and the cache's answer, 0 to 3. */
typedef struct timing_060_retired {
    uint32_t clocks;
    uint32_t answer;
} timing_060_retired;

/* Why a retirement cost what it did: one reason fits each. 0 to 7 are for what is neither a branch nor a change of
 * flow; of them 2 to 7 are the rules of the dispatch test, in its order, and the first that failed is told. 9 to 13 are
 * for branches. Paired and folded cost 0, and nothing else does; alone and not taken cost 1, mispredicted 7. The other
 * reasons fix no cost. */
enum {
    TIMING_060_REASON_PAIRED = 0,        /* it joined the head */
    TIMING_060_REASON_WINDOW_SHUT = 1,   /* there was no head to join */
    TIMING_060_REASON_ESS_OFF = 2,       /* PCR.ESS is off */
    TIMING_060_REASON_NOT_CACHED = 3,    /* the head's opcode or its own did not come from the instruction cache */
    TIMING_060_REASON_NOT_SIMPLE = 4,    /* it is not of class 0, or is EA_INDEXED, UNCLASSIFIED or VARIABLE */
    TIMING_060_REASON_REGISTER = 5,      /* it uses or defines a register that the head defines */
    TIMING_060_REASON_CCR = 6,           /* it uses the CCR late, and the head defines the CCR */
    TIMING_060_REASON_MEMORY = 7,        /* it accesses memory, and so does the head */
    TIMING_060_REASON_REFILL = 8,        /* it is no branch, and changed the flow */
    TIMING_060_REASON_FOLDED = 9,        /* rightly predicted taken, and folded into an open window */
    TIMING_060_REASON_ALONE = 10,        /* rightly predicted taken, and no window was open */
    TIMING_060_REASON_NOT_TAKEN = 11,    /* rightly not taken: a miss counts as predicted not taken, here and below */
    TIMING_060_REASON_MISPREDICTED = 12, /* it did not go as predicted */
    TIMING_060_REASON_STATIC = 13        /* the cache was not asked: a static cost */
};

/* What an explained step gives: its clocks, the cache's answer, 0 to 3, and the reason, 0 to 13. */
typedef struct timing_060_explained {
    uint32_t clocks;
    uint32_t answer;
    uint32_t reason;
} timing_060_explained;

/* What a refusal can be, and its place. */
enum {
    TIMING_060_ACCEPTED = 0,             /* nothing is refused; place 0 */
    TIMING_060_REFUSED_OVERSIZED = 1,    /* the trace or the batch is over its limit; place 0 */
    TIMING_060_REFUSED_REMAINDER = 2,    /* 1 to 3 bytes remain; place: the record's start, as of 3 to 6 */
    TIMING_060_REFUSED_WRONG_KIND = 3,   /* the record's kind is not 1 to 4 */
    TIMING_060_REFUSED_WRONG_LENGTH = 4, /* the record's length is not its kind's */
    TIMING_060_REFUSED_CUT = 5,          /* the record's payload is cut */
    TIMING_060_REFUSED_FLAG = 6,         /* a flag above bit 4 is set */
    TIMING_060_REFUSED_ROOM = 7,         /* too little room was lent; place: a trace's length, else 0 */
    TIMING_060_REFUSED_IMAGE_LENGTH = 8, /* the image is neither 1,288 nor 1,294 bytes long; place 0 */
    TIMING_060_REFUSED_IMAGE_HEADER = 9, /* its header does not match its length; place 0 */
    TIMING_060_REFUSED_IMAGE_WINDOW = 10 /* its window, head included, is none that a state can have; place 1,284 */
};

/* What a run gives. A refusal is TIMING_060_ACCEPTED where there is none, else what it is, with its place; then count
 * and total are 0, and nothing at all is written: costs, answers, reasons, image, state and window keep every number.
 * Only a refused image that is read writes: a fresh state. */
typedef struct timing_060_ran {
    uint64_t refusal;
    uint64_t place;
    uint64_t count;
    uint64_t total;
} timing_060_ran;

/* The registers that an opcode uses and defines: D0 to D7 in bits 0 to 7, A0 to A7 in bits 8 to 15. */
typedef struct timing_060_masks {
    uint16_t uses;
    uint16_t defs;
} timing_060_masks;

/* Lent memory: where it starts, and how many bytes or 32-bit words there are. */
typedef struct timing_060_bytes {
    const uint8_t *at;
    uint64_t count;
} timing_060_bytes;
typedef struct timing_060_bytes_mut {
    uint8_t *at;
    uint64_t count;
} timing_060_bytes_mut;
typedef struct timing_060_words {
    const void *at; /* aligned for uint32_t */
    uint64_t count;
} timing_060_words;
typedef struct timing_060_words_mut {
    uint32_t *at;
    uint64_t count;
} timing_060_words_mut;

/* The structs as the library has them. */
#if defined(__cplusplus) && __cplusplus >= 201103L || defined(__STDC_VERSION__) && __STDC_VERSION__ >= 202311L
#define TIMING_060_HOLDS(name, test) static_assert(test, #name)
#elif defined(__STDC_VERSION__) && __STDC_VERSION__ >= 201112L
#define TIMING_060_HOLDS(name, test) _Static_assert(test, #name)
#else
#define TIMING_060_HOLDS(name, test) typedef char timing_060_holds_##name[(test) ? 1 : -1]
#endif
#define TIMING_060_SIZE(type, bytes) TIMING_060_HOLDS(size_of_##type, sizeof(type) == (bytes))
#define TIMING_060_AT(type, field, place) TIMING_060_HOLDS(place_of_##type##_##field, offsetof(type, field) == (place))
TIMING_060_SIZE(timing_060, 1300);
TIMING_060_AT(timing_060, tags, 0);
TIMING_060_AT(timing_060, state, 1024);
TIMING_060_AT(timing_060, window, 1280);
TIMING_060_AT(timing_060, profile, 1296);
TIMING_060_SIZE(timing_060_record, 16);
TIMING_060_AT(timing_060_record, op, 0);
TIMING_060_AT(timing_060_record, flags, 2);
TIMING_060_AT(timing_060_record, ppc, 4);
TIMING_060_AT(timing_060_record, pc, 8);
TIMING_060_AT(timing_060_record, raw, 12);
TIMING_060_SIZE(timing_060_retired, 8);
TIMING_060_AT(timing_060_retired, clocks, 0);
TIMING_060_AT(timing_060_retired, answer, 4);
TIMING_060_SIZE(timing_060_explained, 12);
TIMING_060_AT(timing_060_explained, clocks, 0);
TIMING_060_AT(timing_060_explained, answer, 4);
TIMING_060_AT(timing_060_explained, reason, 8);
TIMING_060_SIZE(timing_060_ran, 32);
TIMING_060_AT(timing_060_ran, refusal, 0);
TIMING_060_AT(timing_060_ran, place, 8);
TIMING_060_AT(timing_060_ran, count, 16);
TIMING_060_AT(timing_060_ran, total, 24);
TIMING_060_SIZE(timing_060_masks, 4);
TIMING_060_AT(timing_060_masks, uses, 0);
TIMING_060_AT(timing_060_masks, defs, 2);
TIMING_060_SIZE(timing_060_bytes, 16);
TIMING_060_AT(timing_060_bytes, at, 0);
TIMING_060_AT(timing_060_bytes, count, 8);
TIMING_060_SIZE(timing_060_bytes_mut, 16);
TIMING_060_AT(timing_060_bytes_mut, at, 0);
TIMING_060_AT(timing_060_bytes_mut, count, 8);
TIMING_060_SIZE(timing_060_words, 16);
TIMING_060_AT(timing_060_words, at, 0);
TIMING_060_AT(timing_060_words, count, 8);
TIMING_060_SIZE(timing_060_words_mut, 16);
TIMING_060_AT(timing_060_words_mut, at, 0);
TIMING_060_AT(timing_060_words_mut, count, 8);
#undef TIMING_060_AT
#undef TIMING_060_SIZE
#undef TIMING_060_HOLDS

/* The library's functions, over numbers that the host lends. Those below take a state whole. */

void timing_060_fresh_at(uint32_t *tags, uint8_t *state, uint16_t *window);

/* The clocks in the low 32 bits, the cache's answer in the 32 above them. Flag bits above the five are not looked
 * at. */
uint64_t timing_060_retire_at(uint32_t *tags, uint8_t *state, uint16_t *window, uint32_t profile, uint16_t op,
                              uint16_t flags, uint32_t ppc, uint32_t pc, int32_t raw);

/* The same step, and why: the clocks in bits 0 to 31, the cache's answer in bits 32 to 39, the reason in bits 40 to 47,
 * and zeros above. */
uint64_t timing_060_explain_at(uint32_t *tags, uint8_t *state, uint16_t *window, uint32_t profile, uint16_t op,
                               uint16_t flags, uint32_t ppc, uint32_t pc, int32_t raw);

void timing_060_break_at(uint16_t *window);
void timing_060_clear_all_at(uint8_t *state, uint16_t *window);
void timing_060_clear_user_at(uint8_t *state, uint16_t *window);

/* A flag bit above the five is TIMING_060_REFUSED_FLAG. */
timing_060_ran timing_060_run_trace_at(timing_060_bytes trace, timing_060_bytes_mut costs, uint32_t *tags,
                                       uint8_t *state, uint16_t *window, uint32_t profile,
                                       timing_060_bytes_mut answers);

/* The same run, and a reason for each retirement. */
timing_060_ran timing_060_explain_trace_at(timing_060_bytes trace, timing_060_bytes_mut costs, uint32_t *tags,
                                           uint8_t *state, uint16_t *window, uint32_t profile,
                                           timing_060_bytes_mut answers, timing_060_bytes_mut reasons);

/* Four words a record; words beyond the last whole record are not read. Flag bits above the five are not looked at. */
timing_060_ran timing_060_run_batch_at(timing_060_words records, timing_060_words_mut costs, uint32_t *tags,
                                       uint8_t *state, uint16_t *window, uint32_t profile,
                                       timing_060_bytes_mut answers);

timing_060_ran timing_060_image_write_at(const uint32_t *tags, const uint8_t *state, const uint16_t *window,
                                         timing_060_bytes_mut image);
timing_060_ran timing_060_image_read_at(timing_060_bytes image, uint32_t *tags, uint8_t *state, uint16_t *window);

/* The class word of an opcode in a profile: class in bits 0 and 1, clocks in bits 2 to 6, then its flags, not those of
 * a retirement. */
uint16_t timing_060_class_word(uint16_t op, uint32_t profile);

/* The registers that an opcode uses and defines in a profile. */
timing_060_masks timing_060_masks_of(uint16_t op, uint32_t profile);

/* A fresh state of a profile. */
static inline void timing_060_fresh(timing_060 *t, uint32_t profile) {
    timing_060_fresh_at(t->tags, t->state, t->window);
    t->profile = profile;
}

/* One retired instruction: its clocks and the cache's answer. `raw` is the handler's 68000 count. Flag bits above the
 * five are not looked at. */
static inline timing_060_retired timing_060_retire(timing_060 *t, uint16_t op, uint16_t flags, uint32_t ppc,
                                                   uint32_t pc, int32_t raw) {
    const uint64_t both = timing_060_retire_at(t->tags, t->state, t->window, t->profile, op, flags, ppc, pc, raw);
    timing_060_retired r;
    r.clocks = both & 0xFFFFFFFF;
    r.answer = both >> 32 & 0xFF; /* it is 0 to 3; the mask lets -Wconversion see that nothing is lost */
    return r;
}

/* The same step, and why it cost what it did. It retires, so that an instruction goes through one of the two; who only
 * asks explains it on a copy of the state. It takes more time: it is for whoever asks, not for every instruction. */
static inline timing_060_explained timing_060_explain(timing_060 *t, uint16_t op, uint16_t flags, uint32_t ppc,
                                                      uint32_t pc, int32_t raw) {
    const uint64_t all = timing_060_explain_at(t->tags, t->state, t->window, t->profile, op, flags, ppc, pc, raw);
    timing_060_explained e;
    e.clocks = all & 0xFFFFFFFF;
    e.answer = all >> 32 & 0xFF;
    e.reason = all >> 40 & 0xFF;
    return e;
}

/* A reason as a word, the one that the program `why` prints; "no reason" of a number that is none's. */
static inline const char *timing_060_reason_word(uint32_t reason) {
    static const char *const WORDS[TIMING_060_REASONS] = {
        "paired", "window-shut", "ess-off", "not-cached", "not-simple", "register",     "ccr",
        "memory", "refill",      "folded",  "alone",      "not-taken",  "mispredicted", "static"};
    return reason < TIMING_060_REASONS ? WORDS[reason] : "no reason";
}

/* The pipeline breaks: the window is shut. */
static inline void timing_060_break(timing_060 *t) { timing_060_break_at(t->window); }

/* CACR.CABC and CACR.CUBC. */
static inline void timing_060_clear_all(timing_060 *t) { timing_060_clear_all_at(t->state, t->window); }
static inline void timing_060_clear_user(timing_060 *t) { timing_060_clear_user_at(t->state, t->window); }

/* Which instruction is the head: whether there is one, its opcode and its address (ppc). A shut window has no head, and
 * opcode and address are then 0, whatever its numbers are. */
static inline int timing_060_has_head(const timing_060 *t) { return t->window[TIMING_060_WINDOW_OPEN] != 0; }
static inline uint16_t timing_060_head_opcode(const timing_060 *t) {
    return timing_060_has_head(t) ? t->window[TIMING_060_WINDOW_OPCODE] : 0;
}
static inline uint32_t timing_060_head_address(const timing_060 *t) {
    const uint32_t low = t->window[TIMING_060_WINDOW_ADDRESS_LOW], high = t->window[TIMING_060_WINDOW_ADDRESS_HIGH];
    return timing_060_has_head(t) ? high << 16 | low : 0;
}

/* A trace into 4 bytes a retirement, little-endian, for its clocks, and 1 byte for the cache's answer. Bytes beyond the
 * last stay. A flag bit above the five refuses the trace: TIMING_060_REFUSED_FLAG, at the record's start. */
static inline timing_060_ran timing_060_run_trace(timing_060 *t, const uint8_t *trace, uint64_t bytes, uint8_t *costs,
                                                  uint64_t room, uint8_t *answers, uint64_t answers_room) {
    timing_060_bytes s = {trace, bytes};
    timing_060_bytes_mut c = {costs, room}, a = {answers, answers_room};
    return timing_060_run_trace_at(s, c, t->tags, t->state, t->window, t->profile, a);
}

/* The same run, which explains each retirement: 1 byte more for its reason, which timing_060_reason_word has in a word.
 * Too little room for reasons is TIMING_060_REFUSED_ROOM, at the trace's length, as for costs and answers. It takes
 * more time than the run does. */
static inline timing_060_ran timing_060_explain_trace(timing_060 *t, const uint8_t *trace, uint64_t bytes,
                                                      uint8_t *costs, uint64_t room, uint8_t *answers,
                                                      uint64_t answers_room, uint8_t *reasons, uint64_t reasons_room) {
    timing_060_bytes s = {trace, bytes};
    timing_060_bytes_mut c = {costs, room}, a = {answers, answers_room}, r = {reasons, reasons_room};
    return timing_060_explain_trace_at(s, c, t->tags, t->state, t->window, t->profile, a, r);
}

/* A batch of records into a place each for its clocks, and 1 byte for the cache's answer. Those beyond the last stay.
 * Flag bits above the five are not looked at. A count whose words do not fit 64 bits is far over the limit, and refused
 * as such. */
static inline timing_060_ran timing_060_run_batch(timing_060 *t, const timing_060_record *records, uint64_t count,
                                                  uint32_t *costs, uint64_t places, uint8_t *answers,
                                                  uint64_t answers_room) {
    timing_060_words s = {records, count > UINT64_MAX / 4 ? UINT64_MAX : count * 4};
    timing_060_words_mut c = {costs, places};
    timing_060_bytes_mut a = {answers, answers_room};
    return timing_060_run_batch_at(s, c, t->tags, t->state, t->window, t->profile, a);
}

/* The state's image, 1,294 bytes of kind 17: `count` is how many were written. */
static inline timing_060_ran timing_060_image_write(const timing_060 *t, uint8_t *image, uint64_t room) {
    timing_060_bytes_mut c = {image, room};
    return timing_060_image_write_at(t->tags, t->state, t->window, c);
}

/* The state of an image, of kind 17 or 16; a refused image gives a fresh state. Kind 16 does not say which instruction
 * is the head: where the window is open it is 0 at 0. An image does not carry the profile: the one that `t` has stays,
 * so a new `t` goes through timing_060_fresh first. */
static inline timing_060_ran timing_060_image_read(timing_060 *t, const uint8_t *image, uint64_t bytes) {
    timing_060_bytes s = {image, bytes};
    return timing_060_image_read_at(s, t->tags, t->state, t->window);
}

#ifdef __cplusplus
}
#endif

#endif
