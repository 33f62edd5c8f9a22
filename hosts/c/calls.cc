// Every function of timing_060.h, called from C++. Prints `calls hold`, or what differs; then its exit status is 1.
// Compiled as example.c is, as C++11 or later; no C++ library is needed.
#include <timing_060.h>

#include "system.h"

static_assert(TIMING_060_VERSION_MAJOR == 0 && sizeof TIMING_060_VERSION > 5, "a version");

namespace {

const uint16_t KEPT = TIMING_060_CACHED | TIMING_060_ESS | TIMING_060_EBC | TIMING_060_SUPERVISOR;
const uint64_t ACCEPTED = TIMING_060_ACCEPTED;
const uint32_t CRATE = TIMING_060_PROFILE_CRATE, MENDED = TIMING_060_PROFILE_MENDED;

bool gives(timing_060_retired r, uint32_t clocks, uint32_t answer) { return r.clocks == clocks && r.answer == answer; }

bool gives(timing_060_explained e, uint32_t clocks, uint32_t answer, uint32_t reason) {
    return e.clocks == clocks && e.answer == answer && e.reason == reason;
}

bool head_is(const timing_060 &t, bool open, uint16_t op, uint32_t address) {
    return (timing_060_has_head(&t) != 0) == open && timing_060_head_opcode(&t) == op &&
           timing_060_head_address(&t) == address;
}

void steps() {
    timing_060 t;
    timing_060_fresh(&t, MENDED);
    expect(t.profile == MENDED, "the profile of a fresh state");
    timing_060_retired moveq = timing_060_retire(&t, 0x7000, KEPT, 0x1000, 0x1002, 4);
    expect(gives(moveq, 1, TIMING_060_NOT_CONSULTED), "MOVEQ into D0");
    expect(t.window[TIMING_060_WINDOW_OPEN] == 1, "the window behind it");
    expect(head_is(t, true, 0x7000, 0x1000), "the head");
    timing_060_break(&t);
    expect(t.window[TIMING_060_WINDOW_OPEN] == 0, "the window after a break");
    expect(head_is(t, false, 0, 0), "no head after a break");
    t.state[0] = 12, t.state[1] = 4;
    timing_060_clear_user(&t);
    expect(t.state[0] == 0 && t.state[1] == 4, "the slots after a clear of user entries");
    timing_060_clear_all(&t);
    expect(t.state[1] == 0, "the slots after a clear of all");
    expect(t.profile == MENDED, "the profile after breaks and clears");
}

// BNE, met again and again: each answer of the branch cache.
void answers() {
    const uint16_t TAKEN = KEPT | TIMING_060_FLOWED, NO_EBC = TIMING_060_CACHED | TIMING_060_FLOWED;
    const struct {
        uint16_t flags;
        uint32_t ppc, clocks, answer;
        const char *what;
    } MET[] = {
        {TAKEN, 0x1000, 7, TIMING_060_MISS, "a cold slot"},
        {KEPT, 0x1000, 7, TIMING_060_PREDICTED_TAKEN, "a wrong guess"},
        {KEPT, 0x1000, 1, TIMING_060_PREDICTED_NOT_TAKEN, "a right guess of not taken"},
        {TAKEN, 0x1200, 7, TIMING_060_MISS, "another branch's slot"},
        {TAKEN, 0x1200, 1, TIMING_060_PREDICTED_TAKEN, "a right guess of taken"},
        {NO_EBC, 0x1200, 7, TIMING_060_NOT_CONSULTED, "a branch without EBC"},
    };
    timing_060 t = timing_060();
    for (const auto &m : MET)
        expect(gives(timing_060_retire(&t, 0x66FC, m.flags, m.ppc, m.ppc - 2, 10), m.clocks, m.answer), m.what);
}

// Why: MOVEQ into D0, ADD.B D0,D1, which reads D0, MOVEQ into D2, which pairs, and BRA, cold and predicted.
void reasons() {
    const uint16_t TAKEN = KEPT | TIMING_060_FLOWED;
    const struct {
        uint16_t op, flags;
        uint32_t clocks, answer, reason;
        char first; // letter of the reason's word
    } MET[] = {
        {0x7000, KEPT, 1, TIMING_060_NOT_CONSULTED, TIMING_060_REASON_WINDOW_SHUT, 'w'},
        {0xD200, KEPT, 1, TIMING_060_NOT_CONSULTED, TIMING_060_REASON_REGISTER, 'r'},
        {0x7400, KEPT, 0, TIMING_060_NOT_CONSULTED, TIMING_060_REASON_PAIRED, 'p'},
        {0x60FE, TAKEN, 7, TIMING_060_MISS, TIMING_060_REASON_MISPREDICTED, 'm'},
        {0x60FE, TAKEN, 1, TIMING_060_PREDICTED_TAKEN, TIMING_060_REASON_ALONE, 'a'},
    };
    timing_060 t = timing_060();
    for (const auto &m : MET) {
        const char *word = timing_060_reason_word(m.reason);
        expect(word[0] == m.first, "the word of a reason");
        expect(gives(timing_060_explain(&t, m.op, m.flags, 0x1000, 0x1000, 4), m.clocks, m.answer, m.reason), word);
    }
    expect(timing_060_reason_word(TIMING_060_REASONS)[0] == 'n', "the word of no reason");
}

// EOR.W D0,D1 and MOVE.W D1,D2, which reads what the EOR writes; and CMPM.B (A0)+,(A1)+, of which the crate's profile
// has no memory.
void profiles() {
    static const uint32_t NUMBERS[] = {CRATE, MENDED, 2, 0x10001, 0xFFFFFFFF};
    for (uint32_t profile : NUMBERS) {
        const bool mended = profile == MENDED;
        timing_060 t;
        timing_060_fresh(&t, profile);
        expect(timing_060_retire(&t, 0xB141, KEPT, 0x1000, 0x1002, 4).clocks == 1, "the clocks of EOR");
        const uint32_t behind = timing_060_retire(&t, 0x3401, KEPT, 0x1002, 0x1004, 4).clocks;
        expect(behind == (mended ? 1 : 0), "the clocks behind EOR");
        expect(timing_060_class_word(0x7000, profile) == 0x0404, "the class word of MOVEQ");
        expect(timing_060_class_word(0xB308, profile) == (mended ? 0x4404 : 0x0404), "the class word of CMPM");
        timing_060_masks m = timing_060_masks_of(0x7000, profile);
        expect(m.uses == 0 && m.defs == 1, "the masks of MOVEQ");
        m = timing_060_masks_of(0xB141, profile);
        expect(m.uses == 3 && m.defs == (mended ? 2 : 0), "the masks of EOR");
    }
}

// The batch: MOVEQ into D0 and D1, and BRA twice. The trace: BRA once more, and MOVEQ into D0.
void runs() {
    static const timing_060_record BATCH[4] = {{0x7000, KEPT, 0x1000, 0x1002, 4},
                                               {0x7200, KEPT, 0x1002, 0x1004, 4},
                                               {0x60FE, KEPT | TIMING_060_FLOWED, 0x1004, 0x1004, 10},
                                               {0x60FE, KEPT | TIMING_060_FLOWED, 0x1004, 0x1004, 10}};
    static const uint8_t TRACE[2 * TIMING_060_RECORD_BYTES] = {
        16, 0, 1, 0, 0xFE, 0x60, 31, 0, 4, 16, 0, 0, 4, 16, 0, 0, 10, 0, 0, 0,
        16, 0, 1, 0, 0x00, 0x70, 30, 0, 0, 16, 0, 0, 2, 16, 0, 0, 4,  0, 0, 0,
    };
    timing_060 t = timing_060(), read = timing_060();
    uint32_t places[4];
    uint8_t bytes[2 * TIMING_060_COST_BYTES], told[5] = {9, 9, 9, 9, 9}, image[TIMING_060_IMAGE_BYTES];
    timing_060_ran ran = timing_060_run_batch(&t, BATCH, 4, places, 4, told, 3);
    expect(is(ran, TIMING_060_REFUSED_ROOM, 0, 0, 0), "a batch with too little room for answers");
    ran = timing_060_run_batch(&t, BATCH, 4, places, 4, told, sizeof told);
    expect(is(ran, ACCEPTED, 0, 4, 9), "a batch");
    expect(places[0] == 1 && places[1] == 0 && places[2] == 7 && places[3] == 1, "its costs");
    expect(told[0] == 0 && told[1] == 0 && told[2] == 1 && told[3] == 3 && told[4] == 9, "its answers");
    ran = timing_060_run_trace(&t, TRACE, sizeof TRACE, bytes, sizeof bytes, told, 1);
    expect(is(ran, TIMING_060_REFUSED_ROOM, sizeof TRACE, 0, 0), "a trace with too little room for answers");
    ran = timing_060_run_trace(&t, TRACE, sizeof TRACE, bytes, sizeof bytes, told, sizeof told);
    expect(is(ran, ACCEPTED, 0, 2, 2), "a trace");
    expect(bytes[0] == 1 && bytes[1] == 0 && bytes[4] == 1 && bytes[5] == 0, "its costs");
    expect(told[0] == 3 && told[1] == 0 && told[2] == 1, "its answers");
    uint8_t why[3] = {9, 9, 9};
    timing_060 fresh = timing_060();
    ran = timing_060_explain_trace(&fresh, TRACE, sizeof TRACE, bytes, sizeof bytes, told, sizeof told, why, 1);
    expect(is(ran, TIMING_060_REFUSED_ROOM, sizeof TRACE, 0, 0), "a trace with too little room for reasons");
    expect(why[0] == 9 && told[0] == 3, "what it leaves");
    ran = timing_060_explain_trace(&fresh, TRACE, sizeof TRACE, bytes, sizeof bytes, told, sizeof told, why, 3);
    expect(is(ran, ACCEPTED, 0, 2, 8), "an explained trace");
    expect(bytes[0] == 7 && bytes[4] == 1 && told[0] == 1 && told[1] == 0, "its costs and its answers");
    expect(why[0] == TIMING_060_REASON_MISPREDICTED && why[1] == TIMING_060_REASON_WINDOW_SHUT, "its reasons");
    expect(why[2] == 9, "the byte beyond them");
    expect(is(timing_060_image_write(&t, image, sizeof image), ACCEPTED, 0, sizeof image, 0), "an image written");
    expect(is(timing_060_image_read(&read, image, sizeof image), ACCEPTED, 0, 0, 0), "an image read");
    expect(read.window[TIMING_060_WINDOW_DEFS] == 1, "the window of an image");
    expect(head_is(read, true, 0x7000, 0x1000), "the head of an image");
}

// The three readers of the head look at the window's numbers, and at a shut window's not at all.
void heads() {
    timing_060 t = timing_060();
    t.window[TIMING_060_WINDOW_OPCODE] = 0xFEDC;
    t.window[TIMING_060_WINDOW_ADDRESS_LOW] = 0x5678;
    t.window[TIMING_060_WINDOW_ADDRESS_HIGH] = 0x9234;
    expect(head_is(t, false, 0, 0), "the head of a shut window");
    t.window[TIMING_060_WINDOW_OPEN] = 2;
    expect(head_is(t, true, 0xFEDC, 0x92345678), "the head of an open window");
}

// An image of kind 16 is read, and written again as kind 17: the head is 0 at 0.
void old_image() {
    timing_060 t = timing_060();
    uint8_t image[TIMING_060_IMAGE_BYTES];
    timing_060_retire(&t, 0x7000, KEPT, 0x1000, 0x1002, 4);
    timing_060_image_write(&t, image, sizeof image);
    image[0] = 0x04, image[1] = 0x05, image[2] = 16;
    timing_060_ran ran = timing_060_image_read(&t, image, sizeof image);
    expect(is(ran, TIMING_060_REFUSED_IMAGE_HEADER, 0, 0, 0), "an old header on an image");
    ran = timing_060_image_read(&t, image, TIMING_060_OLD_IMAGE_BYTES);
    expect(is(ran, ACCEPTED, 0, 0, 0), "an old image");
    expect(t.window[TIMING_060_WINDOW_DEFS] == 1 && head_is(t, true, 0, 0), "its head");
    timing_060_image_write(&t, image, sizeof image);
    expect(image[0] == 0x0A && image[1] == 0x05 && image[2] == 17 && image[3] == 0, "its header, written again");
    for (int i = TIMING_060_OLD_IMAGE_BYTES; i < TIMING_060_IMAGE_BYTES; i++)
        expect(image[i] == 0, "its head, written again");
}

// The functions that the others stand on.
void lent() {
    timing_060 t;
    uint32_t place = 9;
    uint8_t told = 9, image[TIMING_060_IMAGE_BYTES];
    timing_060_fresh_at(t.tags, t.state, t.window);
    expect(timing_060_retire_at(t.tags, t.state, t.window, MENDED, 0x7000, KEPT, 0x1000, 0x1002, 4) == 1, "a step");
    const uint64_t bra = timing_060_retire_at(t.tags, t.state, t.window, CRATE, 0x60FE, 31, 0x1004, 0x1004, 10);
    expect(bra == ((uint64_t)TIMING_060_MISS << 32 | 7), "a step with an answer");
    const uint64_t why = timing_060_explain_at(t.tags, t.state, t.window, CRATE, 0x60FE, 31, 0x1004, 0x1004, 10);
    const uint64_t answer = TIMING_060_PREDICTED_TAKEN, reason = TIMING_060_REASON_ALONE;
    expect(why == (reason << 40 | answer << 32 | 1), "a step with a reason");
    timing_060_break_at(t.window);
    timing_060_clear_user_at(t.state, t.window);
    timing_060_clear_all_at(t.state, t.window);
    timing_060_bytes no_bytes = {nullptr, 0};
    timing_060_bytes_mut no_room = {nullptr, 0}, room = {image, sizeof image}, told_room = {&told, 1};
    timing_060_words no_words = {nullptr, 0};
    timing_060_words_mut places = {&place, 1};
    timing_060_ran ran = timing_060_run_trace_at(no_bytes, no_room, t.tags, t.state, t.window, CRATE, no_room);
    expect(is(ran, ACCEPTED, 0, 0, 0), "no trace");
    ran = timing_060_explain_trace_at(no_bytes, no_room, t.tags, t.state, t.window, MENDED, no_room, told_room);
    expect(is(ran, ACCEPTED, 0, 0, 0) && told == 9, "no trace to explain");
    ran = timing_060_run_batch_at(no_words, places, t.tags, t.state, t.window, MENDED, told_room);
    expect(is(ran, ACCEPTED, 0, 0, 0), "no batch");
    expect(place == 9 && told == 9, "the places of no batch");
    ran = timing_060_image_write_at(t.tags, t.state, t.window, room);
    expect(is(ran, ACCEPTED, 0, sizeof image, 0), "an image written");
    ran = timing_060_image_read_at(no_bytes, t.tags, t.state, t.window);
    expect(is(ran, TIMING_060_REFUSED_IMAGE_LENGTH, 0, 0, 0), "no image");
}

} // namespace

static int host(void) {
    steps();
    answers();
    reasons();
    profiles();
    runs();
    heads();
    old_image();
    lent();
    if (failures == 0) print("calls hold\n");
    return failures != 0;
}
