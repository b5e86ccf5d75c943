/* Each refusal by its name, from a call that gives it; the names of before; and the words for each number. */
#include "expect.h"

static VCM_BLOCK(8, 16, 1) block;
static vcm_state state;
static vcm_memory memory;

static void by_calls(void) {
    static const vcm_item item = {1, 0, 255};
    uint8_t bytes[16];
    state = vcm_blank();
    memory = vcm_parts(&block, sizeof block, 8, 16, 1);
    expect(vcm_mark(&state, &memory) == VCM_REFUSAL_STATE);
    expect(vcm_reset(&state, &memory, 9, 16, 1) == VCM_REFUSAL_SETTINGS);
    expect(vcm_reset(&state, &memory, 16, 16, 1) == VCM_REFUSAL_MEMORY);
    expect(vcm_reset(&state, &memory, 8, 16, 1) == VCM_OK);
    expect(vcm_write(&state, &memory, 3, 0, 0) == VCM_REFUSAL_WIDTH);
    expect(vcm_write(&state, &memory, 4, 2, 0) == VCM_REFUSAL_ALIGNMENT);
    expect(vcm_write(&state, &memory, 4, 128, 0) == VCM_REFUSAL_RANGE);
    expect(vcm_read(&state, &memory, 1, 128).refusal == VCM_REFUSAL_RANGE);
    expect(vcm_line(&state, &memory, 8, bytes) == VCM_REFUSAL_RANGE);
    expect(vcm_line_refusal(&state, &memory, 8) == VCM_REFUSAL_RANGE);
    expect(vcm_write(&state, &memory, 1, 0, 256) == VCM_REFUSAL_VALUE);
    expect(vcm_rollback(&state, &memory, 1) == VCM_REFUSAL_MARKS);
    expect(vcm_advance(&state, &memory, 0) == VCM_REFUSAL_MARKS);
    expect(vcm_write(&state, &memory, 1, 0, 255) == VCM_OK);
    expect(vcm_mark(&state, &memory) == VCM_OK);
    expect(vcm_write(&state, &memory, 1, 0, 255) == VCM_REFUSAL_PAGES);
    expect(vcm_write_block(&state, &memory, &item, 1, NULL, 0) == VCM_REFUSAL_ANSWERS);
    for (int i = 2; i < 16; i++) {
        expect(vcm_mark(&state, &memory) == VCM_OK);
    }
    expect(vcm_mark(&state, &memory) == VCM_REFUSAL_FRAMES);
    /* what the words of 12 and 13 advise */
    expect(vcm_advance(&state, &memory, 1) == VCM_OK);
    expect(vcm_mark(&state, &memory) == VCM_OK);
    expect(vcm_write(&state, &memory, 1, 0, 254) == VCM_OK);
}

static void by_number(void) {
    static const uint32_t now[] = {VCM_REFUSAL_SETTINGS, VCM_REFUSAL_STATE, VCM_REFUSAL_MEMORY, VCM_REFUSAL_WIDTH,  VCM_REFUSAL_ALIGNMENT,
                                   VCM_REFUSAL_RANGE,    VCM_REFUSAL_VALUE, VCM_REFUSAL_MARKS,  VCM_REFUSAL_FRAMES, VCM_REFUSAL_PAGES};
    static const uint32_t before[] = {VCM_LIMITS,  VCM_BAD_STATE, VCM_LENT_SHORT, VCM_WIDTH,       VCM_ALIGNMENT,
                                      VCM_OUTSIDE, VCM_VALUE,     VCM_MARKS,      VCM_FRAMES_FULL, VCM_PAGES_FULL};
    expect(VCM_OK == 0);
    for (uint32_t i = 0; i < 10; i++) {
        expect(now[i] == i + 4);
        expect(before[i] == i + 4);
    }
    expect(VCM_REFUSAL_ANSWERS == 14);
}

/* A word that each text must have: that each number has its own. */
static void by_words(void) {
    static const char *const words[] = {"accepted",   "80 bytes",          "no record", "before the first", "L is a multiple of 8",
                                        "reset it",   "memory is shorter", "width",     "multiple of the width", "past the end",
                                        "more bytes", "live frames",       "no frame is left: advance, or roll back",
                                        "no page is left: advance, or roll back", "answer list is shorter"};
    enum { WORDS = (int)(sizeof words / sizeof *words) };
    expect(WORDS == 15);
    for (uint32_t n = 0; n < 15; n++) {
        expect(strstr(vcm_refusal_text(n), words[n]) != NULL);
        for (uint32_t other = 0; other < n; other++) {
            expect(strcmp(vcm_refusal_text(n), vcm_refusal_text(other)) != 0);
        }
        for (const char *c = vcm_refusal_text(n); *c != '\0'; c++) {
            expect(*c >= ' ' && *c <= '~');
        }
    }
    expect(strcmp(vcm_refusal_text(15), "unknown") == 0);
    expect(strcmp(vcm_refusal_text(256 + 4), "unknown") == 0);
    expect(strcmp(vcm_refusal_text(UINT32_MAX), "unknown") == 0);
}

int main(void) {
    by_number();
    by_calls();
    by_words();
    puts("refusals: names, numbers and words");
    return 0;
}
