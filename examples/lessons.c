/*
 * A timetable on trial. A room is a line of the store and an hour two bytes of it, which hold the number of the lesson placed there or
 * 0. Lessons are placed, others are tried, and what was tried and taken back is not read again. rust/examples/lessons.rs is the same in
 * Rust; examples/run builds and runs both.
 */
#include <stdio.h>
#include <stdlib.h>

#include "vcm.h"

enum { ROOMS = 8, FRAMES = 16, PAGES = 4 };

static VCM_BLOCK(ROOMS, FRAMES, PAGES) block;
static vcm_state state;
static vcm_memory memory;

/* For a call that the plan cannot do without. */
static void go_on(uint32_t refusal) {
    if (refusal != VCM_OK) {
        fprintf(stderr, "refusal %u: %s\n", (unsigned)refusal, vcm_refusal_text(refusal));
        exit(1);
    }
}

/* Opens the store in the block. */
static void start(void) {
    state = vcm_blank();
    memory = vcm_parts(&block, sizeof block, ROOMS, FRAMES, PAGES);
    go_on(vcm_reset(&state, &memory, ROOMS, FRAMES, PAGES));
}

static void place(uint32_t room, uint32_t hour, uint32_t lesson) {
    go_on(vcm_write(&state, &memory, 2, 16 * room + 2 * hour, lesson));
    printf("place lesson %u in room %u at hour %u\n", (unsigned)lesson, (unsigned)room, (unsigned)hour);
}

static void show(uint32_t room, uint32_t hour) {
    vcm_reading r = vcm_read(&state, &memory, 2, 16 * room + 2 * hour);
    go_on(r.refusal);
    printf("room %u at hour %u: ", (unsigned)room, (unsigned)hour);
    if (r.origin == VCM_EMPTY) {
        puts("no lesson is left in this room");
        return;
    }
    printf("lesson %u, ", (unsigned)r.value);
    switch (r.origin) {
    case VCM_CACHE:
        puts("from the cache");
        break;
    case VCM_FRAME:
        printf("from %u marks back\n", (unsigned)r.marks_back);
        break;
    default:
        puts("from the archive");
    }
}

static void show_room(uint32_t room) {
    uint8_t bytes[16] = {0};
    go_on(vcm_line(&state, &memory, room, bytes));
    printf("room %u: [%u", (unsigned)room, (unsigned)bytes[0]);
    for (int i = 1; i < 16; i++) {
        printf(", %u", (unsigned)bytes[i]);
    }
    puts("]");
}

int main(void) {
    start();
    place(1, 0, 101);
    place(1, 1, 102);
    place(2, 0, 201);

    puts("mark, and try two lessons");
    go_on(vcm_mark(&state, &memory));
    place(1, 1, 305);
    place(3, 2, 306);
    show(1, 1);
    show(3, 2);

    puts("take them back");
    go_on(vcm_rollback(&state, &memory, 1));
    show(1, 1);
    show(3, 2);

    puts("mark, try another, and keep it");
    go_on(vcm_mark(&state, &memory));
    place(3, 2, 307);
    go_on(vcm_mark(&state, &memory));
    go_on(vcm_advance(&state, &memory, 2));
    show(3, 2);
    uint32_t refusal = vcm_rollback(&state, &memory, 1);
    if (refusal != VCM_OK) {
        printf("no mark is left: refusal %u\n", (unsigned)refusal);
    }
    vcm_counted counts = vcm_counts(&state, &memory);
    go_on(counts.refusal);
    printf("live frames %u, pages %u\n", (unsigned)counts.live, (unsigned)counts.pages);
    show_room(1);
    refusal = vcm_line_refusal(&state, &memory, 8);
    if (refusal != VCM_OK) {
        printf("there is no room 8: refusal %u\n", (unsigned)refusal);
    }
    vcm_verdict verdict = vcm_check(&state, &memory);
    go_on(verdict.refusal);
    printf("well-formed: %s\n", verdict.yes ? "yes" : "no");
    return 0;
}
