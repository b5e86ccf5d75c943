/*
 * A plan placed a day at a time: a list of lessons goes to the store in one call, a block of writes, and each lesson gets its answer. A period
 * is a line of the store and a room a byte of it, which holds the number of the lesson placed there or 0; the 8 periods of a day lie in
 * one page. rust/examples/day.rs is the same in Rust; examples/run builds and runs both.
 */
#include <stdio.h>
#include <stdlib.h>

#include "vcm.h"

enum { PERIODS = 8, LINES = 5 * PERIODS, FRAMES = 16, PAGES = 4, MOST = 8 };

typedef struct lesson {
    uint32_t day, period, room, number;
} lesson;

static const char *const days[] = {"Monday", "Tuesday", "Wednesday", "Thursday", "Friday"};
static const lesson monday[] = {{0, 0, 1, 11}, {0, 0, 2, 12}, {0, 1, 1, 13}, {0, 2, 1, 14}};
static const lesson tuesday[] = {{1, 0, 1, 21}, {1, 1, 2, 300}, {1, 1, 1, 23}};
static const lesson wednesday[] = {{2, 0, 1, 31}, {0, 2, 1, 0}, {3, 2, 1, 14}, {2, 1, 1, 32}};
static const lesson friday[] = {{4, 7, 1, 51}, {4, 8, 1, 52}, {4, 6, 1, 53}};

static VCM_BLOCK(LINES, FRAMES, PAGES) block;
static vcm_state state;
static vcm_memory memory;
static uint32_t answers[MOST];

/* For a call that the plan cannot do without. */
static void go_on(uint32_t refusal) {
    if (refusal != VCM_OK) {
        fprintf(stderr, "refusal %u: %s\n", (unsigned)refusal, vcm_refusal_text(refusal));
        exit(1);
    }
}

/* Opens the store in the block. */
static void start(void) {
    state = vcm_blank();
    memory = vcm_parts(&block, sizeof block, LINES, FRAMES, PAGES);
    go_on(vcm_reset(&state, &memory, LINES, FRAMES, PAGES));
}

/* All lessons of a list in one call, with so many answers; its refusal or 0. */
static uint32_t write_lessons(const lesson *lessons, size_t count, size_t answers_len) {
    vcm_item items[MOST];
    for (size_t i = 0; i < count; i++) {
        items[i].width = 1;
        items[i].address = 16 * (PERIODS * lessons[i].day + lessons[i].period) + lessons[i].room;
        items[i].value = lessons[i].number;
    }
    return vcm_write_block(&state, &memory, items, count, answers, answers_len);
}

static void tell(const lesson *l, uint32_t refusal) {
    printf("  lesson %u on %s at period %u: %u: %s\n", (unsigned)l->number, days[l->day], (unsigned)l->period, (unsigned)refusal,
           vcm_refusal_text(refusal));
}

/* Places what can be placed of a list, and tells of the rest. */
static void place(const char *name, const lesson *lessons, size_t count) {
    size_t placed = 0;
    go_on(write_lessons(lessons, count, count));
    for (size_t i = 0; i < count; i++) {
        placed += answers[i] == VCM_OK;
    }
    printf("%s: %u of %u lessons placed\n", name, (unsigned)placed, (unsigned)count);
    for (size_t i = 0; i < count; i++) {
        if (answers[i] != VCM_OK) {
            tell(&lessons[i], answers[i]);
        }
    }
}

/* Places a list whole or not at all: on trial, and taken back at the first that is refused. */
static void place_whole(const char *name, const lesson *lessons, size_t count) {
    go_on(vcm_mark(&state, &memory));
    go_on(write_lessons(lessons, count, count));
    for (size_t i = 0; i < count; i++) {
        if (answers[i] != VCM_OK) {
            go_on(vcm_rollback(&state, &memory, 1));
            printf("%s: not placed\n", name);
            tell(&lessons[i], answers[i]);
            return;
        }
    }
    printf("%s: placed\n", name);
}

static void show(uint32_t day, uint32_t period, uint32_t room) {
    vcm_reading r = vcm_read(&state, &memory, 1, 16 * (PERIODS * day + period) + room);
    go_on(r.refusal);
    printf("room %u on %s at period %u: lesson %u\n", (unsigned)room, days[day], (unsigned)period, (unsigned)r.value);
}

int main(void) {
    start();
    place("Monday", monday, 4);
    place("Tuesday", tuesday, 3);

    puts("mark, and try Wednesday, for which lesson 14 goes from Monday to Thursday");
    go_on(vcm_mark(&state, &memory));
    place("Wednesday", wednesday, 4);
    show(2, 1, 1);

    puts("take it back");
    go_on(vcm_rollback(&state, &memory, 1));
    show(2, 1, 1);
    show(0, 2, 1);

    puts("fold what stands into the archive, which frees its pages, and place Wednesday again");
    go_on(vcm_mark(&state, &memory));
    go_on(vcm_advance(&state, &memory, 1));
    place("Wednesday", wednesday, 4);
    show(3, 2, 1);

    puts("Friday whole or not at all");
    place_whole("Friday", friday, 3);
    show(4, 7, 1);
    place_whole("its first lesson alone", friday, 1);
    show(4, 7, 1);

    puts("a list with one answer too few");
    uint32_t refusal = write_lessons(monday, 4, 3);
    printf("  %u: %s\n", (unsigned)refusal, vcm_refusal_text(refusal));
    vcm_counted counts = vcm_counts(&state, &memory);
    go_on(counts.refusal);
    printf("live frames %u, pages %u\n", (unsigned)counts.live, (unsigned)counts.pages);
    vcm_verdict verdict = vcm_check(&state, &memory);
    go_on(verdict.refusal);
    printf("well-formed: %s\n", verdict.yes ? "yes" : "no");
    return 0;
}
