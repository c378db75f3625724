/* A pointer may be NULL where its length is 0: each buffer of each function in turn. It says nothing where all is so. */
#include <stdio.h>
#include <string.h>
#include "granivolche.h"

#define CONTROLLER controller, sizeof controller
#define MEMORY memory, sizeof memory
#define FONT font, sizeof font
#define DOTS dots, sizeof dots
#define NONE NULL, 0
#define CHECK(ANSWER, CALL) check(ANSWER, CALL, #CALL)

static uint8_t controller[GRANIVOLCHE_CONTROLLER_SIZE], memory[GRANIVOLCHE_MEMORY_SIZE], font[GRANIVOLCHE_FONT_SIZE], dots[8];
static int failed;

static void check(uint32_t wanted, uint32_t answer, const char *call) {
    if (answer == wanted)
        return;
    printf("%s answers %u, not %u\n", call, (unsigned)answer, (unsigned)wanted);
    failed = 1;
}

int main(void) {
    const uint8_t system_set[9] = {0x40, 0x10, 7, 7, 0, 4, 0, 1, 0}; /* a row of 8 dots */
    uint8_t answers[9], before[GRANIVOLCHE_CONTROLLER_SIZE];

    CHECK(GRANIVOLCHE_ACCEPTED, granivolche_reset(CONTROLLER));
    CHECK(0, granivolche_send(CONTROLLER, MEMORY, system_set, 9, answers, 9));
    CHECK(GRANIVOLCHE_ACCEPTED, granivolche_row(CONTROLLER, MEMORY, FONT, 0, 0, DOTS));
    memcpy(before, controller, sizeof controller);

    CHECK(GRANIVOLCHE_NO_CONTROLLER, granivolche_reset(NONE));
    CHECK(GRANIVOLCHE_NO_CONTROLLER, granivolche_command_write(NONE, 0x42));
    CHECK(GRANIVOLCHE_NO_CONTROLLER, granivolche_data_write(NONE, MEMORY, 0));
    CHECK(GRANIVOLCHE_NO_CONTROLLER, granivolche_data_write(NONE, NONE, 0));
    CHECK(GRANIVOLCHE_NO_CONTROLLER, granivolche_data_read(NONE, MEMORY));
    CHECK(GRANIVOLCHE_NO_CONTROLLER, granivolche_data_read(NONE, NONE));
    CHECK(GRANIVOLCHE_NO_CONTROLLER, granivolche_row(NONE, MEMORY, FONT, 0, 0, DOTS));
    CHECK(GRANIVOLCHE_NO_CONTROLLER, granivolche_row(NONE, NONE, NONE, 0, 0, NONE));
    CHECK(0, granivolche_frame_size(NONE));
    CHECK(GRANIVOLCHE_NOTHING_SENT, granivolche_send(NONE, MEMORY, system_set, 9, answers, 9));
    CHECK(GRANIVOLCHE_NOTHING_SENT, granivolche_send(NONE, NONE, NONE, NONE));
    CHECK(GRANIVOLCHE_NOTHING_SENT, granivolche_send(CONTROLLER, MEMORY, NONE, NONE));
    CHECK(GRANIVOLCHE_NOTHING_SENT, granivolche_send(CONTROLLER, MEMORY, NONE, answers, 9));
    CHECK(GRANIVOLCHE_NOTHING_SENT, granivolche_send(CONTROLLER, MEMORY, system_set, 9, NONE));

    CHECK(GRANIVOLCHE_REFUSED_MEMORY_SIZE, granivolche_data_write(CONTROLLER, NONE, 0));
    CHECK(GRANIVOLCHE_REFUSED_MEMORY_SIZE, granivolche_data_read(CONTROLLER, NONE));
    CHECK(GRANIVOLCHE_REFUSED_MEMORY_SIZE, granivolche_row(CONTROLLER, NONE, FONT, 0, 0, DOTS));
    CHECK(GRANIVOLCHE_REFUSED_MEMORY_SIZE, granivolche_row(CONTROLLER, NONE, NONE, 0, 0, NONE));
    CHECK(GRANIVOLCHE_REFUSED_FONT_SIZE, granivolche_row(CONTROLLER, MEMORY, NONE, 0, 0, DOTS));
    CHECK(GRANIVOLCHE_REFUSED_BUFFER_SIZE, granivolche_row(CONTROLLER, MEMORY, FONT, 0, 0, NONE));
    CHECK(0, (uint32_t)memcmp(before, controller, sizeof controller));

    /* Without memory a command byte is taken, and each byte behind it gets 1. */
    CHECK(8, granivolche_send(CONTROLLER, NONE, system_set, 9, answers, 9));
    CHECK(GRANIVOLCHE_ACCEPTED, answers[0]);
    CHECK(GRANIVOLCHE_REFUSED_MEMORY_SIZE, answers[8]);
    CHECK(GRANIVOLCHE_ACCEPTED, granivolche_command_write(CONTROLLER, 0x42));
    CHECK(GRANIVOLCHE_REFUSED_MEMORY_SIZE, granivolche_data_write(CONTROLLER, NONE, 0));
    CHECK(GRANIVOLCHE_ACCEPTED, granivolche_command_write(CONTROLLER, 0x43));
    CHECK(GRANIVOLCHE_REFUSED_MEMORY_SIZE, granivolche_data_read(CONTROLLER, NONE));
    return failed;
}
