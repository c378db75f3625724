/* A host in small: it keeps a terminal's controller and display memory in a file between two jobs.
 *
 *     host STATE FONT <RECORDS
 *
 * RECORDS are what the terminal was sent, as kind 1 records of a bus file. Each refused byte is told on standard error, as
 * `refused RECORD BYTE NUMBER`. Then STATE is saved (it is made where there is none), and frame 0 is written to standard
 * output, a character a dot. Where anything before that fails STATE stands as it was; where only the picture fails,
 * </dev/null asks for it again.
 */
#include <errno.h>
#include <stdio.h>
#include <stdlib.h>
#include <string.h>
#include "granivolche.h"

#define FAIL(...) (fprintf(stderr, __VA_ARGS__), exit(EXIT_FAILURE))
#define CONTROLLER state.controller, sizeof state.controller
#define MEMORY state.memory, sizeof state.memory

static struct {
    uint8_t controller[GRANIVOLCHE_CONTROLLER_SIZE], memory[GRANIVOLCHE_MEMORY_SIZE];
} state;
static uint8_t font[GRANIVOLCHE_FONT_SIZE];

static void load(const char *name, FILE *file, void *bytes, size_t size) {
    if (file == NULL || fread(bytes, 1, size, file) != size || fgetc(file) != EOF || ferror(file))
        FAIL("%s: it cannot be read, or is not %zu bytes long\n", name, size);
    fclose(file);
}

/* Whole or not at all, if one job at a time has it: the file is written under another name, which it keeps until all of
 * it is there. A host that is to outlive a power cut syncs it before it takes its name. */
static void save(const char *name) {
    char other[FILENAME_MAX];
    if (snprintf(other, sizeof other, "%s.new", name) >= (int)sizeof other)
        FAIL("%s: the name is too long\n", name);
    FILE *file = fopen(other, "wb");
    if (file == NULL)
        FAIL("%s: it cannot be made: %s\n", other, strerror(errno));
    if (fwrite(&state, sizeof state, 1, file) != 1 || fclose(file) != 0 || rename(other, name) != 0) {
        fprintf(stderr, "%s: it cannot be saved: %s\n", name, strerror(errno));
        remove(other);
        exit(EXIT_FAILURE);
    }
}

/* The length of the next record, whose payload is read; 0 where there is no more. */
static size_t next_record(uint8_t *payload, size_t most) {
    uint8_t header[4];
    size_t got = fread(header, 1, sizeof header, stdin);
    if (got == 0 && feof(stdin))
        return 0;
    size_t length = got == sizeof header ? header[0] + 256u * header[1] : 0;
    if (length == 0 || length > most || header[2] != 1 || header[3] != 0 || fread(payload, 1, length, stdin) != length)
        FAIL("standard input: a record cannot be read, is cut, is not of kind 1, or has a wrong length\n");
    return length;
}

static void write_picture(void) {
    static uint8_t dots[65535]; /* a width is below 65536 */
    uint32_t size = granivolche_frame_size(CONTROLLER), width = size % 65536, rows = size / 65536;
    for (uint32_t row = 0; row < rows; row++) {
        uint32_t refusal = granivolche_row(CONTROLLER, MEMORY, font, sizeof font, 0, row, dots, width);
        if (refusal != GRANIVOLCHE_ACCEPTED)
            FAIL("there is no picture: refusal %u\n", (unsigned)refusal);
        for (uint32_t x = 0; x < width; x++)
            putchar(".#23456789ABCDEF"[dots[x]]);
        putchar('\n');
    }
    if (fflush(stdout) != 0 || ferror(stdout))
        FAIL("standard output: the picture cannot be written\n");
}

int main(int count, char **arguments) {
    static uint8_t payload[65532], answers[65532]; /* the longest payload of a bus file */
    size_t length;
    if (count != 3)
        FAIL("usage: host STATE FONT <RECORDS\n");
    load(arguments[2], fopen(arguments[2], "rb"), font, sizeof font);
    FILE *file = fopen(arguments[1], "rb");
    if (file == NULL && errno == ENOENT)
        granivolche_reset(CONTROLLER);
    else
        load(arguments[1], file, &state, sizeof state);
    if (granivolche_frame_size(CONTROLLER) == 0)
        FAIL("%s: it holds no controller\n", arguments[1]);
    for (unsigned long record = 1; (length = next_record(payload, sizeof payload)) != 0; record++) {
        uint32_t refused = granivolche_send(CONTROLLER, MEMORY, payload, length, answers, length);
        if (refused == GRANIVOLCHE_NOTHING_SENT)
            FAIL("record %lu: it cannot be sent\n", record);
        for (size_t i = 0; refused != 0 && i < length; i++)
            if (answers[i] != GRANIVOLCHE_ACCEPTED)
                fprintf(stderr, "refused %lu %zu %u\n", record, i + 1, answers[i]);
    }
    save(arguments[1]);
    write_picture();
    return 0;
}
