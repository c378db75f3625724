/* Threads that call the library at the same time, each with a controller and memory of its own, and all of them for rows
 * of one more, which they only read. Neighbours send different records, and each picture must be that of its records.
 *
 *     threads FONT RECORDS PICTURE RECORDS PICTURE
 */
#include <pthread.h>
#include <stdio.h>
#include <stdlib.h>
#include <string.h>
#include "granivolche.h"

enum { THREADS = 8, ROUNDS = 50, MOST = 65532 };

struct file {
    uint8_t bytes[MOST];
    size_t length;
};
struct job {
    struct file records, picture;
};
struct terminal {
    uint8_t controller[GRANIVOLCHE_CONTROLLER_SIZE], memory[GRANIVOLCHE_MEMORY_SIZE];
};

static struct file font;
static struct job jobs[2];
static struct terminal shared; /* after the records of the first job */

static void load(const char *name, struct file *file) {
    FILE *stream = fopen(name, "rb");
    if (stream != NULL) {
        file->length = fread(file->bytes, 1, MOST, stream);
        fclose(stream);
    }
    if (file->length == 0) {
        printf("%s cannot be read\n", name);
        exit(1);
    }
}

/* Whether all records are accepted. */
static int sends(struct terminal *terminal, const struct file *records) {
    uint8_t answers[MOST];
    size_t at = 0, length;
    memset(terminal->memory, 0, sizeof terminal->memory);
    if (granivolche_reset(terminal->controller, sizeof terminal->controller) != GRANIVOLCHE_ACCEPTED)
        return 0;
    for (; at < records->length; at += 4 + length) {
        length = records->bytes[at] + 256u * records->bytes[at + 1];
        if (granivolche_send(terminal->controller, sizeof terminal->controller, terminal->memory, sizeof terminal->memory,
                             records->bytes + at + 4, length, answers, length) != 0)
            return 0;
    }
    return 1;
}

static int shows(const struct terminal *terminal, const struct file *picture) {
    uint8_t dots[MOST];
    uint32_t size = granivolche_frame_size(terminal->controller, sizeof terminal->controller);
    uint32_t width = size % 65536, rows = size / 65536;
    if ((width + 1) * rows != picture->length)
        return 0;
    for (uint32_t row = 0; row < rows; row++) {
        if (granivolche_row(terminal->controller, sizeof terminal->controller, terminal->memory, sizeof terminal->memory,
                            font.bytes, font.length, 0, row, dots, width) != GRANIVOLCHE_ACCEPTED)
            return 0;
        for (uint32_t x = 0; x < width; x++)
            if (picture->bytes[row * (width + 1) + x] != ".#"[dots[x]])
                return 0;
    }
    return 1;
}

/* NULL where every picture was right. */
static void *run(void *given) {
    const struct job *job = given;
    struct terminal own;
    for (int round = 0; round < ROUNDS; round++)
        if (!sends(&own, &job->records) || !shows(&own, &job->picture) || !shows(&shared, &jobs[0].picture))
            return given;
    return NULL;
}

int main(int count, char **arguments) {
    pthread_t threads[THREADS];
    int failed = 0;
    if (count != 6)
        return 2;
    load(arguments[1], &font);
    for (int i = 0; i < 2; i++) {
        load(arguments[2 + 2 * i], &jobs[i].records);
        load(arguments[3 + 2 * i], &jobs[i].picture);
    }
    if (!sends(&shared, &jobs[0].records))
        return 1;
    for (int i = 0; i < THREADS; i++)
        if (pthread_create(&threads[i], NULL, run, &jobs[i % 2]) != 0)
            return 1;
    for (int i = 0; i < THREADS; i++) {
        void *wrong;
        failed |= pthread_join(threads[i], &wrong) != 0 || wrong != NULL;
    }
    return failed;
}
