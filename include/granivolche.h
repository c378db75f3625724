/* Granivolche: a proved model of the S1D13700 display controller, for C and for all that calls C.
 *
 * The host keeps GRANIVOLCHE_CONTROLLER_SIZE bytes for a controller, GRANIVOLCHE_MEMORY_SIZE for its display memory and
 * GRANIVOLCHE_FONT_SIZE for a font, and lends a call what it works on. A row of dots is a byte a dot. docs/REFERENCE.md has
 * the chip's rules, and under 'The library' the bytes of a controller.
 *
 * The proof takes this from a caller, and C does not check it:
 * - A length is true: so many bytes may be read at the pointer, and written where it does not point to const.
 * - A pointer is not NULL, unless its length is 0.
 * - Buffers lent to one call do not overlap.
 * - While a call runs nothing else writes to what was lent to it, or reads what it may write.
 * Everything else is checked: any bytes in the buffers, any lengths and any numbers get an answer.
 *
 * The library has no state of its own and allocates nothing. So any number of threads may call it at the same time, each
 * with its own controller and memory; and what a call takes as const it only reads, so several calls may read it at once.
 */
#ifndef GRANIVOLCHE_H
#define GRANIVOLCHE_H

#include <stddef.h>
#include <stdint.h>

#ifdef __cplusplus
extern "C" {
#endif

#define GRANIVOLCHE_CONTROLLER_SIZE 48
#define GRANIVOLCHE_MEMORY_SIZE 32768
#define GRANIVOLCHE_FONT_SIZE 1280

/* In the low byte of an answer, where a function answers a refusal's number: accepted, or bytes that are no saved
 * controller, of another length or another format. Then nothing has changed; after every other answer a controller that
 * is not const is written back in the form that docs/REFERENCE.md gives, also where the call was refused. */
#define GRANIVOLCHE_ACCEPTED 0
#define GRANIVOLCHE_NO_CONTROLLER 255

/* What granivolche_send answers where it does nothing. It is never a count. */
#define GRANIVOLCHE_NOTHING_SENT 0xFFFFFFFFu

/* The refusals. Names are the manual's; [FX] and the like are counts, one more than the stored code. */
enum {
    GRANIVOLCHE_REFUSED_MEMORY_SIZE = 1,      /* memory is not of the chip's size */
    GRANIVOLCHE_REFUSED_UNKNOWN_COMMAND = 2,  /* the byte is no command; the pending command ends */
    GRANIVOLCHE_REFUSED_NOTHING_WANTED = 3,   /* a data write, and no parameter or memory byte is wanted */
    GRANIVOLCHE_REFUSED_NOT_ALLOWED = 4,      /* a parameter with a value that is not allowed; the pending command ends */
    GRANIVOLCHE_REFUSED_ASLEEP = 5,           /* asleep, and the command is not SYSTEM SET; the pending command ends */
    GRANIVOLCHE_REFUSED_NOTHING_TO_READ = 6,  /* a data read, and nothing is to be read */
    GRANIVOLCHE_REFUSED_OUTSIDE_MEMORY = 7,   /* a byte outside memory, at 8000h or above; the cursor moves */
    GRANIVOLCHE_REFUSED_FONT_SIZE = 8,        /* the font is not GRANIVOLCHE_FONT_SIZE bytes */
    GRANIVOLCHE_REFUSED_GREY_MODE = 9,        /* grey, and DM not 11 or [FX] not 8 */
    GRANIVOLCHE_REFUSED_CHARACTER_WIDTH = 10, /* [FX] above 8 */
    GRANIVOLCHE_REFUSED_ROW_WIDTH = 11,       /* the row is wider than 640 dots */
    GRANIVOLCHE_REFUSED_ODD_LINES = 12,       /* W/S = 1 and [L/F] odd */
    GRANIVOLCHE_REFUSED_SHORT_LINE = 13,      /* TC/R below C/R + 4 */
    GRANIVOLCHE_REFUSED_LAYER_ORDER = 14,     /* W/S = 0, two layers, SL2 below SL1, DM not 11 */
    GRANIVOLCHE_REFUSED_CURSOR_SHAPE = 15,    /* FC not 00, and CRY = 0 or [CRX] above [FX] */
    GRANIVOLCHE_REFUSED_ROW_NUMBER = 16,      /* the row number is not below [L/F] */
    GRANIVOLCHE_REFUSED_BUFFER_SIZE = 17,     /* the buffer is not exactly as long as the row is wide */
    GRANIVOLCHE_REFUSED_SMOOTH_SCROLL = 18,   /* HDOT SCR not 0, and grey, HDOT SCR at least [FX], or [C/R] 1 */
    GRANIVOLCHE_REFUSED_DISPLAY_OFF = 19      /* SLEEP IN with the display off; the pending command ends */
};

/* Makes any GRANIVOLCHE_CONTROLLER_SIZE bytes the controller after reset. The answer is 0, or GRANIVOLCHE_NO_CONTROLLER
 * where the length is another. Memory is the host's to clear. */
uint32_t granivolche_reset(uint8_t *controller, size_t controller_length);

/* A command write. It answers 0, 2, 5, 19 or GRANIVOLCHE_NO_CONTROLLER; 2, 5 and 19 end the pending command, and
 * change nothing else. */
uint32_t granivolche_command_write(uint8_t *controller, size_t controller_length, uint8_t byte);

/* A data write: a parameter, or a byte of memory. It answers 0, 1, 3, 4, 7 or GRANIVOLCHE_NO_CONTROLLER. 4 ends the
 * pending command, 7 moves the cursor, and besides this a refused write changes nothing. */
uint32_t granivolche_data_write(uint8_t *controller, size_t controller_length, uint8_t *memory, size_t memory_length,
                                uint8_t byte);

/* A data read. It answers the number (0, 1, 6, 7 or GRANIVOLCHE_NO_CONTROLLER) + 256 x the value that was read, which is 0
 * where it is refused. A read moves the cursor or the place of what is read next; 7 moves the cursor, and 1 and 6 change
 * nothing. */
uint32_t granivolche_data_read(uint8_t *controller, size_t controller_length, const uint8_t *memory, size_t memory_length);

/* A kind 1 record of a bus file: a command write of the first byte and a data write of each other byte, those after a
 * refused byte too. Each byte's number goes to its place in answers, and the answer is how many were refused. It does
 * nothing, and answers GRANIVOLCHE_NOTHING_SENT, where answers is not as long as bytes, where there is no byte, where
 * there are 0xFFFFFFFF bytes or more, and where the controller's bytes are no saved controller. */
uint32_t granivolche_send(uint8_t *controller, size_t controller_length, uint8_t *memory, size_t memory_length,
                          const uint8_t *bytes, size_t bytes_length, uint8_t *answers, size_t answers_length);

/* Composes a row of a frame, counted from 0 at the top: dots gets its dots from left to right, each 0 or 1, at 2 bits a
 * dot 0 to 3, at 4 bits 0 to 15. The frame number serves flashing alone. It answers 0, 1, 8 to 18 or
 * GRANIVOLCHE_NO_CONTROLLER, and a refused row leaves dots as they are. Where row 0 is accepted, every row of the frame
 * is. */
uint32_t granivolche_row(const uint8_t *controller, size_t controller_length, const uint8_t *memory, size_t memory_length,
                         const uint8_t *font, size_t font_length, uint32_t frame, uint32_t row, uint8_t *dots,
                         size_t dots_length);

/* The size of a frame: its width in dots + 65536 x its rows, also where its rows are refused. 0 where the bytes are no
 * saved controller; a frame has at least one row. */
uint32_t granivolche_frame_size(const uint8_t *controller, size_t controller_length);

#ifdef __cplusplus
}
#endif

#endif
