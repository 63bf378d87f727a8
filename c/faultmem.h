/*
 * The fault memory for a program in C or C++ on an x86-64 host: link libfaultmem.a (docs/C.md).
 *
 * Threads: a handle belongs to the thread that opened it. Two handles share nothing, so each may have a thread of its own.
 * Numbers: ticks are of 10 ms; all others are those of docs/SCRIPT.md, with the same ranges.
 * Lines: those of docs/SCRIPT.md#the-report, each with its line feed.
 * Statuses: after each status but FAULTMEM_OK, FAULTMEM_FLASH, FAULTMEM_TEXT and those that a call names below, nothing has changed.
 *
 * The flash is the caller's: two sectors of P pages of 32 bytes, page after page, sector 0 first, for `flash 2 P`. The fault memory has
 * a copy of its image. A call that writes hands out operations; the caller carries them out in their order, and then calls
 * faultmem_done. Until then the call is not acknowledged, and each other step gives FAULTMEM_PENDING.
 */
#ifndef FAULTMEM_H
#define FAULTMEM_H

#include <stddef.h>
#include <stdint.h>

#ifdef __cplusplus
extern "C" {
#endif

enum faultmem_status {
    FAULTMEM_OK = 0,       /* it was done */
    FAULTMEM_NULL = 1,     /* a pointer is null, or the handle is not open */
    FAULTMEM_LENGTH = 2,   /* a number of bytes is out of its range, or the image has another size */
    FAULTMEM_RANGE = 3,    /* a number is out of its range */
    FAULTMEM_CONFIG = 4,   /* the text is no configuration; `faultmem check` says which line is at fault */
    FAULTMEM_MEMORY = 5,   /* no heap is left */
    FAULTMEM_PENDING = 6,  /* operations wait: carry them out, and call faultmem_done or faultmem_failed */
    FAULTMEM_DARK = 7,     /* it does not run; only faultmem_power_up makes it run */
    FAULTMEM_REFUSED = 8,  /* the image is damaged or another configuration's; the line says which */
    FAULTMEM_NOTHING = 9,  /* no operation waits */
    FAULTMEM_FLASH = 10,   /* the step could not be made on the flash */
    FAULTMEM_TEXT = 11     /* the step was made, but no heap was left for its line */
};

/* What a monitor reports. */
enum faultmem_report {
    FAULTMEM_PASSED = 0,
    FAULTMEM_FAILED = 1,
    FAULTMEM_PREPASSED = 2,
    FAULTMEM_PREFAILED = 3
};

enum faultmem_kind {
    FAULTMEM_PROGRAM = 1, /* program 32 bytes into a page that is blank */
    FAULTMEM_ERASE = 2    /* make each byte of a sector 255 */
};

/* One operation on the flash. At FAULTMEM_ERASE the page is 0 and each byte 255. */
struct faultmem_operation {
    uint8_t kind;
    uint8_t sector; /* 0 or 1 */
    uint16_t page;  /* 0 to P - 1 */
    uint8_t bytes[32];
};

enum faultmem_stage {
    FAULTMEM_STAGE_UP = 0,
    FAULTMEM_STAGE_PENDING = 1,
    FAULTMEM_STAGE_DARK = 2,
    FAULTMEM_STAGE_REFUSED = 3
};

/* What the last call left. */
struct faultmem_left {
    size_t line;         /* bytes of its line */
    size_t response;     /* bytes of its response; 0 if it was no request, or is silent */
    size_t operations;   /* operations that wait */
    size_t image;        /* bytes of the image: 64 * P */
    uint32_t generation; /* from which the life began, or that of the last save; acknowledged once the stage is UP */
    uint32_t stage;      /* a faultmem_stage */
};

/* A handle, closed while `at` is null. The caller makes it as `struct faultmem m = {0};` and does not write to it again. */
struct faultmem {
    void *at;
};

/* The longest line. */
#define FAULTMEM_LINE 4096

/* The longest response. */
#define FAULTMEM_RESPONSE 1040

/*
 * Opens a fault memory: reads a configuration (the configuration lines of a script, docs/SCRIPT.md), and makes the power come over an
 * image, which it copies, or over a blank one where `image` is null. The handle must be closed. It is open after OK, DARK and REFUSED;
 * its line says how the life began, as `life 1 generation 0`, and operations may wait.
 */
int faultmem_open(struct faultmem *m, const char *text, size_t length, const uint8_t *image, size_t size);

/* Frees all that the handle has. A handle that is not open stays so. */
void faultmem_close(struct faultmem *m);

/*
 * Makes the power come again, at any moment: over an image, or, where `image` is null, over that of the last life with its operations
 * carried out. What was not saved is lost, and so are the jobs that wait. Status and line as at faultmem_open.
 */
int faultmem_power_up(struct faultmem *m, const uint8_t *image, size_t size);

/*
 * Steps. Each has the line that `faultmem run` prints for it, the step and its answer. After OK it was made: an answer such as `ignored
 * cycle` or `full` is OK too.
 */
int faultmem_report(struct faultmem *m, uint32_t event, uint32_t report);      /* event: a configured one; a faultmem_report */
int faultmem_tick(struct faultmem *m, uint32_t ticks);                         /* 1 to 65535 ticks of 10 ms */
int faultmem_cycle(struct faultmem *m, uint32_t cycle);                        /* 0 to 3: ends and starts again */
int faultmem_signal(struct faultmem *m, uint32_t index, uint32_t value);       /* 0 to 7; 0 to 65535 */
int faultmem_enable(struct faultmem *m, uint32_t condition, uint32_t is);      /* 0 to 7; 1 fulfilled, 0 not */
int faultmem_show(struct faultmem *m, uint32_t event);
int faultmem_request(struct faultmem *m, uint32_t tester, const uint8_t *bytes, size_t length); /* 0 to 3; 1 to 16 bytes */
int faultmem_post(struct faultmem *m, uint32_t urgent, uint32_t block, const uint8_t *bytes, size_t length); /* 1 to 32 bytes */
int faultmem_ask(struct faultmem *m, uint32_t block);                          /* block: below the number of `blocks` */

/*
 * Steps that use the flash. They may hand out operations. FLASH: no operation is handed out, and the image is as it was. A line `save -> flash` or `get N -> flash` is OK
 * with an answer that failed; its operations wait all the same.
 */
int faultmem_save(struct faultmem *m);
int faultmem_drain(struct faultmem *m);
int faultmem_get(struct faultmem *m, uint32_t block);

/*
 * Writes an application block at once. It has no line. After FLASH the block holds what it held or these bytes, and operations may wait.
 */
int faultmem_put(struct faultmem *m, uint32_t block, const uint8_t *bytes, size_t length); /* 1 to 32 bytes */

/* All operations were carried out: the call is acknowledged. */
int faultmem_done(struct faultmem *m);

/*
 * An operation failed, and the flash holds this image now. The handle is dark until faultmem_power_up; the call is not acknowledged.
 */
int faultmem_failed(struct faultmem *m, const uint8_t *image, size_t size);

/* What the last call left. */
int faultmem_left(struct faultmem *m, struct faultmem_left *left);

/* The operation of this number, counted from 0; RANGE after the last one. */
int faultmem_operation(struct faultmem *m, size_t number, struct faultmem_operation *operation);

/* Copies the line of the last call, as much as there is room for, and a NUL after it; `size` is at least 1. */
int faultmem_line(struct faultmem *m, char *text, size_t size);

/* Copies the response, or the image, as much as there is room for, and returns how many bytes these are. */
int faultmem_response(struct faultmem *m, uint8_t *bytes, size_t size, size_t *length);
int faultmem_image(struct faultmem *m, uint8_t *bytes, size_t size, size_t *length);

#ifdef __cplusplus
}
#endif

#endif
