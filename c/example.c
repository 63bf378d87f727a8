/*
 * Saves over a flash that tears an operation: each one of each save, by each pattern. After it the power comes again, and the fault memory
 * must start from the last acknowledged generation or from the one that was being saved, with the state of that generation.
 */
#include "flash.h"

static const char text[] =
    "memory 2\nblocks 2\nflash 2 64\nevent 0 dtc 123456 cycle 0\nevent 1 dtc 123457 cycle 0\n";

/* The saves of a life; enough that the sectors switch. */
#define SAVES 12

static char line[FAULTMEM_LINE];

static void answer(struct faultmem *m, const char *due) {
    must(faultmem_line(m, line, sizeof line) == FAULTMEM_OK, "there is a line");
    if (strcmp(line, due) != 0) {
        fprintf(stderr, "%s in place of %s", line, due);
        exit(1);
    }
}

static void open_over(struct faultmem *m, uint8_t *flash) {
    must(faultmem_open(m, text, sizeof text - 1, flash, SIZE) == FAULTMEM_OK, "it opens");
}

/* What is shown of both events. */
static void state_of(struct faultmem *m, char *state, size_t size) {
    state[0] = 0;
    for (uint32_t event = 0; event < 2; event++) {
        must(faultmem_show(m, event) == FAULTMEM_OK, "an event is shown");
        must(faultmem_line(m, line, sizeof line) == FAULTMEM_OK, "there is a line");
        /* the state of the debouncing is not saved */
        strncat(state, strstr(line, "failed"), size - strlen(state) - 1);
    }
}

/* What happens before save number `save`, counted from 1. */
static void drive(struct faultmem *m, uint32_t save) {
    must(faultmem_cycle(m, 0) == FAULTMEM_OK, "a cycle starts");
    must(faultmem_report(m, save % 2, FAULTMEM_FAILED) == FAULTMEM_OK, "an event fails");
}

int main(void) {
    static uint8_t before[SIZE], flash[SIZE], fresh[SIZE];
    char old[256], new[256], found[256], due[64];
    size_t tears = 0, kept = 0, made = 0, most = 0;
    memset(before, 255, SIZE);
    struct faultmem m = {0};
    open_over(&m, before);
    finish(&m, before);
    for (uint32_t save = 1; save <= SAVES; save++) {
        struct faultmem_left left;
        state_of(&m, old, sizeof old);
        drive(&m, save);
        state_of(&m, new, sizeof new);
        must(faultmem_save(&m) == FAULTMEM_OK, "it is saved");
        snprintf(due, sizeof due, "save -> %u\n", save);
        answer(&m, due);
        must(faultmem_save(&m) == FAULTMEM_PENDING, "nothing is done while operations wait");
        must(faultmem_left(&m, &left) == FAULTMEM_OK && left.generation == save, "the number is told");
        if (left.operations > most)
            most = left.operations;
        for (size_t torn = 0; torn < left.operations; torn++)
            for (int pattern = 0; pattern < PATTERNS; pattern++) {
                struct faultmem after = {0};
                memcpy(flash, before, SIZE);
                must(!carry_out(&m, flash, torn, (enum pattern)pattern), "an operation is torn");
                open_over(&after, flash);
                must(faultmem_left(&after, &left) == FAULTMEM_OK, "what it left is told");
                must(left.generation == save - 1 || left.generation == save, "no acknowledged generation is lost");
                uint32_t generation = left.generation;
                finish(&after, flash);
                state_of(&after, found, sizeof found);
                must(strcmp(found, generation == save ? new : old) == 0, "the state is that of its generation");
                /* and it goes on from there, over the flash that was torn */
                drive(&after, save);
                must(faultmem_save(&after) == FAULTMEM_OK, "it is saved again");
                snprintf(due, sizeof due, "save -> %u\n", generation + 1);
                answer(&after, due);
                finish(&after, flash);
                faultmem_close(&after);
                tears++;
                *(generation == save ? &made : &kept) += 1;
                must(faultmem_left(&m, &left) == FAULTMEM_OK, "what it left is told");
            }
        finish(&m, before);
        size_t length;
        must(faultmem_image(&m, fresh, SIZE, &length) == FAULTMEM_OK && length == SIZE && memcmp(fresh, before, SIZE) == 0,
            "the flash is the image that the fault memory has");
    }
    /* An operation that fails while the power stays. */
    drive(&m, 1);
    must(faultmem_save(&m) == FAULTMEM_OK, "it is saved");
    must(!carry_out(&m, before, 1, ODD), "an operation fails");
    must(faultmem_failed(&m, before, SIZE) == FAULTMEM_OK, "the failure is told");
    must(faultmem_show(&m, 0) == FAULTMEM_DARK, "it is dark");
    must(faultmem_power_up(&m, NULL, 0) == FAULTMEM_OK, "the power comes again");
    answer(&m, "life 2 generation 12\n");
    finish(&m, before);
    faultmem_close(&m);
    printf("example: %d saves of at most %zu operations, %zu torn by %d patterns: %zu restored the generation before, %zu the new one\n",
        SAVES, most, tears, PATTERNS, kept, made);
    return 0;
}
