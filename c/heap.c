/* The heap runs out: the N-th time that a call takes some fails, for each N. The status is then FAULTMEM_MEMORY, and nothing has changed. */
#include "flash.h"

static long left = -1;

void *__real_malloc(size_t size);
void *__real_realloc(void *at, size_t size);

static int is_out(void) {
    return left >= 0 && left-- == 0;
}

void *__wrap_malloc(size_t size) { return is_out() ? NULL : __real_malloc(size); }
void *__wrap_realloc(void *at, size_t size) { return is_out() ? NULL : __real_realloc(at, size); }

static const char text[] = "memory 2\nblocks 2\nflash 2 64\nevent 0 dtc 123456\n";
static struct faultmem m;
static uint8_t flash[SIZE];

static int opening(void) { return faultmem_open(&m, text, sizeof text - 1, flash, SIZE); }
static int powering(void) { return faultmem_power_up(&m, NULL, 0); }
static int putting(void) { return faultmem_put(&m, 1, (const uint8_t *)text, 32); }
static int getting(void) { return faultmem_get(&m, 1); }
static int saving(void) { return faultmem_save(&m); }
static int draining(void) { return faultmem_drain(&m); }
static int reporting(void) { return faultmem_report(&m, 0, FAULTMEM_FAILED); }

/* Makes a call with less and less heap until it is made: how often it was refused. */
static long without_heap(int (*call)(void)) {
    struct faultmem_left before = {0}, after = {0};
    for (long n = 0;; n++) {
        int was_open = m.at != NULL;
        if (was_open)
            must(faultmem_left(&m, &before) == FAULTMEM_OK, "what is left is told");
        left = n;
        int status = call(), is_short = left < 0;
        left = -1;
        if (status == FAULTMEM_OK && is_short && !was_open) {
            /* the reading of the configuration can do without some of its heap */
            faultmem_close(&m);
            continue;
        }
        if (status == FAULTMEM_OK) {
            finish(&m, flash);
            return n;
        }
        must(status == FAULTMEM_MEMORY, "the heap ran out");
        must((m.at != NULL) == was_open, "the handle is as it was");
        if (was_open)
            must(faultmem_left(&m, &after) == FAULTMEM_OK && memcmp(&before, &after, sizeof before) == 0, "nothing has changed");
    }
}

int main(void) {
    memset(flash, 255, SIZE);
    long open = without_heap(opening);
    must(faultmem_cycle(&m, 0) == FAULTMEM_OK, "a cycle starts");
    must(without_heap(reporting) == 0, "a report takes no heap");
    long put = without_heap(putting), get = without_heap(getting), save = without_heap(saving);
    must(faultmem_post(&m, 0, 0, (const uint8_t *)text, 7) == FAULTMEM_OK, "a job is posted");
    long drain = without_heap(draining), power = without_heap(powering);
    faultmem_close(&m);
    printf("heap: refused for want of it: open %ld, put %ld, get %ld, save %ld, drain %ld, power_up %ld times\n", open, put, get, save, drain, power);
    return 0;
}
