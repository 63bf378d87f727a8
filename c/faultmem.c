/* Tests the pointers of each call for null, and hands the handle to the library and back. */
#include "faultmem.h"

struct slot {
    void *at;
};

int32_t flt_c_open(const uint8_t *text, size_t length, const uint8_t *image, size_t size, void **out);
int32_t flt_c_step(struct slot slot, void **out, uint32_t kind, uint32_t first, uint32_t second);
int32_t flt_c_request(struct slot slot, void **out, uint32_t tester, const uint8_t *bytes, size_t length);
int32_t flt_c_post(struct slot slot, void **out, _Bool urgent, uint32_t block, const uint8_t *bytes, size_t length);
int32_t flt_c_put(struct slot slot, void **out, uint32_t block, const uint8_t *bytes, size_t length);
int32_t flt_c_power_up(struct slot slot, void **out, const uint8_t *image, size_t size);
int32_t flt_c_done(struct slot slot, void **out);
int32_t flt_c_failed(struct slot slot, void **out, const uint8_t *image, size_t size);
void flt_c_left(struct slot slot, void **out, struct faultmem_left *left);
size_t flt_c_line(struct slot slot, void **out, uint8_t *text, size_t size);
size_t flt_c_response(struct slot slot, void **out, uint8_t *bytes, size_t size);
size_t flt_c_image(struct slot slot, void **out, uint8_t *bytes, size_t size);
int32_t flt_c_operation(struct slot slot, void **out, size_t number, struct faultmem_operation *operation);
void flt_c_close(struct slot slot);

static const uint8_t none[1];

static struct slot take(struct faultmem *m) {
    struct slot slot = {m->at};
    m->at = NULL;
    return slot;
}

static int is_open(const struct faultmem *m) {
    return m != NULL && m->at != NULL;
}

int faultmem_open(struct faultmem *m, const char *text, size_t length, const uint8_t *image, size_t size) {
    if (m == NULL || m->at != NULL || text == NULL)
        return FAULTMEM_NULL;
    if (image != NULL && size == 0)
        return FAULTMEM_LENGTH;
    return flt_c_open((const uint8_t *)text, length, image == NULL ? none : image, image == NULL ? 0 : size, &m->at);
}

void faultmem_close(struct faultmem *m) {
    if (is_open(m))
        flt_c_close(take(m));
}

int faultmem_power_up(struct faultmem *m, const uint8_t *image, size_t size) {
    if (!is_open(m))
        return FAULTMEM_NULL;
    if (image != NULL && size == 0)
        return FAULTMEM_LENGTH;
    return flt_c_power_up(take(m), &m->at, image == NULL ? none : image, image == NULL ? 0 : size);
}

static int step(struct faultmem *m, uint32_t kind, uint32_t first, uint32_t second) {
    return is_open(m) ? flt_c_step(take(m), &m->at, kind, first, second) : FAULTMEM_NULL;
}

int faultmem_report(struct faultmem *m, uint32_t event, uint32_t report) { return step(m, 0, event, report); }
int faultmem_tick(struct faultmem *m, uint32_t ticks) { return step(m, 1, ticks, 0); }
int faultmem_cycle(struct faultmem *m, uint32_t cycle) { return step(m, 2, cycle, 0); }
int faultmem_signal(struct faultmem *m, uint32_t index, uint32_t value) { return step(m, 3, index, value); }
int faultmem_enable(struct faultmem *m, uint32_t condition, uint32_t is) { return step(m, 4, condition, is); }
int faultmem_show(struct faultmem *m, uint32_t event) { return step(m, 5, event, 0); }
int faultmem_save(struct faultmem *m) { return step(m, 6, 0, 0); }
int faultmem_drain(struct faultmem *m) { return step(m, 7, 0, 0); }
int faultmem_get(struct faultmem *m, uint32_t block) { return step(m, 8, block, 0); }
int faultmem_ask(struct faultmem *m, uint32_t block) { return step(m, 9, block, 0); }

int faultmem_request(struct faultmem *m, uint32_t tester, const uint8_t *bytes, size_t length) {
    if (!is_open(m) || bytes == NULL)
        return FAULTMEM_NULL;
    return flt_c_request(take(m), &m->at, tester, bytes, length);
}

int faultmem_post(struct faultmem *m, uint32_t urgent, uint32_t block, const uint8_t *bytes, size_t length) {
    if (!is_open(m) || bytes == NULL)
        return FAULTMEM_NULL;
    if (urgent > 1)
        return FAULTMEM_RANGE;
    return flt_c_post(take(m), &m->at, urgent == 1, block, bytes, length);
}

int faultmem_put(struct faultmem *m, uint32_t block, const uint8_t *bytes, size_t length) {
    if (!is_open(m) || bytes == NULL)
        return FAULTMEM_NULL;
    return flt_c_put(take(m), &m->at, block, bytes, length);
}

int faultmem_done(struct faultmem *m) {
    return is_open(m) ? flt_c_done(take(m), &m->at) : FAULTMEM_NULL;
}

int faultmem_failed(struct faultmem *m, const uint8_t *image, size_t size) {
    if (!is_open(m) || image == NULL)
        return FAULTMEM_NULL;
    return flt_c_failed(take(m), &m->at, image, size);
}

int faultmem_left(struct faultmem *m, struct faultmem_left *left) {
    if (!is_open(m) || left == NULL)
        return FAULTMEM_NULL;
    flt_c_left(take(m), &m->at, left);
    return FAULTMEM_OK;
}

int faultmem_operation(struct faultmem *m, size_t number, struct faultmem_operation *operation) {
    if (!is_open(m) || operation == NULL)
        return FAULTMEM_NULL;
    return flt_c_operation(take(m), &m->at, number, operation);
}

int faultmem_line(struct faultmem *m, char *text, size_t size) {
    if (!is_open(m) || text == NULL)
        return FAULTMEM_NULL;
    if (size == 0)
        return FAULTMEM_LENGTH;
    text[flt_c_line(take(m), &m->at, (uint8_t *)text, size - 1)] = 0;
    return FAULTMEM_OK;
}

int faultmem_response(struct faultmem *m, uint8_t *bytes, size_t size, size_t *length) {
    if (!is_open(m) || bytes == NULL || length == NULL)
        return FAULTMEM_NULL;
    *length = flt_c_response(take(m), &m->at, bytes, size);
    return FAULTMEM_OK;
}

int faultmem_image(struct faultmem *m, uint8_t *bytes, size_t size, size_t *length) {
    if (!is_open(m) || bytes == NULL || length == NULL)
        return FAULTMEM_NULL;
    *length = flt_c_image(take(m), &m->at, bytes, size);
    return FAULTMEM_OK;
}
