/* A first program: an event fails, is saved, and is there after the power came again. */
#include "faultmem.h"
#include <stdio.h>

static char line[FAULTMEM_LINE];

int main(void) {
    static const char text[] = "event 0 dtc 123456\n";
    struct faultmem m = {0};
    int status = faultmem_open(&m, text, sizeof text - 1, NULL, 0);
    if (status != FAULTMEM_OK)
        return 1;
    faultmem_done(&m); /* the flash of this program is the copy in the handle */
    faultmem_cycle(&m, 0);
    faultmem_report(&m, 0, FAULTMEM_FAILED);
    status = faultmem_save(&m);
    faultmem_line(&m, line, sizeof line);
    printf("%s", line); /* save -> 1 */
    if (status != FAULTMEM_OK || faultmem_done(&m) != FAULTMEM_OK)
        return 1;
    faultmem_power_up(&m, NULL, 0);
    faultmem_show(&m, 0);
    faultmem_line(&m, line, sizeof line);
    printf("%s", line); /* show 0 -> status 2F .. */
    faultmem_close(&m);
    return 0;
}
