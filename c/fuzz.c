/*
 * Makes this many random calls, most of which are good and some of which are not: `fuzz CALLS [SEED]`. What the header says of a status
 * must hold.
 */
/* Here the flash and the image may differ, since `done` is called for operations that were not carried out. */
#define FLASH_UNCHECKED
#include "flash.h"

static uint64_t seed = 1;

static uint32_t chance(uint32_t below) {
    seed ^= seed << 13;
    seed ^= seed >> 7;
    seed ^= seed << 17;
    return (uint32_t)(seed >> 20) % below;
}

/* A number that is mostly below a bound. */
static uint32_t number(uint32_t below) {
    switch (chance(40)) {
    case 0: return below;
    case 1: return (uint32_t)-1;
    case 2: return 65536 + chance(256);
    case 3: return chance(0x7FFFFFFF);
    default: return chance(below);
    }
}

static const char *const texts[] = {
    "event 0 dtc 123456\nevent 1 dtc 123457 count 2 1 1 -1\nblocks 3\nmemory 2\nflash 2 64\ndid 0 0101\n",
    "config 7\nevent 0 dtc 00FF00 time 20 30\nblocks 3\nmemory 2\nflash 2 64\n",
    "flash 2 64\nevent 0 dtc zz\n",
    "flash 2 64\nevent 0 dtc 123456\nfail 0\n",
    "flash 2 64\nmemory 1\nblocks 3\n",
};

static size_t counts[12];

int main(int argc, char **argv) {
    static uint8_t flash[SIZE], bytes[SIZE + 1];
    static char line[FAULTMEM_LINE];
    long calls = argc > 1 ? atol(argv[1]) : 10000;
    struct faultmem m = {0};
    size_t opens = 0, operations = 0;
    if (argc > 2)
        seed = (uint64_t)atol(argv[2]) * 2654435761u + 1;
    memset(flash, 255, SIZE);
    for (long call = 0; call < calls; call++) {
        struct faultmem_left left;
        struct faultmem_operation operation;
        size_t length = chance(40), written;
        int status, is_open = m.at != NULL;
        for (size_t i = 0; i < length; i++)
            bytes[i] = (uint8_t)chance(256);
        if (length >= 2 && chance(2)) {
            static const uint8_t services[] = {0x10, 0x14, 0x19, 0x3E, 0x85};
            bytes[0] = services[chance(5)];
            bytes[1] = (uint8_t)chance(12);
        }
        const uint8_t *given = chance(50) ? bytes : NULL;
        if (!is_open && chance(4)) {
            /* most calls are made on a handle that is open */
            const char *text = texts[chance(8) % 5];
            int blank = chance(3) == 0;
            if (chance(20) == 0)
                flash[chance(SIZE)] ^= (uint8_t)(1 + chance(255));
            status = faultmem_open(chance(100) ? &m : NULL, chance(100) ? text : NULL, strlen(text), blank ? NULL : flash, blank ? 0 : chance(30) ? SIZE : chance(SIZE));
            if (m.at != NULL) {
                must(status == FAULTMEM_OK || status == FAULTMEM_DARK || status == FAULTMEM_REFUSED, "a handle that is open");
                opens++;
                if (blank)
                    memset(flash, 255, SIZE);
            }
            counts[status]++;
            continue;
        }
        switch (chance(200) == 0 ? 16 : chance(16)) {
        case 0: status = faultmem_report(&m, number(2), number(4)); break;
        case 1: status = faultmem_tick(&m, number(500)); break;
        case 2: status = faultmem_cycle(&m, number(4)); break;
        case 3: status = faultmem_signal(&m, number(8), number(65536)); break;
        case 4: status = faultmem_enable(&m, number(8), number(2)); break;
        case 5: status = faultmem_show(&m, number(2)); break;
        case 6: status = faultmem_request(&m, number(4), given, length); break;
        case 7: status = faultmem_post(&m, number(2), number(3), given, length); break;
        case 8: status = faultmem_ask(&m, number(3)); break;
        case 9: status = chance(8) ? faultmem_show(&m, 0) : faultmem_save(&m); break;
        case 10: status = chance(8) ? faultmem_ask(&m, 0) : faultmem_drain(&m); break;
        case 11: status = chance(8) ? faultmem_ask(&m, 1) : faultmem_get(&m, number(3)); break;
        case 12: status = chance(8) ? faultmem_ask(&m, 2) : faultmem_put(&m, number(3), given, length); break;
        case 13:
            status = faultmem_operation(&m, number(60), chance(50) ? &operation : NULL);
            break;
        case 14:
            status = chance(2) ? faultmem_line(&m, chance(50) ? line : NULL, chance(sizeof line))
                               : faultmem_response(&m, given == NULL ? NULL : bytes, chance(SIZE), &written);
            break;
        case 15:
            status = chance(60) ? faultmem_done(&m)
                     : chance(2) ? faultmem_power_up(&m, chance(2) ? flash : NULL, chance(20) ? SIZE : chance(SIZE))
                                 : faultmem_failed(&m, chance(8) ? flash : NULL, chance(20) ? SIZE : chance(SIZE));
            break;
        default:
            faultmem_close(&m);
            status = m.at == NULL ? FAULTMEM_OK : -1;
            is_open = 1;
        }
        must(status >= 0 && status < 12, "a status of the list");
        must(is_open || status == FAULTMEM_NULL, "a handle that is closed");
        counts[status]++;
        if (m.at == NULL)
            continue;
        must(faultmem_left(&m, &left) == FAULTMEM_OK, "what a call left is told");
        must(left.image == SIZE && left.line < FAULTMEM_LINE && left.response <= FAULTMEM_RESPONSE, "sizes");
        must((left.stage == FAULTMEM_STAGE_PENDING) == (left.operations != 0), "operations wait where it is pending");
        if (left.stage == FAULTMEM_STAGE_PENDING && chance(3)) {
            operations += left.operations;
            if (chance(20)) {
                must(carry_out(&m, flash, (size_t)-1, NONE), "all operations are carried out");
                must(faultmem_done(&m) == FAULTMEM_OK, "done is taken");
            } else if (!carry_out(&m, flash, chance((uint32_t)left.operations), (enum pattern)chance(PATTERNS))) {
                must(faultmem_failed(&m, flash, SIZE) == FAULTMEM_OK, "a failure is taken");
            }
        } else if (left.stage == FAULTMEM_STAGE_DARK && chance(4) == 0) {
            faultmem_power_up(&m, flash, SIZE);
        } else if (left.stage == FAULTMEM_STAGE_REFUSED && chance(4) == 0) {
            memset(flash, 255, SIZE);
            faultmem_power_up(&m, flash, SIZE);
        }
    }
    faultmem_close(&m);
    printf("fuzz: %ld calls, %zu handles, %zu operations; by status:", calls, opens, operations);
    for (size_t i = 0; i < 12; i++)
        printf(" %zu", counts[i]);
    printf("\n");
    return 0;
}
