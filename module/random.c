/*
 * Random bytes: the system's, or for tests those of a generator with a seed.
 */
#include "module.h"

#include <errno.h>
#include <string.h>
#include <sys/random.h>

/* The next number of splitmix64. */
static uint64_t next_number(void) {
    library.seed += 0x9e3779b97f4a7c15;
    uint64_t number = library.seed;
    number = (number ^ (number >> 30)) * 0xbf58476d1ce4e5b9;
    number = (number ^ (number >> 27)) * 0x94d049bb133111eb;
    return number ^ (number >> 31);
}

static void seeded_bytes(uint8_t *out, size_t length) {
    while (length > 0) {
        uint64_t number = next_number();
        size_t count = length < sizeof number ? length : sizeof number;
        memcpy(out, &number, count);
        out += count;
        length -= count;
    }
}

bool system_bytes(uint8_t *out, size_t length) {
    while (length > 0) {
        ssize_t count = getrandom(out, length, 0);
        if (count < 0 && errno != EINTR)
            return false;
        if (count > 0) {
            out += count;
            length -= (size_t)count;
        }
    }
    return true;
}

bool random_bytes(uint8_t *out, size_t length) {
    if (!library.has_seed)
        return system_bytes(out, length);
    seeded_bytes(out, length);
    return true;
}
