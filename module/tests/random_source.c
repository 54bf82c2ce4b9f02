/*
 * For cases.py, by LD_PRELOAD: getrandom hands out the bytes that the test has set, and then again
 * those of the system. It can be told to do so as the system seldom does: to fail, to be
 * interrupted, and to give fewer bytes than are asked for. With flags the bytes of the test are
 * refused: the module is to wait until the system has good ones.
 */
#include <errno.h>
#include <stdint.h>
#include <string.h>
#include <sys/random.h>
#include <sys/syscall.h>
#include <sys/types.h>
#include <unistd.h>

void set_random_bytes(const unsigned char *bytes, size_t length);
void set_random_faults(size_t interruptions, size_t most, size_t calls);

static unsigned char kept[4096];
static size_t kept_length;

/* How many of the next calls are interrupted, how many bytes a call gives at most, and how many
 * calls give bytes before all later ones fail. */
static size_t left_interruptions;
static size_t most_bytes = SIZE_MAX;
static size_t left_calls = SIZE_MAX;

void set_random_bytes(const unsigned char *bytes, size_t length) {
    kept_length = length < sizeof kept ? length : sizeof kept;
    memcpy(kept, bytes, kept_length);
}

void set_random_faults(size_t interruptions, size_t most, size_t calls) {
    left_interruptions = interruptions;
    most_bytes = most;
    left_calls = calls;
}

static ssize_t give_kept(void *out, size_t length) {
    if (length > kept_length)
        length = kept_length;
    memcpy(out, kept, length);
    memmove(kept, kept + length, kept_length - length);
    kept_length -= length;
    return (ssize_t)length;
}

ssize_t getrandom(void *out, size_t length, unsigned flags) {
    if (kept_length > 0 && flags != 0) {
        errno = EINVAL;
        return -1;
    }
    if (left_interruptions > 0) {
        left_interruptions--;
        errno = EINTR;
        return -1;
    }
    if (left_calls == 0) {
        errno = ENOSYS;
        return -1;
    }
    if (left_calls != SIZE_MAX)
        left_calls--;
    if (length > most_bytes)
        length = most_bytes;
    return kept_length > 0 ? give_kept(out, length)
                           : syscall(SYS_getrandom, out, length, flags);
}
