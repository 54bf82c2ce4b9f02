/*
 * The signals that a write raises besides its error: SIGXFSZ where the file would be longer than
 * the process may make one, and SIGPIPE where nobody reads. By default they end the process, where
 * the module answers by a return code.
 */
#include "module.h"

#include <errno.h>
#include <pthread.h>
#include <time.h>

void block_write_signals(sigset_t *before) {
    sigset_t signals;
    sigemptyset(&signals);
    sigaddset(&signals, SIGXFSZ);
    sigaddset(&signals, SIGPIPE);
    pthread_sigmask(SIG_BLOCK, &signals, before);
}

/* One that the application had blocked itself stays pending, as after a write of its own. */
static void take_signal(int number, const sigset_t *before) {
    static const struct timespec no_time;
    sigset_t signals;
    if (sigismember(before, number))
        return;
    sigemptyset(&signals);
    sigaddset(&signals, number);
    while (sigtimedwait(&signals, NULL, &no_time) < 0 && errno == EINTR)
        ;
}

void unblock_write_signals(const sigset_t *before, int error) {
    if (error == EFBIG)
        take_signal(SIGXFSZ, before);
    if (error == EPIPE)
        take_signal(SIGPIPE, before);
    pthread_sigmask(SIG_SETMASK, before, NULL);
}
