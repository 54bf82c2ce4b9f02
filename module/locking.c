/*
 * The lock that calls take, and what a fork does to the library.
 *
 * The lock is the module's own mutex, or one that is made by the application's functions (PKCS #11
 * Base 3.0, General-purpose functions, C_Initialize). In the latter case the own mutex is held only
 * for a moment, except by C_Initialize, since the application's threads may be none that it knows.
 */
#include "module.h"

#include <pthread.h>
#include <sched.h>
#include <stdlib.h>
#include <sys/single_threaded.h>

/* C_Finalize may end the library while other threads are in the application's functions for this
 * mutex. So it is destroyed by whoever is the last to use it. */
struct application_lock {
    CK_VOID_PTR mutex;
    CK_DESTROYMUTEX destroy;
    CK_LOCKMUTEX lock;
    CK_UNLOCKMUTEX unlock;
    size_t users; /* threads that wait for the mutex, have it or give it back */
};

struct library library;

/* Held also where the users of an application's lock are counted. */
static pthread_mutex_t own_mutex = PTHREAD_MUTEX_INITIALIZER;

/* Never read. By it the memory of the parent stays reachable in the child of a fork, so that nobody
 * takes it for lost. In a child of that child it is replaced, and the first parent's memory is no
 * longer reachable. */
static struct library left_by_parent __attribute__((used));

static void pause_for(int count) {
    for (int i = 0; i < count; i++)
        __builtin_ia32_pause();
}

/* Lets other threads run for some 10 microseconds. A yield takes less than one where no other
 * thread wants the processor, and long where many do, so the time counts and not the yields. */
static void let_others_run(void) {
    enum { TICKS = 25000 };
    uint64_t begin = __builtin_ia32_rdtsc();
    do
        sched_yield();
    while (__builtin_ia32_rdtsc() - begin < TICKS);
}

/* Most calls are short, so a thread that finds the mutex taken looks again a few times at once. */
static bool take_quickly(void) {
    enum { LOOKS = 5 };
    for (int look = 0; look < LOOKS; look++) {
        if (pthread_mutex_trylock(&own_mutex) == 0)
            return true;
        pause_for(1 << look);
    }
    return false;
}

/* What lies under the mutex moves to another processor each time that another thread takes it,
 * which takes longer than a call. So the later looks are further apart, and whoever has the mutex
 * makes several calls in a row. Where yields take long, there are fewer looks. */
static bool take_slowly(void) {
    enum { LOOKS = 19, MOST_TICKS = 1000000 };
    uint64_t begin = __builtin_ia32_rdtsc();
    for (int look = 0; look < LOOKS && __builtin_ia32_rdtsc() - begin < MOST_TICKS; look++) {
        if (pthread_mutex_trylock(&own_mutex) == 0)
            return true;
        let_others_run();
    }
    return false;
}

/* A process with one thread has nobody to wait for, and the C library then takes a mutex without
 * the instructions that other processors see. After the last look a thread sleeps. */
void take_own_mutex(void) {
    if (__libc_single_threaded || (!take_quickly() && !take_slowly()))
        pthread_mutex_lock(&own_mutex);
}

/* Whether this is still the library's lock: while a thread waits for it, another one that has it
 * may finalize the library, and even initialize it anew. */
static bool is_current(const struct application_lock *lock) {
    pthread_mutex_lock(&own_mutex);
    bool is_same = library.lock == lock;
    pthread_mutex_unlock(&own_mutex);
    return is_same;
}

static void destroy_lock(struct application_lock *lock) {
    lock->destroy(lock->mutex);
    free(lock);
}

/* A thread has come out of the mutex's functions. */
static void end_use(struct application_lock *lock) {
    pthread_mutex_lock(&own_mutex);
    lock->users--;
    bool is_last = lock->users == 0 && library.lock != lock;
    pthread_mutex_unlock(&own_mutex);
    if (is_last)
        destroy_lock(lock);
}

static CK_RV enter_by_application(struct application_lock *lock) {
    CK_RV code = lock->lock(lock->mutex) == CKR_OK ? CKR_OK : CKR_GENERAL_ERROR;
    if (code == CKR_OK && !is_current(lock)) {
        lock->unlock(lock->mutex);
        code = CKR_CRYPTOKI_NOT_INITIALIZED;
    }
    if (code != CKR_OK)
        end_use(lock);
    return code;
}

static void leave_by_application(struct application_lock *lock) {
    lock->unlock(lock->mutex);
    end_use(lock);
}

CK_RV enter(void) {
    take_own_mutex();
    if (!library.is_initialized) {
        pthread_mutex_unlock(&own_mutex);
        return CKR_CRYPTOKI_NOT_INITIALIZED;
    }
    struct application_lock *lock = library.lock;
    if (lock == NULL)
        return CKR_OK;
    lock->users++;
    pthread_mutex_unlock(&own_mutex);
    return enter_by_application(lock);
}

CK_RV leave(CK_RV code) {
    if (library.lock == NULL)
        pthread_mutex_unlock(&own_mutex);
    else
        leave_by_application(library.lock);
    return code;
}

void release_own_mutex(void) {
    pthread_mutex_unlock(&own_mutex);
}

int forbid_cancel(void) {
    int before;
    pthread_setcancelstate(PTHREAD_CANCEL_DISABLE, &before);
    return before;
}

void allow_cancel(int before) {
    int forbidden;
    pthread_setcancelstate(before, &forbidden);
}

/* What C_Initialize answers where the application's function has answered this. Of other codes the
 * application would think that the library means them. */
static CK_RV code_of_creation(CK_RV code) {
    bool is_handed_on = code == CKR_OK || code == CKR_HOST_MEMORY || code == CKR_CANT_LOCK;
    return is_handed_on ? code : CKR_GENERAL_ERROR;
}

/* CreateMutex, and in `drop_lock` DestroyMutex, are called under the module's own mutex: they
 * mustn't wait for a thread that calls the library. */
CK_RV open_lock(const CK_C_INITIALIZE_ARGS *arguments) {
    if (arguments == NULL || arguments->CreateMutex == NULL
        || (arguments->flags & CKF_OS_LOCKING_OK) != 0)
        return CKR_OK;
    struct application_lock *lock = malloc(sizeof *lock);
    if (lock == NULL)
        return CKR_HOST_MEMORY;
    *lock = (struct application_lock){
        .destroy = arguments->DestroyMutex,
        .lock = arguments->LockMutex,
        .unlock = arguments->UnlockMutex,
    };
    CK_RV code = code_of_creation(arguments->CreateMutex(&lock->mutex));
    if (code == CKR_OK)
        library.lock = lock;
    else
        free(lock);
    return code;
}

void drop_lock(void) {
    if (library.lock != NULL)
        destroy_lock(library.lock);
}

void close_library(void) {
    struct application_lock *lock = library.lock;
    if (lock != NULL)
        pthread_mutex_lock(&own_mutex);
    library = (struct library){0};
    pthread_mutex_unlock(&own_mutex);
    if (lock != NULL)
        leave_by_application(lock);
}

/* The parent may have been in the middle of a call in another thread, so its memory is neither used
 * nor freed. */
static void begin_in_child(void) {
    (void)close_file();
    left_by_parent = library;
    library = (struct library){0};
    forget_callers();
    pthread_mutex_init(&own_mutex, NULL);
}

/* Where the library is unloaded without C_Finalize, nobody else would close the file, and its lock
 * would stay. This also runs at the end of the process, where other threads may still call: one
 * that is in a call keeps the file. */
__attribute__((destructor)) static void close_at_unload(void) {
    if (pthread_mutex_trylock(&own_mutex) != 0)
        return;
    if (library.lock == NULL || library.lock->users == 0)
        abandon_journal();
    pthread_mutex_unlock(&own_mutex);
}

bool watch_forks(void) {
    static bool is_watching;
    if (!is_watching)
        is_watching = pthread_atfork(NULL, NULL, begin_in_child) == 0;
    return is_watching;
}
