/*
 * What the files of the tests of conventions share. These are conventions.c and, in the order in
 * which their tests are made, arguments.c, rooms.c, locks.c, slots.c and environment.c.
 */
#ifndef CONVENTIONS_H
#define CONVENTIONS_H

#include "support.h"

/* The program is linked with -rdynamic; these are for itself only. */
#pragma GCC visibility push(hidden)

/* Each runs the tests of its file, as `run_tests` does. */
int run_argument_tests(const char *name);
int run_room_tests(const char *name);
int run_lock_tests(const char *name);
int run_slot_tests(const char *name);
int run_environment_tests(const char *name);

/* ---- What all use: conventions.c */

/* The temporary folder, and whether each token keeps a journal there. */
extern const char *folder;
extern bool has_journals;

/* The path of a file in the folder, until the next call. */
const char *path_of(const char *name);

extern const CK_FLAGS read_write;

/* Some bytes, and a place for a length. */
extern CK_BYTE bytes[64];
extern CK_ULONG length;

/* ---- The application's functions for a mutex: conventions.c */

/* The arguments of C_Initialize with them. All counts begin anew. */
CK_C_INITIALIZE_ARGS mutex_arguments(void);

/* How often they were called, and how many locks are held. */
extern int mutexes, locks, unlocks, destroyed, depth;

/* At the last of this many locks the application's function makes this change, as another thread
 * would that has the lock before; or behind the last of this many unlocks, before anybody waits. */
extern int locks_until_change, unlocks_until_change;
extern void (*change)(void);

/* How many locks had been taken when the last change was made. */
extern int locks_at_change;

/* The last of this many locks fails, and before that this change is made. */
extern int locks_until_failure;
extern void (*change_at_failure)(void);

/* How long this thread had worked at each lock and unlock, in nanoseconds, from the time on when
 * `times_noted` was set to 0, but for those of a change. Only the time of its own work counts,
 * however many threads want the processor. */
enum { MOST_TIMES = 6 };

extern long long noted_times[MOST_TIMES];
extern size_t times_noted;

/* ---- Memory: arguments.c */

/* Zeros, where there is memory for them. */
void *zeros_new(size_t count, size_t size);

/* ---- Operations: rooms.c */

extern CK_SESSION_HANDLE current_session;

/* A key of the session that signs and verifies, and the mechanism for what begins with it. */
extern CK_OBJECT_HANDLE current_key;
extern CK_MECHANISM current_mechanism;

CK_RV begin_nothing(void);
CK_RV begin_digest(void);
CK_RV begin_sign(void);

/* A message of three pieces, each byte of which is to be its place modulo 251. */
enum { PIECE = 1 << 20, LARGE = 3000000 };

extern CK_BYTE large[LARGE];

void fill_large(void);

#pragma GCC visibility pop

#endif
