/*
 * Refuses each growth of memory in turn: the first allocation of a call, then the second, until a
 * call has no more of them. Each time the library and its token are new. The call must be answered
 * CKR_HOST_MEMORY, change nothing, and succeed when it is made again. System calls on the journal
 * file are refused, too. Called with the module's file and a temporary folder; linked with
 * -rdynamic, so that the module allocates by these functions, has its file locked, read, written
 * and cut off by them, and draws the system's random bytes by one of them.
 */
#include "support.h"

#include <dlfcn.h>
#include <errno.h>
#include <fcntl.h>
#include <malloc.h>
#include <limits.h>
#include <pthread.h>
#include <signal.h>
#include <stdarg.h>
#include <stdio.h>
#include <stdlib.h>
#include <string.h>
#include <sys/file.h>
#include <sys/random.h>
#include <sys/stat.h>
#include <sys/syscall.h>
#include <sys/wait.h>
#include <unistd.h>

/* ---- Memory that is refused */

void *__libc_malloc(size_t size);
void *__libc_calloc(size_t count, size_t size);
void *__libc_realloc(void *memory, size_t size);
void *__libc_memalign(size_t alignment, size_t size);
void __libc_free(void *memory);

/* How many allocations there are before the one that is refused; negative where none is. */
static long left_to_refusal = -1;
static bool refuses_all; /* and all behind that one */
static bool is_refused;
static long live_allocations;
static long live_bytes;
static long allocations_made; /* also those that were given back */

/* Whether the application's lock is taken, where `note_lock` is its function; and how many bytes
 * the largest allocation has under it. */
static bool is_locked;
static size_t largest_under_lock;

static void note_size(size_t size) {
    if (is_locked && size > largest_under_lock)
        largest_under_lock = size;
}

static bool refuses(void) {
    if (left_to_refusal < 0)
        return false;
    if (left_to_refusal > 0) {
        left_to_refusal--;
        return false;
    }
    if (!refuses_all)
        left_to_refusal = -1;
    is_refused = true;
    errno = ENOMEM;
    return true;
}

static void *counted(void *memory) {
    allocations_made += memory != NULL;
    live_allocations += memory != NULL;
    live_bytes += (long)malloc_usable_size(memory);
    return memory;
}

static void *uncounted(void *memory) {
    live_allocations -= memory != NULL;
    live_bytes -= (long)malloc_usable_size(memory);
    return memory;
}

void *malloc(size_t size) {
    note_size(size);
    return refuses() ? NULL : counted(__libc_malloc(size));
}

void *calloc(size_t count, size_t size) {
    note_size(count * size);
    return refuses() ? NULL : counted(__libc_calloc(count, size));
}

void *realloc(void *memory, size_t size) {
    note_size(size);
    if (refuses())
        return NULL;
    return counted(__libc_realloc(uncounted(memory), size));
}

void *aligned_alloc(size_t alignment, size_t size) {
    note_size(size);
    return refuses() ? NULL : counted(__libc_memalign(alignment, size));
}

int posix_memalign(void **memory, size_t alignment, size_t size) {
    *memory = aligned_alloc(alignment, size);
    return *memory == NULL ? ENOMEM : 0;
}

void free(void *memory) {
    __libc_free(uncounted(memory));
}

static void refuse_after(long allocations) {
    is_refused = false;
    left_to_refusal = allocations;
}

static bool stop_refusing(void) {
    left_to_refusal = -1;
    return is_refused;
}

/* ---- System calls that are refused, and a process that comes before this one */

static const char added_line[] = "1 GetTokenInfo -> 0 4 64 0 0\n";

static const char *added_file;         /* gets that line before the next lock is taken */
static int lock_error;                 /* by which each lock of a file fails */
static int status_error;               /* by which each fstat fails */
static bool fails_once;                /* only the first of them does */
static size_t left_statuses;           /* behind this many that don't */
static dev_t added_to_device;          /* in what each fstat answers */
static long reads_until_error = -1;    /* how many reads there are before one that fails; negative
                                          where none does */
static bool refuses_truncation;
static size_t left_interruptions;      /* of write */
static size_t open_interruptions, truncation_interruptions, wait_interruptions;
static int write_error;                /* by which each write fails */
static int write_signal;               /* which it raises then, or 0 */
static bool stops_in_write;            /* whoever writes stops there */
static size_t most_written = SIZE_MAX; /* by one call of write */
static size_t left_room = SIZE_MAX;    /* for how many bytes there is room on the device */
static size_t writes;                  /* how often write was called */
static size_t draws, draws_under_lock; /* of random bytes */

static void write_file(const char *path, const char *content, const char *mode) {
    FILE *file = fopen(path, mode);
    if (file == NULL || fputs(content, file) < 0 || fclose(file) != 0)
        exit(2);
}

static off_t length_of(const char *path) {
    struct stat status;
    return stat(path, &status) == 0 ? status.st_size : 0;
}

int flock(int file, int operation) {
    if (added_file != NULL)
        write_file(added_file, added_line, "a");
    added_file = NULL;
    if (lock_error == 0)
        return (int)syscall(SYS_flock, file, operation);
    errno = lock_error;
    return -1;
}

int fstat(int file, struct stat *status) {
    int result = -1;
    if (status_error == 0 || left_statuses > 0) {
        result = (int)syscall(SYS_fstat, file, status);
    } else {
        errno = status_error;
        if (fails_once)
            status_error = 0;
    }
    if (left_statuses > 0)
        left_statuses--;
    if (result == 0)
        status->st_dev += added_to_device;
    return result;
}

ssize_t read(int file, void *out, size_t length) {
    if (reads_until_error < 0 || reads_until_error-- > 0)
        return syscall(SYS_read, file, out, length);
    errno = EIO;
    return -1;
}

static bool is_interrupted(size_t *left) {
    if (*left == 0)
        return false;
    --*left;
    errno = EINTR;
    return true;
}

int open(const char *path, int flags, ...) {
    va_list mode;
    va_start(mode, flags);
    int file = -1;
    if (!is_interrupted(&open_interruptions))
        file = (int)syscall(SYS_open, path, flags, (flags & O_CREAT) ? va_arg(mode, mode_t) : 0);
    va_end(mode);
    return file;
}

int ftruncate(int file, off_t length) {
    if (is_interrupted(&truncation_interruptions))
        return -1;
    if (!refuses_truncation)
        return (int)syscall(SYS_ftruncate, file, length);
    errno = EPERM;
    return -1;
}

static size_t least(size_t one, size_t other) {
    return one < other ? one : other;
}

/* Where a thread stops for good, it tells so by a byte in this pipe. */
static int ends_of_wait[2];

static void stop_thread(void) {
    if (syscall(SYS_write, ends_of_wait[1], "x", 1) != 1)
        _exit(5);
    for (;;)
        pause();
}

/* How many signals the application has caught, and how many before the failing write has ended. */
static volatile sig_atomic_t signals_caught;
static int caught_in_write;

static void catch_signal(int number) {
    (void)number;
    signals_caught++;
}

ssize_t write(int file, const void *bytes, size_t length) {
    if (file == STDERR_FILENO)
        return syscall(SYS_write, file, bytes, length);
    writes++;
    if (stops_in_write)
        stop_thread();
    if (is_interrupted(&left_interruptions))
        return -1;
    if (write_error != 0 || left_room == 0) {
        if (write_signal != 0)
            raise(write_signal);
        caught_in_write = signals_caught;
        errno = write_error != 0 ? write_error : ENOSPC;
        return -1;
    }
    length = least(length, least(most_written, left_room));
    ssize_t written = syscall(SYS_write, file, bytes, length);
    if (left_room != SIZE_MAX && written > 0)
        left_room -= (size_t)written;
    return written;
}

int sigtimedwait(const sigset_t *signals, siginfo_t *info, const struct timespec *time) {
    if (is_interrupted(&wait_interruptions))
        return -1;
    return (int)syscall(SYS_rt_sigtimedwait, signals, info, time, _NSIG / 8);
}

/* How often a descriptor was copied, and how often so that programs that are executed have it. */
static size_t copies, left_copies;

int fcntl(int file, int command, ...) {
    va_list rest;
    va_start(rest, command);
    long argument = va_arg(rest, long);
    va_end(rest);
    copies += command == F_DUPFD_CLOEXEC;
    left_copies += command == F_DUPFD;
    return (int)syscall(SYS_fcntl, file, command, argument);
}

ssize_t getrandom(void *out, size_t length, unsigned flags) {
    draws++;
    draws_under_lock += is_locked;
    return syscall(SYS_getrandom, out, length, flags);
}

/* ---- Calls */

static CK_SESSION_HANDLE session, other_session;
static CK_OBJECT_HANDLE object, key;

/* What a call answers. */
struct result {
    CK_ULONG number;
    CK_ULONG length;
    CK_BYTE bytes[64];
};

static CK_BYTE text[3000], long_text[5000];
static CK_UTF8CHAR new_pin[5] = {'o', 't', 'h', 'e', 'r'};
static CK_BBOOL no = CK_FALSE;
static CK_OBJECT_CLASS data_class = CKO_DATA;
static CK_MECHANISM sha512 = {CKM_SHA512, NULL, 0};
static CK_MECHANISM hmac = {CKM_SHA256_HMAC, NULL, 0};
static CK_MECHANISM generation = {CKM_GENERIC_SECRET_KEY_GEN, NULL, 0};
static const CK_FLAGS read_write = CKF_SERIAL_SESSION | CKF_RW_SESSION;
static const struct ospreyrack_functions *vendor;

static CK_RV open_session(struct result *result) {
    return p11->C_OpenSession(0, read_write, NULL, NULL, &result->number);
}

static CK_RV close_session(struct result *result) {
    (void)result;
    return p11->C_CloseSession(other_session);
}

static CK_RV close_all_sessions(struct result *result) {
    (void)result;
    return p11->C_CloseAllSessions(0);
}

static CK_RV init_token(struct result *result) {
    (void)result;
    return p11->C_InitToken(0, so_pin, sizeof so_pin, token_label);
}

static CK_RV log_in_user(struct result *result) {
    (void)result;
    return p11->C_Login(session, CKU_USER, user_pin, sizeof user_pin);
}

static CK_RV log_in_officer(struct result *result) {
    (void)result;
    return p11->C_Login(session, CKU_SO, so_pin, sizeof so_pin);
}

static CK_RV log_out(struct result *result) {
    (void)result;
    return p11->C_Logout(session);
}

static CK_RV init_pin(struct result *result) {
    (void)result;
    return p11->C_InitPIN(session, new_pin, sizeof new_pin);
}

static CK_RV set_pin(struct result *result) {
    (void)result;
    return p11->C_SetPIN(session, user_pin, sizeof user_pin, new_pin, sizeof new_pin);
}

static CK_RV get_session_info(struct result *result) {
    CK_SESSION_INFO info = {0};
    CK_RV code = p11->C_GetSessionInfo(session, &info);
    result->number = info.state;
    result->length = info.flags;
    return code;
}

static CK_RV get_token_info(struct result *result) {
    CK_TOKEN_INFO info = {0};
    CK_RV code = p11->C_GetTokenInfo(0, &info);
    result->number = info.flags;
    result->length = info.ulSessionCount;
    memcpy(result->bytes, info.label, sizeof info.label);
    return code;
}

static CK_RV get_mechanism_list(struct result *result) {
    CK_MECHANISM_TYPE types[13] = {0};
    result->length = 13;
    CK_RV code = p11->C_GetMechanismList(0, types, &result->length);
    memcpy(result->bytes, types, sizeof result->bytes);
    return code;
}

static CK_RV session_cancel(struct result *result) {
    (void)result;
    return p11->C_SessionCancel(session, CKF_DIGEST | CKF_SIGN);
}

static CK_RV create_object(struct result *result) {
    CK_ATTRIBUTE template[] = {
        {CKA_CLASS, &data_class, sizeof data_class},
        {CKA_PRIVATE, &no, sizeof no},
        {CKA_LABEL, text, 2000},
        {CKA_VALUE, text, sizeof text},
    };
    return p11->C_CreateObject(session, template, 4, &result->number);
}

/* Of more attributes than the list of them has room for at first. */
static CK_RV create_with_many(struct result *result) {
    enum { MANY = 40 };
    CK_ATTRIBUTE template[MANY] = {{CKA_CLASS, &data_class, sizeof data_class}};
    for (int i = 1; i < MANY; i++)
        template[i] = (CK_ATTRIBUTE){CKA_PRIVATE, &no, sizeof no};
    return p11->C_CreateObject(session, template, MANY, &result->number);
}

static CK_RV generate_key(struct result *result) {
    CK_ULONG key_length = 1000;
    CK_ATTRIBUTE template[] = {
        {CKA_VALUE_LEN, &key_length, sizeof key_length},
        {CKA_LABEL, text, 300},
    };
    return p11->C_GenerateKey(session, &generation, template, 2, &result->number);
}

static CK_RV copy_object(struct result *result) {
    CK_ATTRIBUTE label = {CKA_LABEL, text, 2000};
    return p11->C_CopyObject(session, object, &label, 1, &result->number);
}

static CK_RV get_attribute_value(struct result *result) {
    CK_ATTRIBUTE queries[40];
    for (int i = 0; i < 39; i++)
        queries[i] = (CK_ATTRIBUTE){CKA_VALUE, NULL, 0};
    queries[39] = (CK_ATTRIBUTE){CKA_LABEL, result->bytes, sizeof result->bytes};
    CK_RV code = p11->C_GetAttributeValue(session, object, queries, 40);
    result->length = queries[39].ulValueLen;
    return code;
}

static CK_RV set_attribute_value(struct result *result) {
    CK_ATTRIBUTE label = {CKA_VALUE, text, 2500};
    (void)result;
    return p11->C_SetAttributeValue(session, object, &label, 1);
}

static CK_RV get_object_size(struct result *result) {
    return p11->C_GetObjectSize(session, object, &result->length);
}

static CK_RV set_key_state(struct result *result) {
    (void)result;
    return vendor->C_SetKeyState(session, key, OSPREYRACK_SUSPENDED);
}

static CK_RV destroy_object(struct result *result) {
    (void)result;
    return p11->C_DestroyObject(session, object);
}

static CK_RV find_objects_init(struct result *result) {
    CK_ATTRIBUTE value = {CKA_PRIVATE, &no, sizeof no};
    (void)result;
    return p11->C_FindObjectsInit(session, &value, 1);
}

static CK_RV find_objects(struct result *result) {
    CK_OBJECT_HANDLE handles[4] = {0};
    CK_RV code = p11->C_FindObjects(session, handles, 4, &result->length);
    memcpy(result->bytes, handles, sizeof handles);
    return code;
}

static CK_RV find_objects_final(struct result *result) {
    (void)result;
    return p11->C_FindObjectsFinal(session);
}

static CK_RV digest_init(struct result *result) {
    (void)result;
    return p11->C_DigestInit(session, &sha512);
}

static CK_RV digest(struct result *result) {
    result->length = sizeof result->bytes;
    return p11->C_Digest(session, text, sizeof text, result->bytes, &result->length);
}

static CK_RV digest_update(struct result *result) {
    (void)result;
    return p11->C_DigestUpdate(session, text, sizeof text);
}

/* Long messages are taken in while the lock is free. */
static CK_RV digest_long(struct result *result) {
    result->length = sizeof result->bytes;
    return p11->C_Digest(session, long_text, sizeof long_text, result->bytes, &result->length);
}

static CK_RV digest_update_long(struct result *result) {
    (void)result;
    return p11->C_DigestUpdate(session, long_text, sizeof long_text);
}

static CK_RV digest_final(struct result *result) {
    result->length = sizeof result->bytes;
    return p11->C_DigestFinal(session, result->bytes, &result->length);
}

static CK_RV sign_init(struct result *result) {
    (void)result;
    return p11->C_SignInit(session, &hmac, key);
}

static CK_RV sign(struct result *result) {
    result->length = sizeof result->bytes;
    return p11->C_Sign(session, hmac_message, sizeof hmac_message, result->bytes, &result->length);
}

static CK_RV sign_update(struct result *result) {
    (void)result;
    return p11->C_SignUpdate(session, hmac_message, sizeof hmac_message);
}

static CK_RV sign_long(struct result *result) {
    result->length = sizeof result->bytes;
    return p11->C_Sign(session, long_text, sizeof long_text, result->bytes, &result->length);
}

static CK_RV sign_update_long(struct result *result) {
    (void)result;
    return p11->C_SignUpdate(session, long_text, sizeof long_text);
}

static CK_RV sign_final(struct result *result) {
    result->length = sizeof result->bytes;
    return p11->C_SignFinal(session, result->bytes, &result->length);
}

static CK_RV verify_init(struct result *result) {
    (void)result;
    return p11->C_VerifyInit(session, &hmac, key);
}

static CK_BYTE signature[32] = {
    0x5b, 0xdc, 0xc1, 0x46, 0xbf, 0x60, 0x75, 0x4e, 0x6a, 0x04, 0x24, 0x26, 0x08, 0x95, 0x75, 0xc7,
    0x5a, 0x00, 0x3f, 0x08, 0x9d, 0x27, 0x39, 0x83, 0x9d, 0xec, 0x58, 0xb9, 0x64, 0xec, 0x38, 0x43,
};

static CK_RV verify(struct result *result) {
    (void)result;
    return p11->C_Verify(session, hmac_message, sizeof hmac_message, signature, sizeof signature);
}

static CK_BYTE long_signature[32];

/* Signs the long message, and begins to verify that. */
static CK_RV begin_long_verify(struct result *result) {
    CK_RV code = sign_init(result);
    if (code == CKR_OK)
        code = sign_long(result);
    memcpy(long_signature, result->bytes, sizeof long_signature);
    return code == CKR_OK ? verify_init(result) : code;
}

static CK_RV verify_long(struct result *result) {
    (void)result;
    return p11->C_Verify(session, long_text, sizeof long_text, long_signature,
                         sizeof long_signature);
}

static CK_RV verify_update(struct result *result) {
    (void)result;
    return p11->C_VerifyUpdate(session, hmac_message, sizeof hmac_message);
}

static CK_RV verify_update_long(struct result *result) {
    (void)result;
    return p11->C_VerifyUpdate(session, long_text, sizeof long_text);
}

static CK_RV verify_final(struct result *result) {
    (void)result;
    return p11->C_VerifyFinal(session, signature, sizeof signature);
}

static CK_RV generate_random(struct result *result) {
    result->length = sizeof result->bytes;
    return p11->C_GenerateRandom(session, result->bytes, sizeof result->bytes);
}

/* Where there is memory, the answer is that there can be no seed. */
static CK_RV seed_random(struct result *result) {
    (void)result;
    CK_RV code = p11->C_SeedRandom(session, text, sizeof text);
    return code == CKR_RANDOM_SEED_NOT_SUPPORTED ? CKR_OK : code;
}

typedef CK_RV (*call)(struct result *result);

/* A call, and those that are made before it. */
struct growth {
    const char *name;
    call make;
    call before[2];
};

static const struct growth growths[] = {
    {"C_OpenSession", open_session, {NULL}},
    {"C_CloseSession", close_session, {NULL}},
    {"C_CloseAllSessions", close_all_sessions, {NULL}},
    {"C_InitToken", init_token, {close_all_sessions}},
    {"C_Login", log_in_user, {log_out}},
    {"C_Logout", log_out, {NULL}},
    {"C_InitPIN", init_pin, {log_out, log_in_officer}},
    {"C_SetPIN", set_pin, {NULL}},
    {"C_GetSessionInfo", get_session_info, {NULL}},
    {"C_GetTokenInfo", get_token_info, {NULL}},
    {"C_GetMechanismList", get_mechanism_list, {NULL}},
    {"C_SessionCancel", session_cancel, {digest_init}},
    {"C_CreateObject", create_object, {NULL}},
    {"C_CreateObject of many attributes", create_with_many, {NULL}},
    {"C_GenerateKey", generate_key, {NULL}},
    {"C_CopyObject", copy_object, {NULL}},
    {"C_GetAttributeValue", get_attribute_value, {NULL}},
    {"C_SetAttributeValue", set_attribute_value, {NULL}},
    {"C_SetKeyState", set_key_state, {NULL}},
    {"C_GetObjectSize", get_object_size, {NULL}},
    {"C_DestroyObject", destroy_object, {NULL}},
    {"C_FindObjectsInit", find_objects_init, {NULL}},
    {"C_FindObjects", find_objects, {find_objects_init}},
    {"C_FindObjectsFinal", find_objects_final, {find_objects_init}},
    {"C_DigestInit", digest_init, {NULL}},
    {"C_Digest", digest, {digest_init}},
    {"C_DigestUpdate", digest_update, {digest_init}},
    {"C_Digest of a long message", digest_long, {digest_init}},
    {"C_DigestUpdate of a long piece", digest_update_long, {digest_init}},
    {"C_DigestFinal", digest_final, {digest_init, digest_update}},
    {"C_SignInit", sign_init, {NULL}},
    {"C_Sign", sign, {sign_init}},
    {"C_SignUpdate", sign_update, {sign_init}},
    {"C_Sign of a long message", sign_long, {sign_init}},
    {"C_SignUpdate of a long piece", sign_update_long, {sign_init}},
    {"C_SignFinal", sign_final, {sign_init, sign_update}},
    {"C_VerifyInit", verify_init, {NULL}},
    {"C_Verify", verify, {verify_init}},
    {"C_Verify of a long message", verify_long, {begin_long_verify}},
    {"C_VerifyUpdate", verify_update, {verify_init}},
    {"C_VerifyUpdate of a long piece", verify_update_long, {verify_init}},
    {"C_VerifyFinal", verify_final, {verify_init, verify_update}},
    {"C_GenerateRandom", generate_random, {NULL}},
    {"C_SeedRandom", seed_random, {NULL}},
};

enum { GROWTHS = sizeof growths / sizeof *growths, MOST_GROWTHS = 1000 };

/* ---- The state that a refused call must leave */

struct state {
    CK_RV codes[3];
    struct result token, session, object;
};

static struct state read_state(void) {
    struct state state;
    memset(&state, 0, sizeof state);
    state.codes[0] = get_token_info(&state.token);
    state.codes[1] = get_session_info(&state.session);
    state.codes[2] = get_attribute_value(&state.object);
    return state;
}

static bool is_same_result(const struct result *made, const struct result *expected) {
    return made->number == expected->number && made->length == expected->length
        && memcmp(made->bytes, expected->bytes, sizeof made->bytes) == 0;
}

static bool is_same_state(const struct state *made, const struct state *expected) {
    return memcmp(made->codes, expected->codes, sizeof made->codes) == 0
        && is_same_result(&made->token, &expected->token)
        && is_same_result(&made->session, &expected->session)
        && is_same_result(&made->object, &expected->object);
}

/* ---- Growths of calls */

static bool has_journal;
static char journal[100] = "growths.cases";

/* C_Initialize and C_Finalize, between which all memory is given back. */
static long live_at_start;

static void begin_library(void) {
    live_at_start = live_allocations;
    EXPECT(CKR_OK, p11->C_Initialize(NULL));
}

static void end_library(void) {
    EXPECT(CKR_OK, p11->C_Finalize(NULL));
    check(live_allocations == live_at_start, "C_Finalize gives all memory back");
}

enum { MOST_ENTRIES = 2000 };

/* Makes calls until there is no memory for one, and answers how many there were. One of
 * C_GetSessionInfo goes a shorter way. */
static long fill_journal(void) {
    struct result ignored;
    long count = 0;
    while (count < MOST_ENTRIES && get_token_info(&ignored) == CKR_OK)
        count++;
    while (count < MOST_ENTRIES && get_session_info(&ignored) == CKR_OK)
        count++;
    return count;
}

/* Takes all room in the token's journal, and answers for how many calls there was some. */
static long take_room(void) {
    refuses_all = true;
    refuse_after(0);
    long room = fill_journal();
    stop_refusing();
    refuses_all = false;
    CHECK(room > 1 && room < MOST_ENTRIES);
    return room;
}

/* A new token with two sessions, an object and a key, and the calls before the tried one. The
 * journal then has no room for the tried one, so that each call has to take memory. */
static void begin(const struct growth *growth) {
    struct result ignored;
    unlink(journal);
    begin_library();
    session = log_in();
    EXPECT(CKR_OK, p11->C_OpenSession(0, read_write, NULL, NULL, &other_session));
    object = create_data(session, "label");
    key = create_key(session, "Jefe");
    for (int i = 0; i < 2 && growth->before[i] != NULL; i++)
        check_code(growth->before[i](&ignored), CKR_OK, growth->name);
    take_room();
}

/* Makes a call whose allocation is refused. Where there is none, answers false. By lines a call is
 * answered although there was no memory for the text of its reply. */
static bool try_growth(const struct growth *growth, long number, const struct state *state,
                       const struct result *expected) {
    struct result result;
    memset(&result, 0, sizeof result);
    begin(growth);
    refuse_after(number);
    CK_RV code = growth->make(&result);
    bool was_refused = stop_refusing();
    if (was_refused && !(has_journal && code == CKR_OK)) {
        check_code(code, CKR_HOST_MEMORY, growth->name);
        struct state now = read_state();
        check(is_same_state(&now, state), growth->name);
        memset(&result, 0, sizeof result);
        code = growth->make(&result);
    }
    check_code(code, CKR_OK, growth->name);
    check(is_same_result(&result, expected), growth->name);
    end_library();
    return was_refused;
}

/* The file that is left can be gone on from. */
static void check_journal(void) {
    unsetenv("OSPREYRACK_JOURNAL");
    setenv("OSPREYRACK_TOKEN", journal, 1);
    begin_library();
    end_library();
    unsetenv("OSPREYRACK_TOKEN");
    setenv("OSPREYRACK_JOURNAL", journal, 1);
}

static void check_growths(const struct growth *growth) {
    struct result expected;
    memset(&expected, 0, sizeof expected);
    begin(growth);
    struct state state = read_state();
    check_code(growth->make(&expected), CKR_OK, growth->name);
    end_library();
    long number = 0;
    while (number < MOST_GROWTHS && try_growth(growth, number, &state, &expected)) {
        if (has_journal)
            check_journal();
        number++;
    }
    check(number > 0 && number < MOST_GROWTHS, growth->name);
}

static void test_typed(void) {
    has_journal = false;
    for (size_t i = 0; i < GROWTHS; i++)
        check_growths(&growths[i]);
}

static void test_by_lines(void) {
    has_journal = true;
    setenv("OSPREYRACK_JOURNAL", journal, 1);
    for (size_t i = 0; i < GROWTHS; i++)
        check_growths(&growths[i]);
    unsetenv("OSPREYRACK_JOURNAL");
}

/* What a call adds to the journal file is written when it is answered, and at once. */
static void check_line(const struct growth *growth) {
    struct result result;
    memset(&result, 0, sizeof result);
    begin(growth);
    off_t length = length_of(journal);
    writes = 0;
    check_code(growth->make(&result), CKR_OK, growth->name);
    check(writes == 1 && length_of(journal) > length, growth->name);
    end_library();
}

static void test_lines(void) {
    setenv("OSPREYRACK_JOURNAL", journal, 1);
    for (size_t i = 0; i < GROWTHS; i++)
        check_line(&growths[i]);
    unsetenv("OSPREYRACK_JOURNAL");
}

/* ---- The ends of lines */

static bool has_line_end(const char *path) {
    FILE *file = fopen(path, "r");
    if (file == NULL || fseek(file, -1, SEEK_END) != 0)
        exit(2);
    bool is_end = fgetc(file) == '\n';
    fclose(file);
    return is_end;
}

/* Opens the library anew, and this many sessions. */
static void begin_sessions(int count) {
    unlink(journal);
    begin_library();
    EXPECT(CKR_OK, p11->C_InitToken(0, so_pin, sizeof so_pin, token_label));
    for (int i = 0; i < count; i++)
        EXPECT(CKR_OK, p11->C_OpenSession(0, read_write, NULL, NULL, &session));
}

/* From each allocation of C_Digest on, all are refused. An operation that is still active is begun
 * before. */
static void check_line_end(CK_ULONG count) {
    struct result result, ignored;
    bool was_refused;
    size_t wrong = 0;
    long number = 0;
    do {
        digest_init(&ignored);
        result.length = sizeof result.bytes;
        refuses_all = true;
        refuse_after(number++);
        p11->C_Digest(session, text, count, result.bytes, &result.length);
        was_refused = stop_refusing();
        refuses_all = false;
        wrong += !has_line_end(journal);
    } while (was_refused && number < MOST_GROWTHS);
    CHECK(wrong == 0 && number > 1 && number < MOST_GROWTHS);
}

/* Lines of all lengths: one of them fills the room that the text of the file has, with its reply or
 * without. */
static void test_line_ends(void) {
    setenv("OSPREYRACK_JOURNAL", journal, 1);
    for (CK_ULONG count = 0; count <= 400; count++) {
        for (int sessions = 1; sessions <= 10; sessions += 9) {
            begin_sessions(sessions);
            check_line_end(count);
            end_library();
        }
    }
    unsetenv("OSPREYRACK_JOURNAL");
}

/* Lines with a blank, and with a comma, behind a value of this length. */
static CK_RV verify_nothing(CK_ULONG length) {
    CK_RV code = p11->C_Verify(session, text, length, text, 3);
    return code == CKR_OPERATION_NOT_INITIALIZED ? CKR_OK : code;
}

static CK_RV find_two_attributes(CK_ULONG length) {
    CK_ATTRIBUTE template[] = {{CKA_LABEL, text, length}, {CKA_APPLICATION, text, 3}};
    CK_RV code = p11->C_FindObjectsInit(session, template, 2);
    stop_refusing();
    if (code == CKR_OK)
        EXPECT(CKR_OK, p11->C_FindObjectsFinal(session));
    return code;
}

/* A call whose line is longer than the room for lines is refused, whatever of the line comes behind
 * that. The room stays as it is, since the first allocation of each call is refused. */
static void check_line_room(CK_RV (*make)(CK_ULONG length), int sessions) {
    enum { LONGEST = 150 };
    CK_RV code = CKR_OK;
    size_t wrong = 0;
    begin_sessions(sessions);
    for (CK_ULONG length = 0; length <= LONGEST; length++) {
        refuse_after(0);
        code = make(length);
        bool was_refused = stop_refusing();
        wrong += code != CKR_OK && !(was_refused && code == CKR_HOST_MEMORY);
    }
    CHECK(wrong == 0);
    check_code(code, CKR_HOST_MEMORY, "a line that is longer than the room");
    end_library();
}

/* A byte of the value has two digits: so in sessions of one digit or of two the room ends in front
 * of the blank, and of the comma. */
static void test_line_room(void) {
    setenv("OSPREYRACK_JOURNAL", journal, 1);
    for (int sessions = 1; sessions <= 10; sessions += 9) {
        check_line_room(verify_nothing, sessions);
        check_line_room(find_two_attributes, sessions);
    }
    unsetenv("OSPREYRACK_JOURNAL");
}

/* ---- Updates that the module makes in pieces
 *
 * The application's function for the lock does what other threads do that have the lock before:
 * where there is no memory any more, they take all room in the token's journal that they get, and
 * one of them makes such an update, too. */

enum { PIECE = 1 << 20 };

static CK_BYTE large[2 * PIECE + 5];

/* An operation whose message comes by updates. It is finished by a digest or a signature: one that
 * is made, or where the operation verifies, one that is given. */
struct operation {
    const char *what;
    CK_RV (*begin)(CK_SESSION_HANDLE in);
    CK_RV (*update)(CK_SESSION_HANDLE in, CK_BYTE *part, CK_ULONG length);
    CK_RV (*finish)(CK_SESSION_HANDLE in, CK_BYTE *with);
};

enum { RESULT = 64 };

static CK_MECHANISM long_hmac = {CKM_SHA512_HMAC, NULL, 0};

static CK_RV begin_digest(CK_SESSION_HANDLE in) {
    return p11->C_DigestInit(in, &sha512);
}

static CK_RV update_digest(CK_SESSION_HANDLE in, CK_BYTE *part, CK_ULONG length) {
    return p11->C_DigestUpdate(in, part, length);
}

static CK_RV finish_digest(CK_SESSION_HANDLE in, CK_BYTE *with) {
    CK_ULONG room = RESULT;
    memset(with, 0, RESULT);
    return p11->C_DigestFinal(in, with, &room);
}

static CK_RV begin_signing(CK_SESSION_HANDLE in) {
    return p11->C_SignInit(in, &long_hmac, key);
}

static CK_RV update_signing(CK_SESSION_HANDLE in, CK_BYTE *part, CK_ULONG length) {
    return p11->C_SignUpdate(in, part, length);
}

static CK_RV finish_signing(CK_SESSION_HANDLE in, CK_BYTE *with) {
    CK_ULONG room = RESULT;
    memset(with, 0, RESULT);
    return p11->C_SignFinal(in, with, &room);
}

static CK_RV begin_verifying(CK_SESSION_HANDLE in) {
    return p11->C_VerifyInit(in, &long_hmac, key);
}

static CK_RV update_verifying(CK_SESSION_HANDLE in, CK_BYTE *part, CK_ULONG length) {
    return p11->C_VerifyUpdate(in, part, length);
}

static CK_RV finish_verifying(CK_SESSION_HANDLE in, CK_BYTE *with) {
    return p11->C_VerifyFinal(in, with, RESULT);
}

static const struct operation digesting = {
    "digesting", begin_digest, update_digest, finish_digest,
};
static const struct operation signing = {
    "signing", begin_signing, update_signing, finish_signing,
};
static const struct operation verifying = {
    "verifying", begin_verifying, update_verifying, finish_verifying,
};

static const struct operation *operation;

/* What is tried, besides that an allocation is refused. */
struct trial {
    const char *what;
    bool refuses_all;      /* all later allocations are refused, too */
    bool is_nearly_full;   /* the token's journal has room for one entry */
    bool has_other_calls;  /* other threads take the room in the journal */
    bool has_other_update; /* another thread makes an update between the pieces of the tried one */
};

static const struct trial trials[] = {
    {"one allocation is refused", false, false, false, false},
    {"all are, and the journal is nearly full", true, true, false, false},
    {"all are, and others take the journal's room", true, false, true, false},
    {"all are, and others take the room and make an update", true, false, true, true},
};

enum { TRIALS = sizeof trials / sizeof *trials };

static const struct trial *trial;

/* At the last of this many locks another thread makes an update. */
static int locks_until_other;
static CK_RV other_code;

static CK_RV lock_mutex(CK_VOID_PTR mutex) {
    static bool is_filling;
    (void)mutex;
    if (is_filling)
        return CKR_OK;
    if (trial != NULL && trial->has_other_calls && is_refused) {
        is_filling = true;
        fill_journal();
        is_filling = false;
    }
    if (locks_until_other > 0 && --locks_until_other == 0)
        other_code = operation->update(other_session, large, PIECE + 5);
    return CKR_OK;
}

static CK_RV create_mutex(CK_VOID_PTR_PTR mutex) {
    *mutex = large;
    return CKR_OK;
}

static CK_RV leave_mutex(CK_VOID_PTR mutex) {
    (void)mutex;
    return CKR_OK;
}

/* Begins a message with "abc". */
static void begin_message(CK_SESSION_HANDLE in) {
    static CK_BYTE abc[] = {'a', 'b', 'c'};
    EXPECT(CKR_OK, operation->begin(in));
    EXPECT(CKR_OK, operation->update(in, abc, sizeof abc));
}

/* A new token with two messages that have begun. */
static void begin_messages(void) {
    CK_C_INITIALIZE_ARGS mutexes = {
        .CreateMutex = create_mutex,
        .DestroyMutex = leave_mutex,
        .LockMutex = lock_mutex,
        .UnlockMutex = leave_mutex,
    };
    unlink(journal);
    live_at_start = live_allocations;
    EXPECT(CKR_OK, p11->C_Initialize(&mutexes));
    session = log_in();
    EXPECT(CKR_OK, p11->C_OpenSession(0, read_write, NULL, NULL, &other_session));
    key = create_key(session, "Jefe");
    begin_message(session);
    begin_message(other_session);
}

/* For how many calls the token's journal has room then. */
static long room_at_begin(void) {
    begin_messages();
    long room = take_room();
    end_library();
    return room;
}

/* The digest or signature of "abc" and of bytes behind it, each piece of which is a call of its
 * own. */
static void find_result(CK_BYTE *result, CK_ULONG count) {
    begin_messages();
    for (CK_ULONG at = 0; at < count; at += PIECE)
        EXPECT(CKR_OK, operation->update(session, large + at,
                                         count - at < PIECE ? count - at : PIECE));
    EXPECT(CKR_OK, operation->finish(session, result));
    end_library();
}

static CK_BYTE result_of_large[RESULT], result_of_other[RESULT], result_of_abc[RESULT];
static long room_for_calls;

/* What is to be verified is signed before. */
static void prepare_trials(const struct operation *tried) {
    trial = NULL;
    for (size_t i = 0; i < sizeof large; i++)
        large[i] = (CK_BYTE)(i % 251);
    operation = tried == &verifying ? &signing : tried;
    find_result(result_of_large, sizeof large);
    find_result(result_of_other, PIECE + 5);
    find_result(result_of_abc, 0);
    operation = tried;
    room_for_calls = room_at_begin();
}

/* What has come of an update. */
enum outcome { AS_IT_WAS, ENDED, DONE, OUTCOMES };

/* An update without memory leaves the message as it was where no piece was taken. Else it has ended
 * the operation, since there would be a hole in the message. */
static enum outcome outcome_of(CK_SESSION_HANDLE in, CK_RV code, const CK_BYTE *result) {
    const CK_BYTE *expected = code == CKR_OK ? result : result_of_abc;
    CK_BYTE with[RESULT];
    memcpy(with, expected, sizeof with);
    CK_RV final_code = operation->finish(in, with);
    if (code != CKR_OK)
        check_code(code, CKR_HOST_MEMORY, "an update in pieces");
    if (code != CKR_OK && final_code == CKR_OPERATION_NOT_INITIALIZED)
        return ENDED;
    check_code(final_code, CKR_OK, operation->what);
    check(memcmp(with, expected, sizeof with) == 0, "the message has all pieces, or none");
    return code == CKR_OK ? DONE : AS_IT_WAS;
}

/* The journal in memory is cut again, once no update is under way. */
static void check_cut(long live_before) {
    struct result ignored;
    EXPECT(CKR_OK, p11->C_CloseAllSessions(0));
    for (int i = 0; i < MOST_ENTRIES; i++)
        EXPECT(CKR_OK, get_token_info(&ignored));
    check(live_allocations <= live_before, "the journal is cut");
}

/* Answers whether anything was refused. The lock is taken three times for a long piece, and by
 * lines twice, so at the fourth lock the first piece is taken and the second one isn't. */
static bool try_pieces(long number, enum outcome *tried, enum outcome *other) {
    struct result ignored;
    begin_messages();
    long live_before = live_allocations;
    for (long i = 1; trial->is_nearly_full && i < room_for_calls; i++)
        EXPECT(CKR_OK, get_token_info(&ignored));
    locks_until_other = trial->has_other_update ? 4 : 0;
    other_code = CKR_HOST_MEMORY;
    refuses_all = trial->refuses_all;
    refuse_after(number);
    CK_RV code = operation->update(session, large, sizeof large);
    bool was_refused = stop_refusing();
    refuses_all = false;
    locks_until_other = 0;
    is_refused = false;
    *tried = outcome_of(session, code, result_of_large);
    *other = outcome_of(other_session, other_code, result_of_other);
    check_cut(live_before);
    end_library();
    return was_refused;
}

/* The later the refusal, the more was done before it. */
static void run_trial(void) {
    size_t counts[OUTCOMES] = {0}, other_counts[OUTCOMES] = {0};
    enum outcome last = AS_IT_WAS, tried, other;
    long number = 0;
    bool was_refused;
    do {
        was_refused = try_pieces(number, &tried, &other);
        check(!trial->refuses_all || tried >= last, trial->what);
        check(trial->has_other_update || other == AS_IT_WAS, trial->what);
        if (has_journal)
            check_journal();
        counts[tried]++;
        other_counts[other]++;
        last = tried;
        number++;
    } while (was_refused && number < MOST_GROWTHS);
    check(number < MOST_GROWTHS, trial->what);
    check(counts[AS_IT_WAS] > 0 && counts[ENDED] > 0 && counts[DONE] > 0, trial->what);
    check(!trial->has_other_update || other_counts[ENDED] > 0, trial->what);
}

static void run_trials(const struct operation *tried) {
    prepare_trials(tried);
    for (size_t i = 0; i < TRIALS; i++) {
        trial = &trials[i];
        run_trial();
    }
    trial = NULL;
}

static void run_trials_typed(const struct operation *tried) {
    has_journal = false;
    run_trials(tried);
}

static void run_trials_by_lines(const struct operation *tried) {
    has_journal = true;
    setenv("OSPREYRACK_JOURNAL", journal, 1);
    run_trials(tried);
    unsetenv("OSPREYRACK_JOURNAL");
}

static void test_digest_pieces(void) {
    run_trials_typed(&digesting);
    CHECK(is_hexadecimal(result_of_abc, RESULT, sha512_of_abc));
}

static void test_digest_pieces_by_lines(void) {
    run_trials_by_lines(&digesting);
}

static void test_sign_pieces(void) {
    run_trials_typed(&signing);
}

static void test_sign_pieces_by_lines(void) {
    run_trials_by_lines(&signing);
}

static void test_verify_pieces(void) {
    run_trials_typed(&verifying);
}

static void test_verify_pieces_by_lines(void) {
    run_trials_by_lines(&verifying);
}

/* A session whose handle has three digits, where all lines before are short. */
static void begin_longer_handle(void) {
    begin_sessions(1);
    for (int i = 1; i < 100; i++) {
        EXPECT(CKR_OK, p11->C_CloseSession(session));
        EXPECT(CKR_OK, p11->C_OpenSession(0, read_write, NULL, NULL, &session));
    }
    CHECK(session == 100);
    EXPECT(CKR_OK, begin_digest(session));
}

/* An operation, and behind its start a call with a long line. */
static void begin_with_long_line(void) {
    static CK_BYTE value[PIECE];
    CK_ATTRIBUTE label = {CKA_LABEL, value, sizeof value};
    begin_sessions(1);
    EXPECT(CKR_OK, begin_digest(session));
    EXPECT(CKR_OBJECT_HANDLE_INVALID, p11->C_SetAttributeValue(session, 1, &label, 1));
}

/* Where the second piece finds no memory, there is room all the same for the line by which the
 * operation ends: the token goes on. */
static void check_ended_updates(void (*prepare)(void)) {
    struct result result;
    size_t ended = 0;
    long number = 0;
    bool was_refused = true;
    setenv("OSPREYRACK_JOURNAL", journal, 1);
    for (; was_refused && number < MOST_GROWTHS; number++) {
        prepare();
        refuses_all = true;
        refuse_after(number);
        CK_RV code = p11->C_DigestUpdate(session, large, sizeof large);
        was_refused = stop_refusing();
        refuses_all = false;
        check_code(code, was_refused ? CKR_HOST_MEMORY : CKR_OK, "C_DigestUpdate");
        CK_RV final_code = digest_final(&result);
        bool has_ended = code != CKR_OK && final_code == CKR_OPERATION_NOT_INITIALIZED;
        check_code(final_code, has_ended ? CKR_OPERATION_NOT_INITIALIZED : CKR_OK, "C_DigestFinal");
        ended += has_ended;
        end_library();
    }
    CHECK(ended > 0 && number < MOST_GROWTHS);
    unsetenv("OSPREYRACK_JOURNAL");
}

/* The line that ends the operation is longer than those before. */
static void test_longer_handle(void) {
    check_ended_updates(begin_longer_handle);
}

/* The room for lines that a long one has taken stays. */
static void test_long_line_before(void) {
    check_ended_updates(begin_with_long_line);
}

/* Updates of one and of two whole pieces: no piece is empty, and the journal in memory is cut again
 * behind the last one. Each piece is one line. */
static void check_whole_pieces(void) {
    for (CK_ULONG count = 1; count <= 2; count++) {
        CK_BYTE with[RESULT];
        begin_messages();
        long live_before = live_allocations;
        writes = 0;
        EXPECT(CKR_OK, operation->update(session, large, count * PIECE));
        CHECK(writes == (has_journal ? count : 0));
        EXPECT(CKR_OK, operation->finish(session, with));
        check_cut(live_before);
        end_library();
    }
}

static void test_whole_pieces(void) {
    trial = NULL;
    operation = &digesting;
    has_journal = false;
    check_whole_pieces();
    has_journal = true;
    setenv("OSPREYRACK_JOURNAL", journal, 1);
    check_whole_pieces();
    unsetenv("OSPREYRACK_JOURNAL");
}

/* ---- What is done while the lock is free */

static CK_RV note_lock(CK_VOID_PTR mutex) {
    (void)mutex;
    is_locked = true;
    return CKR_OK;
}

static CK_RV note_unlock(CK_VOID_PTR mutex) {
    (void)mutex;
    is_locked = false;
    return CKR_OK;
}

static void begin_with_notes(void) {
    CK_C_INITIALIZE_ARGS mutexes = {
        .CreateMutex = create_mutex,
        .DestroyMutex = leave_mutex,
        .LockMutex = note_lock,
        .UnlockMutex = note_unlock,
    };
    EXPECT(CKR_OK, p11->C_Initialize(&mutexes));
    session = log_in();
    key = create_key(session, "Jefe");
}

/* The system may be long about its bytes. */
static void test_random_without_lock(void) {
    struct result result;
    unsetenv("OSPREYRACK_SEED");
    begin_with_notes();
    setenv("OSPREYRACK_SEED", "1", 1);
    draws = draws_under_lock = 0;
    EXPECT(CKR_OK, generate_random(&result));
    CHECK(draws > 0 && draws_under_lock == 0);
    EXPECT(CKR_OK, p11->C_Finalize(NULL));
}

static const struct growth long_calls[] = {
    {"C_Digest", digest_long, {digest_init}},
    {"C_DigestUpdate", digest_update_long, {digest_init}},
    {"C_Sign", sign_long, {sign_init}},
    {"C_SignUpdate", sign_update_long, {sign_init}},
    {"C_Verify", verify_long, {begin_long_verify}},
    {"C_VerifyUpdate", verify_update_long, {verify_init}},
};

/* Under the lock the call with a long message needs no memory of the message's length. */
static void check_copies(void) {
    struct result result;
    for (size_t i = 0; i < sizeof long_calls / sizeof *long_calls; i++) {
        unlink(journal);
        begin_with_notes();
        check_code(long_calls[i].before[0](&result), CKR_OK, long_calls[i].name);
        largest_under_lock = 0;
        check_code(long_calls[i].make(&result), CKR_OK, long_calls[i].name);
        check(largest_under_lock < sizeof long_text, long_calls[i].name);
        EXPECT(CKR_OK, p11->C_Finalize(NULL));
    }
}

static void test_copies_without_lock(void) {
    check_copies();
}

static const char script[] = "growths.script";

/* A script with a line so long that the file's text has room for those of the calls. */
static void write_long_line(void) {
    static char digits[4 * sizeof long_text + 1];
    memset(digits, '6', sizeof digits - 1);
    write_file(script, "1 DigestUpdate 1 ", "w");
    write_file(script, digits, "a");
    write_file(script, " -> b3\n", "a");
}

static void test_lines_without_lock(void) {
    write_long_line();
    setenv("OSPREYRACK_SCRIPT", script, 1);
    setenv("OSPREYRACK_JOURNAL", journal, 1);
    check_copies();
    unsetenv("OSPREYRACK_SCRIPT");
    unsetenv("OSPREYRACK_JOURNAL");
}

/* ---- Random bytes of a seed */

/* The first ones behind this call, which finds no memory where that is said. */
static struct result drawn_behind(call before, bool lacks_memory) {
    struct result drawn, ignored;
    memset(&drawn, 0, sizeof drawn);
    begin_library();
    session = log_in();
    refuse_after(lacks_memory ? 0 : -1);
    CK_RV code = before(&ignored);
    CHECK(stop_refusing() == lacks_memory);
    EXPECT(lacks_memory ? CKR_HOST_MEMORY : CKR_OK, code);
    EXPECT(CKR_OK, generate_random(&drawn));
    end_library();
    return drawn;
}

/* A key that finds no memory takes its bytes, too. */
static void test_seed_without_memory(void) {
    struct result first = drawn_behind(get_session_info, false);
    struct result behind_key = drawn_behind(generate_key, false);
    struct result behind_refused = drawn_behind(generate_key, true);
    CHECK(is_same_result(&behind_refused, &behind_key));
    CHECK(!is_same_result(&first, &behind_key));
}

/* ---- A search that the module makes in pieces */

enum { OBJECTS = 1500, FIRST_HANDLES = 1000 };

static CK_OBJECT_HANDLE handles[OBJECTS];

/* Where the second piece finds no memory, the handles of the first are given all the same. The next
 * call finds those that weren't given. Answers whether an allocation was refused. */
static bool try_search(long number, CK_ULONG *found) {
    CK_ULONG left = 0;
    size_t wrong = 0;
    *found = 0;
    memset(handles, 0, sizeof handles);
    EXPECT(CKR_OK, p11->C_FindObjectsInit(session, NULL, 0));
    refuse_after(number);
    CK_RV code = p11->C_FindObjects(session, handles, OBJECTS, found);
    bool was_refused = stop_refusing();
    check_code(code, *found > 0 ? CKR_OK : CKR_HOST_MEMORY, "C_FindObjects");
    CHECK(*found == 0 || *found == FIRST_HANDLES || *found == OBJECTS);
    EXPECT(CKR_OK, p11->C_FindObjects(session, handles + *found, OBJECTS - *found, &left));
    CHECK(*found + left == OBJECTS);
    for (size_t i = 0; i < OBJECTS; i++)
        wrong += handles[i] != i + 1;
    CHECK(wrong == 0);
    EXPECT(CKR_OK, p11->C_FindObjectsFinal(session));
    return was_refused;
}

static void run_searches(void) {
    size_t nothing = 0, first = 0;
    long number = 0;
    CK_ULONG found;
    unlink(journal);
    begin_library();
    session = log_in();
    for (int i = 0; i < OBJECTS; i++)
        create_data(session, "label");
    while (number < MOST_GROWTHS && try_search(number, &found)) {
        nothing += found == 0;
        first += found == FIRST_HANDLES;
        number++;
    }
    CHECK(number < MOST_GROWTHS && found == OBJECTS);
    CHECK(nothing > 0 && first > 0);
    end_library();
}

static void test_searches(void) {
    run_searches();
}

static void test_searches_by_lines(void) {
    setenv("OSPREYRACK_JOURNAL", journal, 1);
    run_searches();
    unsetenv("OSPREYRACK_JOURNAL");
}

/* ---- Templates and queries of many attributes */

enum { ATTRIBUTES = 200000, LONG_TEMPLATE = 1 << 20 };

static CK_ATTRIBUTE attributes[ATTRIBUTES];

/* The journal in memory is then cut, since no session is open. */
static void get_many_token_infos(void) {
    struct result ignored;
    for (int i = 0; i < MOST_ENTRIES; i++)
        EXPECT(CKR_OK, get_token_info(&ignored));
}

/* What the call took is given back with the journal that has it. */
static void check_long_template(CK_RV code, long live_before) {
    check_code(code, CKR_SESSION_HANDLE_INVALID, "a call with a long template");
    check(live_bytes - live_before > LONG_TEMPLATE, "the journal has the template");
    get_many_token_infos();
    check(live_bytes - live_before < LONG_TEMPLATE, "what the template took is given back");
}

static void fill_attributes(void) {
    for (int i = 0; i < ATTRIBUTES; i++)
        attributes[i] = (CK_ATTRIBUTE){CKA_PRIVATE, &no, sizeof no};
}

static void test_many_attributes(void) {
    fill_attributes();
    begin_library();
    get_many_token_infos();
    long live_before = live_bytes;
    check_long_template(p11->C_FindObjectsInit(1, attributes, ATTRIBUTES), live_before);
    check_long_template(p11->C_CreateObject(1, attributes, ATTRIBUTES, &object), live_before);
    check_long_template(p11->C_GetAttributeValue(1, 1, attributes, ATTRIBUTES), live_before);
    end_library();
}

/* The list of values is longer here than that of attributes. */
static void test_long_value(void) {
    static CK_BYTE value[LONG_TEMPLATE + LONG_TEMPLATE / 2];
    CK_ATTRIBUTE label = {CKA_LABEL, value, sizeof value};
    begin_library();
    get_many_token_infos();
    long live_before = live_bytes;
    check_long_template(p11->C_FindObjectsInit(1, &label, 1), live_before);
    check_long_template(p11->C_CreateObject(1, &label, 1, &object), live_before);
    end_library();
}

/* A list grows in few steps, however long it is. */
static void test_steps_of_growth(void) {
    enum { MOST_STEPS = 100 };
    fill_attributes();
    begin_library();
    allocations_made = 0;
    EXPECT(CKR_SESSION_HANDLE_INVALID, p11->C_GetAttributeValue(1, 1, attributes, ATTRIBUTES));
    CHECK(allocations_made < MOST_STEPS);
    end_library();
}

/* The room for the line of a call stays, and is at most twice as long as the line. What the journal
 * in memory takes up to its next cut is less than MORE. */
static void test_room_for_line(void) {
    enum { LINE = 2 * LONG_TEMPLATE, MORE = 1 << 19 };
    static CK_BYTE value[LONG_TEMPLATE];
    CK_ATTRIBUTE label = {CKA_LABEL, value, sizeof value};
    begin_library();
    get_many_token_infos();
    long live_before = live_bytes;
    EXPECT(CKR_SESSION_HANDLE_INVALID, p11->C_SetAttributeValue(1, 1, &label, 1));
    get_many_token_infos();
    long room = live_bytes - live_before;
    CHECK(room > LINE && room < 2 * LINE + MORE);
    end_library();
}

/* At the thousandth entry the journal in memory is cut, and not before. */
static void test_thousandth_entry(void) {
    struct result ignored;
    begin_library();
    for (int i = 1; i < 1000; i++)
        EXPECT(CKR_OK, get_token_info(&ignored));
    long live_before = live_bytes;
    EXPECT(CKR_OK, get_token_info(&ignored));
    check(live_before - live_bytes > 100000, "the thousandth entry cuts the journal");
    end_library();
}

/* ---- A thread's first call */

static void *call_without_memory(void *ignored) {
    struct result result;
    refuse_after(0);
    CK_RV code = get_token_info(&result);
    stop_refusing();
    check(code == CKR_OK || code == CKR_HOST_MEMORY, "C_GetTokenInfo");
    EXPECT(CKR_OK, get_token_info(&result));
    return ignored;
}

/* What the module keeps for each thread must not need memory: without it the C library would end
 * the process. */
static void test_first_call(void) {
    pthread_t thread;
    begin_token();
    if (pthread_create(&thread, NULL, call_without_memory, NULL) != 0)
        exit(2);
    pthread_join(thread, NULL);
    end_token();
}

/* ---- Children, which may die */

/* The status of a child that does this, or a negative number where a signal ends it. */
static int status_of_child(void (*act)(void)) {
    int status = -1;
    fflush(NULL);
    pid_t child = fork();
    if (child == 0) {
        act();
        _exit(0);
    }
    waitpid(child, &status, 0);
    return WIFEXITED(status) ? WEXITSTATUS(status) : -1;
}

/* ---- A small stack */

/* The thread has used some of its stack. */
static void *initialize_with_errors(void *ignored) {
    volatile CK_BYTE own[2048] = {1};
    CK_RV code = p11->C_Initialize(NULL);
    _exit(code == CKR_GENERAL_ERROR ? 0 : own[0]);
    return ignored;
}

/* How large the stack of a child's thread is, and what the thread does. */
static size_t stack_size;
static void *(*run_on_stack)(void *);

static void run_on_small_stack(void) {
    pthread_attr_t attributes_of_thread;
    pthread_t thread;
    pthread_attr_init(&attributes_of_thread);
    pthread_attr_setstacksize(&attributes_of_thread, stack_size);
    if (pthread_create(&thread, &attributes_of_thread, run_on_stack, NULL) != 0)
        _exit(2);
    pthread_join(thread, NULL);
    _exit(3);
}

/* The status of a child whose thread ends it. */
static int status_on_stack(size_t size, void *(*run)(void *)) {
    stack_size = size;
    run_on_stack = run;
    return status_of_child(run_on_small_stack);
}

/* A bad reply in a file, and a bad line in a script. */
static void test_small_stack(void) {
    write_file(journal, "1 InitToken 31323334 -> 0\n1 OpenSession 6 -> 0 2\n", "w");
    setenv("OSPREYRACK_TOKEN", journal, 1);
    CHECK(status_on_stack((size_t)PTHREAD_STACK_MIN, initialize_with_errors) == 0);
    unsetenv("OSPREYRACK_TOKEN");
    setenv("OSPREYRACK_SCRIPT", journal, 1);
    CHECK(status_on_stack((size_t)PTHREAD_STACK_MIN, initialize_with_errors) == 0);
    unsetenv("OSPREYRACK_SCRIPT");
}

/* Twice as much as the system gives at least, which is enough, too. */
enum { SMALL_STACK = 32 << 10 };

static void *make_each_call(void *ignored) {
    for (size_t i = 0; i < GROWTHS; i++) {
        struct result result;
        begin(&growths[i]);
        if (growths[i].make(&result) != CKR_OK)
            _exit(1);
        end_library();
    }
    _exit(0);
    return ignored;
}

/* A call of each kind, with all that is made before it. */
static void test_calls_on_small_stack(void) {
    check(status_on_stack(SMALL_STACK, make_each_call) == 0, "calls on a small stack, typed");
    setenv("OSPREYRACK_JOURNAL", journal, 1);
    check(status_on_stack(SMALL_STACK, make_each_call) == 0, "calls on a small stack, by lines");
    unsetenv("OSPREYRACK_JOURNAL");
}

/* ---- Lines on standard error */

/* What the module writes to standard error goes to a file until `read_errors`. */
static const char errors[] = "errors";
static int hidden_errors = -1;

static void keep_errors(void) {
    int file = open(errors, O_WRONLY | O_CREAT | O_TRUNC, 0600);
    hidden_errors = dup(STDERR_FILENO);
    if (file < 0 || hidden_errors < 0 || dup2(file, STDERR_FILENO) < 0)
        exit(2);
    close(file);
}

static void read_errors(char *said, size_t room) {
    dup2(hidden_errors, STDERR_FILENO);
    close(hidden_errors);
    FILE *file = fopen(errors, "r");
    if (file == NULL)
        exit(2);
    said[fread(said, 1, room - 1, file)] = '\0';
    fclose(file);
}

/* ---- Growths of C_Initialize */

static const char kept[] = "kept.cases";

static const char label_of_script[] = "a label                         ";

static const char label_line[] =
    "# label 61206c6162656c20202020202020202020202020202020202020202020202020\n";

/* The label stands there so often that the journal's text takes memory for it. */
static void write_script(void) {
    enum { LABELS = 8 };
    write_file(script, "", "w");
    for (int i = 0; i < LABELS; i++)
        write_file(script, label_line, "a");
    write_file(script, "1 InitToken 31323334\n1 OpenSession 6\n"
               "1 CreateObject 1 0=0000000000000000,1=01,2=00,3=6c6162656c -> 0 1\n", "a");
}

/* The token of the script: it is initialized, has its label and one object, and no session is
 * open. */
static void check_token(void) {
    CK_OBJECT_HANDLE found[2] = {0};
    CK_ULONG count = 0;
    CK_TOKEN_INFO info;
    EXPECT(CKR_OK, p11->C_GetTokenInfo(0, &info));
    CHECK(memcmp(info.label, label_of_script, sizeof info.label) == 0);
    CHECK(info.ulSessionCount == 0);
    EXPECT(CKR_OK, p11->C_OpenSession(0, CKF_SERIAL_SESSION, NULL, NULL, &session));
    EXPECT(CKR_OK, p11->C_FindObjectsInit(session, NULL, 0));
    EXPECT(CKR_OK, p11->C_FindObjects(session, found, 2, &count));
    CHECK(count == 1 && found[0] == 1);
    EXPECT(CKR_OK, p11->C_CloseSession(session));
}

static void begin_without_file(void) {
    unlink(journal);
}

/* The file has the script's calls, and is a new copy each time. */
static void begin_with_file(void) {
    char command[300];
    snprintf(command, sizeof command, "cp '%s' '%s'", kept, journal);
    if (system(command) != 0)
        exit(2);
}

/* What the line on standard error ends with, by what there is no memory for. */
static const char *const lacks[] = {
    "there is no memory for the name\n", "there is no memory for the journal\n",
    "there is no memory to read the file\n", "there is no memory for the line\n",
    "there is no memory for the label\n", "there is no memory for the call\n",
    "there is no memory for the reply\n", "there is no memory for the last call\n",
};

/* The first of these are of the file's name and of its text, and the others of lines that are
 * read. */
enum { LACKS = sizeof lacks / sizeof *lacks, LACKS_OF_FILE = 2 };

static bool is_told[LACKS];

/* The variables that name the file and what is read. */
static const char *variable_of_file, *variable_of_lines;

/* It is one line, and names the variable of what lacks memory. */
static void check_told(const char *said) {
    const char *variable = NULL;
    char start[100];
    for (size_t i = 0; i < LACKS; i++) {
        size_t length = strlen(said), end = strlen(lacks[i]);
        if (length < end || strcmp(said + length - end, lacks[i]) != 0)
            continue;
        is_told[i] = true;
        variable = i < LACKS_OF_FILE ? variable_of_file : variable_of_lines;
    }
    snprintf(start, sizeof start, "ospreyrack: %s: ", variable == NULL ? "none" : variable);
    check(variable != NULL && strncmp(said, start, strlen(start)) == 0
          && strchr(said, '\n') == said + strlen(said) - 1, said);
}

/* What the file has in the end where nothing is refused, without the replies: a reply may lack
 * where there is no memory for its text. */
static char expected_file[4000];

static void drop_replies(char *content) {
    static const char arrow[] = " -> ";
    char *reply;
    while ((reply = strstr(content, arrow)) != NULL) {
        const char *end = strchr(reply, '\n');
        memmove(reply, end, strlen(end) + 1);
    }
}

/* Where there is no file of the name, nothing is read. */
static void read_journal(char *content, size_t room) {
    FILE *file = fopen(journal, "r");
    content[file == NULL ? 0 : fread(content, 1, room - 1, file)] = '\0';
    if (file != NULL)
        fclose(file);
    drop_replies(content);
}

static void note_expected_file(void) {
    EXPECT(CKR_OK, p11->C_Initialize(NULL));
    check_token();
    EXPECT(CKR_OK, p11->C_Finalize(NULL));
    if (!has_journal)
        return;
    read_journal(expected_file, sizeof expected_file);
    CHECK(expected_file[0] != '\0');
}

static void check_file(void) {
    char content[sizeof expected_file];
    read_journal(content, sizeof content);
    check(strcmp(content, expected_file) == 0, content);
}

/* The library's first allocations are for the token and for a call with a message. What else lacks
 * memory is work on what the environment says. */
static bool try_initialize(long number) {
    char said[1000];
    off_t length = length_of(journal);
    keep_errors();
    live_at_start = live_allocations;
    refuse_after(number);
    CK_RV code = p11->C_Initialize(NULL);
    bool was_refused = stop_refusing();
    read_errors(said, sizeof said);
    if (was_refused && code != CKR_OK) {
        check_code(code, number < 2 ? CKR_HOST_MEMORY : CKR_GENERAL_ERROR,
                   "C_Initialize without memory");
        if (code == CKR_GENERAL_ERROR)
            check_told(said);
        check(length_of(journal) == length, "C_Initialize that fails leaves the file");
        check(live_allocations == live_at_start, "C_Initialize that fails gives all memory back");
        code = p11->C_Initialize(NULL);
    }
    check_code(code, CKR_OK, "C_Initialize");
    check_token();
    end_library();
    if (has_journal)
        check_file();
    return was_refused;
}

static void check_initialize(void (*prepare)(void)) {
    long number = 0;
    prepare();
    note_expected_file();
    prepare();
    while (number < MOST_GROWTHS && try_initialize(number)) {
        prepare();
        number++;
    }
    CHECK(number > 1 && number < MOST_GROWTHS);
}

/* The file's name has the process's number in it. Its first part is what takes memory. */
static void check_expanded_name(const char *start) {
    char before[sizeof journal], name[sizeof journal];
    memcpy(before, journal, sizeof before);
    snprintf(journal, sizeof journal, "%s%ld-and-%ld", start, (long)getpid(), (long)getpid());
    snprintf(name, sizeof name, "%s%%p-and-%%p", start);
    setenv("OSPREYRACK_JOURNAL", name, 1);
    variable_of_file = "OSPREYRACK_JOURNAL";
    check_initialize(begin_without_file);
    unsetenv("OSPREYRACK_JOURNAL");
    memcpy(journal, before, sizeof before);
}

static void test_initialize(void) {
    write_script();
    setenv("OSPREYRACK_SCRIPT", script, 1);
    variable_of_lines = "OSPREYRACK_SCRIPT";
    has_journal = false;
    check_initialize(begin_without_file);
    has_journal = true;
    setenv("OSPREYRACK_TOKEN", journal, 1);
    variable_of_file = "OSPREYRACK_TOKEN";
    check_initialize(begin_without_file);
    if (rename(journal, kept) != 0)
        exit(2);
    variable_of_lines = "OSPREYRACK_TOKEN";
    check_initialize(begin_with_file);
    unsetenv("OSPREYRACK_TOKEN");
    variable_of_lines = "OSPREYRACK_SCRIPT";
    check_expanded_name("of-");
    check_expanded_name("");
    unsetenv("OSPREYRACK_SCRIPT");
    for (size_t i = 0; i < LACKS; i++)
        check(is_told[i], lacks[i]);
}

/* Whether a C_Initialize lacks memory for the call behind the script, which closes the sessions. */
static bool lacks_last_call(long number, bool *was_refused) {
    static const char last[] =
        "ospreyrack: OSPREYRACK_SCRIPT: there is no memory for the last call\n";
    char said[1000];
    unlink(journal);
    keep_errors();
    refuse_after(number);
    CK_RV code = p11->C_Initialize(NULL);
    *was_refused = stop_refusing();
    read_errors(said, sizeof said);
    if (code == CKR_OK)
        EXPECT(CKR_OK, p11->C_Finalize(NULL));
    return code == CKR_GENERAL_ERROR && strcmp(said, last) == 0;
}

/* Scripts of many lengths: behind one of them the text of the file has no room for a line. */
static void test_last_call(void) {
    enum { MOST_CALLS = 60 };
    size_t lacking = 0;
    write_file(script, "", "w");
    setenv("OSPREYRACK_SCRIPT", script, 1);
    setenv("OSPREYRACK_JOURNAL", journal, 1);
    for (int calls = 0; calls < MOST_CALLS; calls++) {
        bool was_refused = true;
        write_file(script, "1 GetTokenInfo\n", "a");
        for (long number = 0; was_refused && number < MOST_GROWTHS; number++)
            lacking += lacks_last_call(number, &was_refused);
        CHECK(!was_refused);
    }
    check(lacking > 0, "the script's variable is named");
    unsetenv("OSPREYRACK_SCRIPT");
    unsetenv("OSPREYRACK_JOURNAL");
}

/* A script of a call of this length and of labels. */
static void write_labels(int length) {
    enum { LABELS = 5 };
    write_file(script, "1 DigestUpdate 1 ", "w");
    for (int i = 0; i < length; i++)
        write_file(script, "61", "a");
    write_file(script, " -> b3\n", "a");
    for (int i = 0; i < LABELS; i++)
        write_file(script, label_line, "a");
}

/* Where C_Initialize succeeds although an allocation is refused, the labels stand in the file all
 * the same. */
static void check_labels(void) {
    bool was_refused = true;
    unlink(journal);
    EXPECT(CKR_OK, p11->C_Initialize(NULL));
    EXPECT(CKR_OK, p11->C_Finalize(NULL));
    read_journal(expected_file, sizeof expected_file);
    for (long number = 0; was_refused && number < MOST_GROWTHS; number++) {
        unlink(journal);
        refuse_after(number);
        CK_RV code = p11->C_Initialize(NULL);
        was_refused = stop_refusing();
        if (code != CKR_OK)
            continue;
        EXPECT(CKR_OK, p11->C_Finalize(NULL));
        check_file();
    }
    CHECK(!was_refused);
}

/* Calls of many lengths: behind one of them a label's digits fill the room that the file's text
 * has. */
static void test_labels(void) {
    enum { LONGEST = 80 };
    setenv("OSPREYRACK_SCRIPT", script, 1);
    setenv("OSPREYRACK_JOURNAL", journal, 1);
    for (int length = 1; length <= LONGEST; length++) {
        write_labels(length);
        check_labels();
    }
    unsetenv("OSPREYRACK_SCRIPT");
    unsetenv("OSPREYRACK_JOURNAL");
}

/* A reply that isn't the script's is told, whatever there is no memory for. */
static void test_wrong_reply(void) {
    long number = 0;
    bool was_refused = true;
    write_file(script, "1 InitToken 31323334\n1 OpenSession 6 -> 0 2\n", "w");
    setenv("OSPREYRACK_SCRIPT", script, 1);
    while (was_refused && number < MOST_GROWTHS) {
        refuse_after(number);
        CK_RV code = p11->C_Initialize(NULL);
        was_refused = stop_refusing();
        check_code(code, was_refused && number < 2 ? CKR_HOST_MEMORY : CKR_GENERAL_ERROR,
                   "C_Initialize with a wrong reply");
        number++;
    }
    CHECK(number > 2 && number < MOST_GROWTHS);
    unsetenv("OSPREYRACK_SCRIPT");
}

/* ---- The library's function for forks */

static bool refuses_registration;
static CK_RV code_without_registration;

int __register_atfork(void (*prepare)(void), void (*parent)(void), void (*child)(void),
                      void *library);

int __register_atfork(void (*prepare)(void), void (*parent)(void), void (*child)(void),
                      void *library) {
    if (refuses_registration)
        return ENOMEM;
    void *symbol = dlsym(RTLD_NEXT, "__register_atfork");
    int (*real)(void (*)(void), void (*)(void), void (*)(void), void *);
    memcpy(&real, &symbol, sizeof real);
    return real(prepare, parent, child, library);
}

/* To be called before the library is first initialized: once it has its function, it doesn't ask
 * again. */
static void initialize_without_registration(void) {
    refuses_registration = true;
    code_without_registration = p11->C_Initialize(NULL);
    refuses_registration = false;
    if (code_without_registration == CKR_OK)
        p11->C_Finalize(NULL);
}

static void look_as_child(void) {
    CK_INFO info;
    _exit(p11->C_GetInfo(&info) == CKR_CRYPTOKI_NOT_INITIALIZED ? 0 : 1);
}

/* Behind the refusal C_Initialize asks again, so that the child of a fork begins anew. */
static void test_registration(void) {
    check_code(code_without_registration, CKR_HOST_MEMORY, "C_Initialize");
    begin_library();
    CHECK(status_of_child(look_as_child) == 0);
    end_library();
}

/* ---- Growths of C_Initialize with the application's mutex functions */

static int mutexes_made, mutexes_destroyed;

static CK_RV note_made(CK_VOID_PTR_PTR mutex) {
    mutexes_made++;
    return create_mutex(mutex);
}

static CK_RV note_destroyed(CK_VOID_PTR mutex) {
    mutexes_destroyed++;
    return leave_mutex(mutex);
}

/* Answers whether an allocation was refused. */
static bool try_mutexes(long number) {
    CK_C_INITIALIZE_ARGS arguments = {
        .CreateMutex = note_made,
        .DestroyMutex = note_destroyed,
        .LockMutex = leave_mutex,
        .UnlockMutex = leave_mutex,
    };
    live_at_start = live_allocations;
    mutexes_made = mutexes_destroyed = 0;
    refuse_after(number);
    CK_RV code = p11->C_Initialize(&arguments);
    bool was_refused = stop_refusing();
    check_code(code, was_refused ? CKR_HOST_MEMORY : CKR_OK, "C_Initialize with mutexes");
    if (code == CKR_OK)
        EXPECT(CKR_OK, p11->C_Finalize(NULL));
    check(mutexes_made == mutexes_destroyed, "each mutex is destroyed");
    check(live_allocations == live_at_start, "all memory is given back");
    return was_refused;
}

/* A seed's line on standard error would take memory that isn't the module's. */
static void test_mutexes(void) {
    long number = 0;
    unsetenv("OSPREYRACK_SEED");
    while (number < MOST_GROWTHS && try_mutexes(number))
        number++;
    setenv("OSPREYRACK_SEED", "1", 1);
    CHECK(number > 2 && number < MOST_GROWTHS && mutexes_made == 1);
}

/* ---- Queries that aren't answered */

/* Asks for the label of the object, also where there is no memory. Where that isn't answered, the
 * buffer and the length are as the application gave them. */
static void ask_for_label(CK_ULONG room, bool lacks_memory, CK_RV expected) {
    uint8_t *out = guarded_new(room);
    CK_ATTRIBUTE query = {CKA_LABEL, out, room};
    refuse_after(lacks_memory ? 0 : -1);
    CK_RV code = p11->C_GetAttributeValue(session, object, &query, 1);
    stop_refusing();
    check_code(code, expected, "C_GetAttributeValue");
    if (code == CKR_OK)
        CHECK(query.ulValueLen < room && guarded_is_intact(out, room, query.ulValueLen));
    else
        CHECK(query.ulValueLen == room && guarded_is_intact(out, room, 0));
    guarded_free(out);
}

/* The label was the token's last reply, and is longer than the room that is given then. */
static void check_unanswered_query(void) {
    unlink(journal);
    begin_library();
    session = log_in();
    object = create_data(session, "a label of 20 bytes.");
    ask_for_label(64, false, CKR_OK);
    ask_for_label(2, true, CKR_HOST_MEMORY);
}

/* Asks of the token, its mechanisms and the session where each allocation is refused, or where no
 * line can be written. The places for the answers stay as they are. */
static void check_unanswered_questions(CK_RV expected) {
    enum { ROOM = 256 };
    CK_ULONG count = 13;
    uint8_t *memory = guarded_new(ROOM);
    void *out = memory;
    refuses_all = true;
    refuse_after(expected == CKR_HOST_MEMORY ? 0 : -1);
    CK_RV codes[] = {
        p11->C_GetTokenInfo(0, out),
        p11->C_GetMechanismList(0, out, &count),
        p11->C_GetSessionInfo(session, out),
        p11->C_GenerateRandom(session, out, ROOM),
    };
    stop_refusing();
    refuses_all = false;
    for (size_t i = 0; i < sizeof codes / sizeof *codes; i++)
        check_code(codes[i], expected, "a call that asks of the token");
    CHECK(guarded_is_intact(memory, ROOM, 0) && count == 13);
    guarded_free(memory);
}

static void test_unanswered_queries(void) {
    check_unanswered_query();
    take_room();
    check_unanswered_questions(CKR_HOST_MEMORY);
    end_library();
    setenv("OSPREYRACK_JOURNAL", journal, 1);
    check_unanswered_query();
    write_error = ENOSPC;
    ask_for_label(64, false, CKR_DEVICE_ERROR);
    write_error = 0;
    ask_for_label(2, false, CKR_DEVICE_ERROR);
    check_unanswered_questions(CKR_DEVICE_ERROR);
    end_library();
    unsetenv("OSPREYRACK_JOURNAL");
}

/* ---- The journal file */

/* C_Initialize is refused, and the file is as long as it was, or as another process left it. */
static void check_refused(const char *variable, size_t length) {
    setenv(variable, journal, 1);
    CK_RV code = p11->C_Initialize(NULL);
    unsetenv(variable);
    check_code(code, CKR_GENERAL_ERROR, variable);
    check(length_of(journal) == (off_t)length, "the file isn't written");
    if (code == CKR_OK)
        EXPECT(CKR_OK, p11->C_Finalize(NULL));
}

/* Another process adds to the file while this one waits for its lock. */
static void test_file_of_another(void) {
    unlink(journal);
    added_file = journal;
    check_refused("OSPREYRACK_JOURNAL", strlen(added_line));
    CHECK(added_file == NULL);
}

/* The file is read by its own descriptor. A copy could be left to a child of a fork. */
static void test_copied_descriptor(void) {
    write_file(journal, added_line, "w");
    setenv("OSPREYRACK_TOKEN", journal, 1);
    copies = left_copies = 0;
    begin_library();
    CHECK(copies == 0 && left_copies == 0);
    end_library();
    unsetenv("OSPREYRACK_TOKEN");
}

/* A file that has whole lines isn't cut off. */
static void test_needless_truncation(void) {
    write_file(journal, added_line, "w");
    setenv("OSPREYRACK_TOKEN", journal, 1);
    refuses_truncation = true;
    begin_library();
    refuses_truncation = false;
    end_library();
    unsetenv("OSPREYRACK_TOKEN");
}

/* Standard error says that the last line, which lacks its end, is dropped, and why it can't be cut
 * off. */
static void test_refused_truncation(void) {
    static const char content[] = "1 InitToken 31323334 -> 0\n1 OpenSess";
    char said[1000], expected[1000];
    write_file(journal, content, "w");
    refuses_truncation = true;
    keep_errors();
    check_refused("OSPREYRACK_TOKEN", strlen(content));
    read_errors(said, sizeof said);
    refuses_truncation = false;
    snprintf(expected, sizeof expected, "ospreyrack: OSPREYRACK_TOKEN: %s, line 2: the last line "
             "has no end, as a process that was killed leaves it: it is dropped\n"
             "ospreyrack: OSPREYRACK_TOKEN: the file can't be cut off: %s\n", journal,
             strerror(EPERM));
    check(strcmp(said, expected) == 0, said);
}

/* A file that can't be read to its end isn't taken for one that ends there, and isn't cut off. */
static void test_unreadable_end(void) {
    enum { LINES = 200 };
    char said[1000], expected[1000];
    write_file(journal, "", "w");
    for (int i = 0; i < LINES; i++)
        write_file(journal, added_line, "a");
    reads_until_error = 1;
    keep_errors();
    check_refused("OSPREYRACK_TOKEN", LINES * strlen(added_line));
    read_errors(said, sizeof said);
    CHECK(reads_until_error < 0);
    snprintf(expected, sizeof expected, "ospreyrack: OSPREYRACK_TOKEN: %s: the file can't be read: "
             "%s\n", journal, strerror(EIO));
    check(strcmp(said, expected) == 0, said);
}

static void test_interrupted_write(void) {
    struct result ignored;
    unlink(journal);
    setenv("OSPREYRACK_JOURNAL", journal, 1);
    begin_library();
    for (size_t count = 1; count <= 3; count++) {
        left_interruptions = count;
        EXPECT(CKR_OK, get_token_info(&ignored));
        CHECK(left_interruptions == 0);
    }
    end_library();
    unsetenv("OSPREYRACK_JOURNAL");
}

/* The file is opened, and its last line, which lacks its end, is cut off. */
static void test_interrupted_start(void) {
    static const char content[] = "1 InitToken 31323334 -> 0\n1 OpenSess";
    for (size_t count = 1; count <= 3; count++) {
        write_file(journal, content, "w");
        setenv("OSPREYRACK_TOKEN", journal, 1);
        open_interruptions = truncation_interruptions = count;
        begin_library();
        CHECK(open_interruptions == 0 && truncation_interruptions == 0);
        end_library();
        unsetenv("OSPREYRACK_TOKEN");
    }
}

/* These errors come with a signal where the process has the limit, or where nobody reads. Another
 * file system may answer them without one, and the module mustn't wait for it: the alarm would end
 * this program. */
static void test_errors_without_signals(void) {
    enum { MOST_SECONDS = 60 };
    static const int without_signal[] = {EFBIG, EPIPE};
    struct result ignored;
    for (size_t i = 0; i < sizeof without_signal / sizeof *without_signal; i++) {
        unlink(journal);
        setenv("OSPREYRACK_JOURNAL", journal, 1);
        begin_library();
        write_error = without_signal[i];
        alarm(MOST_SECONDS);
        EXPECT(CKR_DEVICE_ERROR, get_token_info(&ignored));
        alarm(0);
        write_error = 0;
        EXPECT(CKR_DEVICE_ERROR, get_token_info(&ignored));
        /* Bad arguments are told as such all the same. */
        EXPECT(CKR_ARGUMENTS_BAD, p11->C_DigestUpdate(1, NULL, 1));
        /* A lack of memory isn't told: the call can't be made again. */
        refuse_after(0);
        EXPECT(CKR_DEVICE_ERROR, digest_long(&ignored));
        CHECK(stop_refusing());
        end_library();
        unsetenv("OSPREYRACK_JOURNAL");
    }
}

/* While a write fails, somebody sends the thread a signal that doesn't come with this error. One
 * that a write may raise waits until it has ended, and no other one does. */
static void check_other_signal(int error, int number, bool waits) {
    struct result ignored;
    void (*before)(int) = signal(number, catch_signal);
    unlink(journal);
    setenv("OSPREYRACK_JOURNAL", journal, 1);
    begin_library();
    signals_caught = 0;
    write_signal = number;
    write_error = error;
    EXPECT(CKR_DEVICE_ERROR, get_token_info(&ignored));
    write_signal = 0;
    write_error = 0;
    check(signals_caught == 1, strerror(error));
    check(caught_in_write == (waits ? 0 : 1), strsignal(number));
    end_library();
    unsetenv("OSPREYRACK_JOURNAL");
    signal(number, before);
}

/* It isn't the write's, and reaches the application. */
static void test_other_signals(void) {
    check_other_signal(EFBIG, SIGPIPE, true);
    check_other_signal(EPIPE, SIGXFSZ, true);
    check_other_signal(ENOSPC, SIGPIPE, true);
    check_other_signal(ENOSPC, SIGXFSZ, true);
    check_other_signal(ENOSPC, SIGALRM, false);
}

/* The signal of a write is taken, although that is interrupted: else it would end the child. */
static void write_with_signal(void) {
    struct result ignored;
    signal(SIGPIPE, SIG_DFL);
    if (p11->C_Initialize(NULL) != CKR_OK)
        _exit(1);
    write_signal = SIGPIPE;
    write_error = EPIPE;
    wait_interruptions = 1;
    _exit(get_token_info(&ignored) == CKR_DEVICE_ERROR && wait_interruptions == 0 ? 0 : 2);
}

static void test_interrupted_wait(void) {
    unlink(journal);
    setenv("OSPREYRACK_JOURNAL", journal, 1);
    CHECK(status_of_child(write_with_signal) == 0);
    unsetenv("OSPREYRACK_JOURNAL");
}

/* The signal of a file that is too long stays pending where the application blocks it. */
static void write_with_blocked_signal(void) {
    struct result ignored;
    sigset_t signals;
    sigemptyset(&signals);
    sigaddset(&signals, SIGXFSZ);
    pthread_sigmask(SIG_BLOCK, &signals, NULL);
    if (p11->C_Initialize(NULL) != CKR_OK)
        _exit(1);
    write_signal = SIGXFSZ;
    write_error = EFBIG;
    if (get_token_info(&ignored) != CKR_DEVICE_ERROR)
        _exit(2);
    sigpending(&signals);
    _exit(sigismember(&signals, SIGXFSZ) == 1 ? 0 : 3);
}

static void test_blocked_signal(void) {
    unlink(journal);
    setenv("OSPREYRACK_JOURNAL", journal, 1);
    CHECK(status_of_child(write_with_blocked_signal) == 0);
    unsetenv("OSPREYRACK_JOURNAL");
}

/* The descriptor has come to be that of a file on another device, which has the same number
 * there. */
static void test_other_device(void) {
    struct result ignored;
    char said[1000];
    unlink(journal);
    setenv("OSPREYRACK_JOURNAL", journal, 1);
    begin_library();
    off_t length = length_of(journal);
    added_to_device = 1;
    keep_errors();
    EXPECT(CKR_DEVICE_ERROR, get_token_info(&ignored));
    read_errors(said, sizeof said);
    added_to_device = 0;
    check(strcmp(said, "ospreyrack: OSPREYRACK_JOURNAL: a call can't be written: the file was "
                 "closed\n") == 0, said);
    CHECK(length_of(journal) == length);
    end_library();
    unsetenv("OSPREYRACK_JOURNAL");
}

/* A call's line is written in parts where the file takes no more at once. */
static void test_short_writes(void) {
    struct result ignored;
    unlink(journal);
    setenv("OSPREYRACK_JOURNAL", journal, 1);
    begin_library();
    off_t length = length_of(journal);
    most_written = 5;
    writes = 0;
    EXPECT(CKR_OK, get_token_info(&ignored));
    most_written = SIZE_MAX;
    CHECK(length_of(journal) == length + (off_t)strlen(added_line));
    CHECK(writes == (strlen(added_line) + 4) / 5);
    end_library();
    check_journal();
    unsetenv("OSPREYRACK_JOURNAL");
}

/* A write that takes nothing, and says no error, isn't made again and again: the alarm would end
 * this program. It is told as one for which there is no room. */
static void test_empty_writes(void) {
    enum { MOST_SECONDS = 60 };
    struct result ignored;
    char said[1000];
    unlink(journal);
    setenv("OSPREYRACK_JOURNAL", journal, 1);
    begin_library();
    off_t length = length_of(journal);
    most_written = 0;
    keep_errors();
    alarm(MOST_SECONDS);
    EXPECT(CKR_DEVICE_ERROR, get_token_info(&ignored));
    alarm(0);
    most_written = SIZE_MAX;
    read_errors(said, sizeof said);
    check(strcmp(said, "ospreyrack: OSPREYRACK_JOURNAL: a call can't be written: No space left on "
                 "device\n") == 0, said);
    EXPECT(CKR_DEVICE_ERROR, get_token_info(&ignored));
    CHECK(length_of(journal) == length);
    end_library();
    check_journal();
    unsetenv("OSPREYRACK_JOURNAL");
}

/* A line of which only a part can be written. Where that can't be cut off, since the file's status
 * can't be read or it can't be shortened, standard error says so, and whoever goes on from the file
 * drops it. */
static void check_part(int fault_of_status, bool refuses_cut, const char *expected) {
    bool stays = fault_of_status != 0 || refuses_cut;
    struct result ignored;
    char said[1000];
    unlink(journal);
    setenv("OSPREYRACK_JOURNAL", journal, 1);
    begin_library();
    off_t length = length_of(journal);
    left_room = 5;
    status_error = fault_of_status;
    refuses_truncation = refuses_cut;
    keep_errors();
    EXPECT(CKR_DEVICE_ERROR, get_token_info(&ignored));
    left_room = SIZE_MAX;
    status_error = 0;
    read_errors(said, sizeof said);
    check(strcmp(said, expected) == 0, said);
    EXPECT(CKR_DEVICE_ERROR, get_token_info(&ignored));
    CHECK(length_of(journal) == length + (stays ? 5 : 0));
    refuses_truncation = false;
    end_library();
    check_journal();
    unsetenv("OSPREYRACK_JOURNAL");
}

static void test_parts(void) {
    static const char stays[] = "ospreyrack: OSPREYRACK_JOURNAL: a call can't be written: No space "
        "left on device, and a part of it stays in the file\n";
    check_part(0, false, "ospreyrack: OSPREYRACK_JOURNAL: a call can't be written: No space left "
               "on device\n");
    check_part(0, true, stays);
    check_part(EIO, false, stays);
}

/* The lowest number that no open file has. */
static int free_descriptor(void) {
    int file = open("/dev/null", O_RDONLY);
    close(file);
    return file;
}

/* C_Initialize where each of these system calls fails: standard error says by what, and the file is
 * closed. */
static void check_fault(int *error, int number, const char *what) {
    char said[1000], expected[1000];
    int descriptor = free_descriptor();
    unlink(journal);
    setenv("OSPREYRACK_JOURNAL", journal, 1);
    keep_errors();
    *error = number;
    CK_RV code = p11->C_Initialize(NULL);
    *error = 0;
    read_errors(said, sizeof said);
    unsetenv("OSPREYRACK_JOURNAL");
    check_code(code, CKR_GENERAL_ERROR, "C_Initialize with a fault of the file");
    snprintf(expected, sizeof expected, "ospreyrack: OSPREYRACK_JOURNAL: %s: %s\n", what,
             strerror(number));
    check(strcmp(said, expected) == 0, said);
    if (code == CKR_OK)
        EXPECT(CKR_OK, p11->C_Finalize(NULL));
    check(free_descriptor() == descriptor, "C_Initialize that fails closes the file");
}

static void test_faults_of_file(void) {
    check_fault(&lock_error, ENOLCK, journal);
    check_fault(&status_error, EIO, journal);
    fails_once = true;
    check_fault(&status_error, EIO, journal);
    fails_once = false;
    /* The status is read again once the file is locked, and before the file is cut off. */
    left_statuses = 1;
    check_fault(&status_error, EIO, journal);
    left_statuses = 2;
    check_fault(&status_error, EIO, "the file can't be cut off");
    CHECK(left_statuses == 0);
}

/* ---- The end of a process */

static const char other_file[] = "other";
static const char *file_behind_end = other_file;
static int journal_descriptor;
static CK_RV code_behind_end, session_code_behind_end;

/* The C library writes what is left in streams behind the end of each library. By then the file is
 * closed. Another one has its descriptor, or the same one, which was opened again: the lines of
 * calls have no place there. */
static ssize_t call_behind_end(void *cookie, const char *bytes, size_t ignored_length) {
    struct result ignored;
    (void)cookie, (void)bytes, (void)ignored_length;
    int file = open(file_behind_end, O_RDWR | O_CREAT | O_APPEND, 0600);
    off_t length = length_of(file_behind_end);
    if (file != journal_descriptor)
        _exit(2);
    CK_RV code = get_token_info(&ignored);
    CK_RV session_code = get_session_info(&ignored);
    _exit(code == code_behind_end && session_code == session_code_behind_end
          && length_of(file_behind_end) == length ? 0 : 1);
}

static void end_as_child(void) {
    struct result ignored;
    const cookie_io_functions_t functions = {.write = call_behind_end};
    journal_descriptor = open(other_file, O_RDWR | O_CREAT, 0600);
    close(journal_descriptor);
    FILE *stream = fopencookie(NULL, "w", functions);
    if (stream == NULL || fputs("text", stream) < 0 || p11->C_Initialize(NULL) != CKR_OK
        || get_token_info(&ignored) != CKR_OK)
        _exit(3);
    exit(4);
}

static void test_call_behind_end(void) {
    unlink(journal);
    setenv("OSPREYRACK_JOURNAL", journal, 1);
    code_behind_end = session_code_behind_end = CKR_DEVICE_ERROR;
    check(status_of_child(end_as_child) == 0, "a call behind the library's end");
    check_journal();
    unlink(journal);
    file_behind_end = journal;
    check(status_of_child(end_as_child) == 0, "a call where the file is opened again");
    check_journal();
    file_behind_end = other_file;
    unsetenv("OSPREYRACK_JOURNAL");
    code_behind_end = CKR_OK;
    session_code_behind_end = CKR_SESSION_HANDLE_INVALID;
    check(status_of_child(end_as_child) == 0, "a call behind the end of a library without a file");
}

/* A thread that stops in the application's lock, or, under the module's own mutex, where it writes
 * its line. */
static bool stops_in_lock;

static CK_RV wait_in_lock(CK_VOID_PTR mutex) {
    if (stops_in_lock)
        stop_thread();
    return leave_mutex(mutex);
}

static void *call_and_stop(void *ignored) {
    struct result result;
    get_token_info(&result);
    return ignored;
}

/* Behind the library's end the file still has its descriptor, which the thread may write to. */
static ssize_t see_file_behind_end(void *cookie, const char *bytes, size_t length) {
    struct stat of_descriptor, of_file;
    (void)cookie, (void)bytes, (void)length;
    _exit(syscall(SYS_fstat, journal_descriptor, &of_descriptor) == 0
          && stat(journal, &of_file) == 0 && of_descriptor.st_ino == of_file.st_ino ? 0 : 1);
}

/* Ends the process once another thread has stopped, which it does where this is set. */
static void end_beside_call(CK_C_INITIALIZE_ARGS *arguments, bool *stops) {
    const cookie_io_functions_t functions = {.write = see_file_behind_end};
    pthread_t thread;
    char byte;
    FILE *stream = fopencookie(NULL, "w", functions);
    if (stream == NULL || fputs("text", stream) < 0 || pipe(ends_of_wait) != 0)
        _exit(2);
    journal_descriptor = open(other_file, O_RDWR | O_CREAT, 0600);
    close(journal_descriptor);
    if (p11->C_Initialize(arguments) != CKR_OK)
        _exit(3);
    *stops = true;
    if (pthread_create(&thread, NULL, call_and_stop, NULL) != 0
        || read(ends_of_wait[0], &byte, 1) != 1)
        _exit(4);
    exit(6);
}

static void end_under_application_lock(void) {
    CK_C_INITIALIZE_ARGS arguments = {
        .CreateMutex = create_mutex,
        .DestroyMutex = leave_mutex,
        .LockMutex = wait_in_lock,
        .UnlockMutex = leave_mutex,
    };
    end_beside_call(&arguments, &stops_in_lock);
}

static void end_under_own_mutex(void) {
    end_beside_call(NULL, &stops_in_write);
}

static void check_end_beside_call(void (*end)(void), const char *what) {
    unlink(journal);
    setenv("OSPREYRACK_JOURNAL", journal, 1);
    check(status_of_child(end) == 0, what);
    unsetenv("OSPREYRACK_JOURNAL");
}

static void test_end_beside_call(void) {
    check_end_beside_call(end_under_application_lock, "a call under the application's lock");
    check_end_beside_call(end_under_own_mutex, "a call under the module's own mutex");
}

static const struct test tests[] = {
    {"each growth of 44 calls is refused, typed", test_typed},
    {"each growth of 44 calls is refused, by lines", test_by_lines},
    {"each call's line is written when it is answered, and at once", test_lines},
    {"lines of all lengths end where there is no memory for their replies", test_line_ends},
    {"a line that is longer than the room for lines, wherever that ends", test_line_room},
    {"each growth of C_Initialize is refused, with a script and a file", test_initialize},
    {"a script behind which the last call lacks memory", test_last_call},
    {"labels of a script, which end where there is no memory for the file's text", test_labels},
    {"a script with a wrong reply, and each growth of C_Initialize is refused", test_wrong_reply},
    {"each growth of C_Initialize is refused, with the application's mutexes", test_mutexes},
    {"C_Initialize where the system refuses the library's function for forks", test_registration},
    {"C_Initialize on the smallest stack tells of bad lines", test_small_stack},
    {"calls of each kind on a small stack", test_calls_on_small_stack},
    {"a digest in pieces without memory takes nothing or ends, typed", test_digest_pieces},
    {"a digest in pieces without memory takes nothing or ends, by lines",
     test_digest_pieces_by_lines},
    {"signing in pieces without memory takes nothing or ends, typed", test_sign_pieces},
    {"signing in pieces without memory takes nothing or ends, by lines",
     test_sign_pieces_by_lines},
    {"verifying in pieces without memory takes nothing or ends, typed", test_verify_pieces},
    {"verifying in pieces without memory takes nothing or ends, by lines",
     test_verify_pieces_by_lines},
    {"an update in pieces that ends without memory, in a session of a longer handle",
     test_longer_handle},
    {"an update in pieces that ends without memory, behind a call with a long line",
     test_long_line_before},
    {"updates of one and of two whole pieces", test_whole_pieces},
    {"the system's random bytes are drawn while the lock is free", test_random_without_lock},
    {"a long message is copied while the lock is free", test_copies_without_lock},
    {"the line of a long message is written while the lock is free", test_lines_without_lock},
    {"a generated key that finds no memory takes its bytes of a seed", test_seed_without_memory},
    {"a search whose second piece finds no memory gives the first, typed", test_searches},
    {"a search whose second piece finds no memory gives the first, by lines",
     test_searches_by_lines},
    {"memory for 200,000 attributes is given back", test_many_attributes},
    {"memory for a value of 1.5 MiB is given back", test_long_value},
    {"a list of 200,000 attributes grows in few steps", test_steps_of_growth},
    {"the room for a long line stays, and isn't more than twice as long", test_room_for_line},
    {"the journal in memory is cut at 1,000 entries", test_thousandth_entry},
    {"a thread's first call without memory", test_first_call},
    {"a query that isn't answered leaves the places for its answer as they are",
     test_unanswered_queries},
    {"a file to which another process adds before it is locked", test_file_of_another},
    {"a file whose descriptor isn't copied", test_copied_descriptor},
    {"a file of whole lines, which isn't cut off", test_needless_truncation},
    {"a file whose last line can't be cut off", test_refused_truncation},
    {"a file that can't be read to its end", test_unreadable_end},
    {"a call whose line is written after interruptions", test_interrupted_write},
    {"a file that is opened and cut off after interruptions", test_interrupted_start},
    {"a call whose line is written in parts", test_short_writes},
    {"a call whose line can't be written, where no error says so", test_empty_writes},
    {"a call whose line can't be written, where no signal says so", test_errors_without_signals},
    {"a signal that doesn't come with the write's error reaches the application",
     test_other_signals},
    {"a signal of a write that is taken after an interruption", test_interrupted_wait},
    {"a signal of a write that the application has blocked stays pending", test_blocked_signal},
    {"a file on another device that has the file's descriptor and its number", test_other_device},
    {"a line that is written in part, and a part that can't be cut off", test_parts},
    {"a file whose status can't be read, and one that can't be locked", test_faults_of_file},
    {"calls behind the library's end write nothing to a file that has the descriptor",
     test_call_behind_end},
    {"a call that another thread is in keeps the file at the library's end", test_end_beside_call},
};

/* The module's lines on standard error are for nobody here; those of the checks are written. */
static void hide_lines_of_module(void) {
    int null = open("/dev/null", O_WRONLY);
    stderr = fdopen(dup(STDERR_FILENO), "w");
    if (null < 0 || stderr == NULL || dup2(null, STDERR_FILENO) < 0)
        exit(2);
    setvbuf(stderr, NULL, _IONBF, 0);
}

int main(int count, char **arguments) {
    if (count != 3) {
        fprintf(stderr, "growths MODULE FOLDER\n");
        return 2;
    }
    load_module(arguments[1]);
    /* A file of a wrong name comes to lie in the folder, too. */
    if (chdir(arguments[2]) != 0)
        return 2;
    memset(text, 'x', sizeof text);
    hide_lines_of_module();
    setenv("OSPREYRACK_SEED", "1", 1);
    vendor = vendor_functions();
    initialize_without_registration();
    /* What the first calls of a process take stays. */
    begin_token();
    end_token();
    return run_tests("growths", tests, sizeof tests / sizeof *tests);
}
