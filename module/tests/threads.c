/*
 * Threads that make calls of all kinds at once, each of which checks what it is answered. Called
 * with the module's file, how many threads there are, and how many rounds each of them makes; and
 * with the word `mutexes` where the lock is to be made by functions of the application.
 */
#include "support.h"

#include <pthread.h>
#include <stdatomic.h>
#include <stdio.h>
#include <stdlib.h>
#include <string.h>
#include <sys/wait.h>
#include <time.h>
#include <unistd.h>

enum { MOST_THREADS = 64, SHARED_SESSIONS = 4 };

static int threads;
static int rounds;
static CK_SESSION_HANDLE shared[SHARED_SESSIONS];
static CK_OBJECT_HANDLE shared_key;
static const CK_FLAGS read_write = CKF_SERIAL_SESSION | CKF_RW_SESSION;

/* ---- What a thread does in a session. An operation that another thread has started there is left
 * to that one: the call that starts it is answered CKR_OPERATION_ACTIVE. */

static bool is_started(CK_RV code) {
    check(code == CKR_OK || code == CKR_OPERATION_ACTIVE, "an operation is started, or is active");
    return code == CKR_OK;
}

static void digest_at_once(CK_SESSION_HANDLE session) {
    CK_MECHANISM sha256 = mechanism_of(CKM_SHA256);
    CK_BYTE message[] = {'a', 'b', 'c'}, digest[32];
    CK_ULONG length = sizeof digest;
    if (!is_started(p11->C_DigestInit(session, &sha256)))
        return;
    EXPECT(CKR_OK, p11->C_Digest(session, message, sizeof message, digest, &length));
    CHECK(is_hexadecimal(digest, length, sha256_of_abc));
}

static void digest_in_pieces(CK_SESSION_HANDLE session) {
    CK_MECHANISM sha512 = mechanism_of(CKM_SHA512);
    CK_BYTE message[] = {'a', 'b', 'c'}, digest[64];
    CK_ULONG length = sizeof digest;
    if (!is_started(p11->C_DigestInit(session, &sha512)))
        return;
    for (int i = 0; i < 3; i++)
        EXPECT(CKR_OK, p11->C_DigestUpdate(session, message + i, 1));
    EXPECT(CKR_OK, p11->C_DigestFinal(session, digest, &length));
    CHECK(is_hexadecimal(digest, length, sha512_of_abc));
}

static void sign_and_verify(CK_SESSION_HANDLE session, CK_OBJECT_HANDLE key) {
    CK_MECHANISM hmac = mechanism_of(CKM_SHA256_HMAC);
    CK_BYTE signature[32];
    CK_ULONG length = sizeof signature;
    if (!is_started(p11->C_SignInit(session, &hmac, key)))
        return;
    EXPECT(CKR_OK, p11->C_SignUpdate(session, hmac_message, 10));
    EXPECT(CKR_OK, p11->C_SignUpdate(session, hmac_message + 10, sizeof hmac_message - 10));
    EXPECT(CKR_OK, p11->C_SignFinal(session, signature, &length));
    CHECK(is_hexadecimal(signature, length, hmac_of_message));
    if (!is_started(p11->C_VerifyInit(session, &hmac, key)))
        return;
    EXPECT(CKR_OK, p11->C_Verify(session, hmac_message, sizeof hmac_message, signature, length));
    if (!is_started(p11->C_VerifyInit(session, &hmac, key)))
        return;
    signature[0] ^= 1;
    EXPECT(CKR_SIGNATURE_INVALID,
           p11->C_Verify(session, hmac_message, sizeof hmac_message, signature, length));
}

static void find_by_label(CK_SESSION_HANDLE session, char *label, CK_OBJECT_HANDLE object) {
    CK_ATTRIBUTE query = {CKA_LABEL, label, strlen(label)};
    CK_OBJECT_HANDLE found[2] = {0, 0};
    CK_ULONG count = 0;
    if (!is_started(p11->C_FindObjectsInit(session, &query, 1)))
        return;
    EXPECT(CKR_OK, p11->C_FindObjects(session, found, 2, &count));
    EXPECT(CKR_OK, p11->C_FindObjectsFinal(session));
    CHECK(count == 1 && found[0] == object);
}

static void check_label(CK_SESSION_HANDLE session, CK_OBJECT_HANDLE object, const char *label) {
    char value[64];
    CK_ATTRIBUTE query = {CKA_LABEL, value, sizeof value};
    EXPECT(CKR_OK, p11->C_GetAttributeValue(session, object, &query, 1));
    CHECK(query.ulValueLen == strlen(label) && memcmp(value, label, strlen(label)) == 0);
}

static void use_objects(CK_SESSION_HANDLE session, char *label) {
    char changed[] = "a changed label";
    CK_ATTRIBUTE change = {CKA_LABEL, changed, strlen(changed)};
    CK_OBJECT_HANDLE object = create_data(session, label), copy = 0;
    find_by_label(session, label, object);
    check_label(session, object, label);
    EXPECT(CKR_OK, p11->C_CopyObject(session, object, NULL, 0, &copy));
    EXPECT(CKR_OK, p11->C_SetAttributeValue(session, object, &change, 1));
    check_label(session, object, changed);
    check_label(session, copy, label);
    EXPECT(CKR_OK, p11->C_DestroyObject(session, object));
    EXPECT(CKR_OK, p11->C_DestroyObject(session, copy));
    EXPECT(CKR_OBJECT_HANDLE_INVALID, p11->C_DestroyObject(session, copy));
}

static void use_generated_key(CK_SESSION_HANDLE session) {
    CK_MECHANISM generation = mechanism_of(CKM_GENERIC_SECRET_KEY_GEN);
    CK_BBOOL no = CK_FALSE;
    CK_ULONG key_length = 32;
    CK_BYTE value[33];
    CK_OBJECT_HANDLE key = 0;
    CK_ATTRIBUTE template[] = {
        {CKA_PRIVATE, &no, sizeof no},
        {CKA_VALUE_LEN, &key_length, sizeof key_length},
    };
    EXPECT(CKR_OK, p11->C_GenerateKey(session, &generation, template, 2, &key));
    CK_ATTRIBUTE query = {CKA_VALUE, value, sizeof value};
    EXPECT(CKR_OK, p11->C_GetAttributeValue(session, key, &query, 1));
    CHECK(query.ulValueLen == 32);
    EXPECT(CKR_OK, p11->C_DestroyObject(session, key));
}

static void ask_of_token(CK_SESSION_HANDLE session) {
    CK_TOKEN_INFO token;
    CK_SESSION_INFO info;
    CK_MECHANISM_TYPE types[13];
    CK_ULONG count = 13;
    CK_BYTE bytes[100];
    EXPECT(CKR_OK, p11->C_GetTokenInfo(0, &token));
    CHECK(memcmp(token.label, token_label, sizeof token.label) == 0);
    EXPECT(CKR_OK, p11->C_GetMechanismList(0, types, &count));
    CHECK(count == 13 && types[0] == CKM_SHA256);
    EXPECT(CKR_OK, p11->C_GetSessionInfo(session, &info));
    CHECK(info.flags == read_write);
    EXPECT(CKR_OK, p11->C_GenerateRandom(session, bytes, sizeof bytes));
}

static void make_round(CK_SESSION_HANDLE session, CK_OBJECT_HANDLE key, char *label) {
    digest_at_once(session);
    digest_in_pieces(session);
    sign_and_verify(session, key);
    use_objects(session, label);
    use_generated_key(session);
    ask_of_token(session);
}

/* ---- Threads */

static void *work_in_own_session(void *argument) {
    int number = *(int *)argument;
    char label[64];
    for (int round = 0; round < rounds; round++) {
        CK_SESSION_HANDLE session = 0;
        snprintf(label, sizeof label, "own %d, round %d", number, round);
        EXPECT(CKR_OK, p11->C_OpenSession(0, read_write, NULL, NULL, &session));
        make_round(session, create_key(session, "Jefe"), label);
        EXPECT(CKR_OK, p11->C_CloseSession(session));
        EXPECT(CKR_SESSION_HANDLE_INVALID, p11->C_CloseSession(session));
    }
    return NULL;
}

static void *work_in_shared_session(void *argument) {
    int number = *(int *)argument;
    char label[64];
    for (int round = 0; round < rounds; round++) {
        snprintf(label, sizeof label, "shared %d, round %d", number, round);
        make_round(shared[number % SHARED_SESSIONS], shared_key, label);
    }
    return NULL;
}

static atomic_int logins, logouts;

static void *log_in_and_out(void *argument) {
    CK_SESSION_HANDLE session = shared[*(int *)argument % SHARED_SESSIONS];
    for (int round = 0; round < rounds; round++) {
        CK_RV code = p11->C_Login(session, CKU_USER, user_pin, sizeof user_pin);
        check(code == CKR_OK || code == CKR_USER_ALREADY_LOGGED_IN, "C_Login");
        logins += code == CKR_OK;
        code = p11->C_Logout(session);
        check(code == CKR_OK || code == CKR_USER_NOT_LOGGED_IN, "C_Logout");
        logouts += code == CKR_OK;
    }
    return NULL;
}

/* ---- Long messages, which are taken in while the lock is free. What is answered has to be what
 * the same bytes give in short pieces, which never are. */

enum { LONGEST_MESSAGE = 1 << 20, SHORT_PIECE = 4000, LONG_PIECE = 1 << 16, LENGTHS = 5 };

static const CK_ULONG lengths[LENGTHS] = {4095, 4096, 10000, 1 << 16, LONGEST_MESSAGE};
static CK_BYTE long_message[LONGEST_MESSAGE];
static CK_BYTE digests[LENGTHS][32], signatures[LENGTHS][32];

static int long_rounds(void) {
    return rounds / 8 + 1;
}

/* In a journal file the longest would be lines of 2 MiB. */
static int number_of_lengths(void) {
    return getenv("OSPREYRACK_JOURNAL") == NULL ? LENGTHS : LENGTHS - 1;
}

static void fill_long_message(void) {
    for (size_t i = 0; i < sizeof long_message; i++)
        long_message[i] = (CK_BYTE)(i * 7 + i / 251);
}

/* Adds bytes of the message in short pieces, or zeros where none are given. */
static void add_in_short_pieces(CK_RV (*update)(CK_SESSION_HANDLE, CK_BYTE *, CK_ULONG),
                                CK_SESSION_HANDLE session, CK_BYTE *bytes, CK_ULONG length) {
    static CK_BYTE zeros[SHORT_PIECE];
    for (CK_ULONG at = 0; at < length; at += SHORT_PIECE) {
        CK_ULONG count = length - at < SHORT_PIECE ? length - at : SHORT_PIECE;
        EXPECT(CKR_OK, update(session, bytes == NULL ? zeros : bytes + at, count));
    }
}

static void make_expected(CK_SESSION_HANDLE session, CK_OBJECT_HANDLE key) {
    CK_MECHANISM sha256 = mechanism_of(CKM_SHA256), hmac = mechanism_of(CKM_SHA256_HMAC);
    CK_ULONG room = 32;
    fill_long_message();
    for (int i = 0; i < number_of_lengths(); i++) {
        EXPECT(CKR_OK, p11->C_DigestInit(session, &sha256));
        add_in_short_pieces(p11->C_DigestUpdate, session, long_message, lengths[i]);
        EXPECT(CKR_OK, p11->C_DigestFinal(session, digests[i], &room));
        EXPECT(CKR_OK, p11->C_SignInit(session, &hmac, key));
        add_in_short_pieces(p11->C_SignUpdate, session, long_message, lengths[i]);
        EXPECT(CKR_OK, p11->C_SignFinal(session, signatures[i], &room));
    }
}

static void use_long_message(CK_SESSION_HANDLE session, CK_OBJECT_HANDLE key, int i) {
    CK_MECHANISM sha256 = mechanism_of(CKM_SHA256), hmac = mechanism_of(CKM_SHA256_HMAC);
    CK_BYTE out[32];
    CK_ULONG room = sizeof out, length = lengths[i], half = length / 2;
    EXPECT(CKR_OK, p11->C_DigestInit(session, &sha256));
    EXPECT(CKR_OK, p11->C_Digest(session, long_message, length, out, &room));
    CHECK(memcmp(out, digests[i], sizeof out) == 0);
    EXPECT(CKR_OK, p11->C_SignInit(session, &hmac, key));
    EXPECT(CKR_OK, p11->C_SignUpdate(session, long_message, half));
    EXPECT(CKR_OK, p11->C_SignUpdate(session, long_message + half, length - half));
    EXPECT(CKR_OK, p11->C_SignFinal(session, out, &room));
    CHECK(memcmp(out, signatures[i], sizeof out) == 0);
    EXPECT(CKR_OK, p11->C_VerifyInit(session, &hmac, key));
    EXPECT(CKR_OK, p11->C_Verify(session, long_message, length, out, room));
    EXPECT(CKR_OK, p11->C_VerifyInit(session, &hmac, key));
    EXPECT(CKR_OK, p11->C_VerifyUpdate(session, long_message, length));
    EXPECT(CKR_OK, p11->C_VerifyFinal(session, out, room));
}

static void *use_long_messages(void *argument) {
    int number = *(int *)argument;
    for (int round = 0; round < long_rounds(); round++) {
        CK_SESSION_HANDLE session = 0;
        EXPECT(CKR_OK, p11->C_OpenSession(0, read_write, NULL, NULL, &session));
        int length = (number + round) % number_of_lengths();
        use_long_message(session, create_key(session, "Jefe"), length);
        EXPECT(CKR_OK, p11->C_CloseSession(session));
    }
    return NULL;
}

/* Pieces that are all zeros make one message, whatever their order is. */
static void *add_long_zeros(void *ignored) {
    static CK_BYTE zeros[LONG_PIECE];
    for (int round = 0; round < long_rounds(); round++)
        EXPECT(CKR_OK, p11->C_DigestUpdate(shared[0], zeros, sizeof zeros));
    return ignored;
}

static void *add_short_zeros(void *ignored) {
    for (int round = 0; round < long_rounds(); round++)
        add_in_short_pieces(p11->C_DigestUpdate, shared[0], NULL, SHORT_PIECE);
    return ignored;
}

/* An update that the module makes in three pieces, of zeros, too. */
enum { LARGE_MESSAGE = 2 * LONGEST_MESSAGE + SHORT_PIECE };

static CK_BYTE large_zeros[LARGE_MESSAGE], digest_of_zeros[32];

static void digest_large_zeros(CK_SESSION_HANDLE session) {
    CK_MECHANISM sha256 = mechanism_of(CKM_SHA256);
    CK_BYTE out[32];
    CK_ULONG room = sizeof out;
    EXPECT(CKR_OK, p11->C_DigestInit(session, &sha256));
    EXPECT(CKR_OK, p11->C_DigestUpdate(session, large_zeros, sizeof large_zeros));
    EXPECT(CKR_OK, p11->C_DigestFinal(session, out, &room));
    CHECK(memcmp(out, digest_of_zeros, sizeof out) == 0);
}

/* In a journal file the pieces are lines of 2 MiB, so there it is one round. */
static void *update_in_pieces(void *ignored) {
    int count = getenv("OSPREYRACK_JOURNAL") == NULL ? long_rounds() : 1;
    for (int round = 0; round < count; round++) {
        CK_SESSION_HANDLE session = 0;
        EXPECT(CKR_OK, p11->C_OpenSession(0, read_write, NULL, NULL, &session));
        digest_large_zeros(session);
        EXPECT(CKR_OK, p11->C_CloseSession(session));
    }
    return ignored;
}

/* A session that other threads close, and a key whose state they change. */
static _Atomic CK_SESSION_HANDLE moving_session;

static bool is_one_of(CK_RV code, const CK_RV *codes, size_t count) {
    for (size_t i = 0; i < count; i++) {
        if (code == codes[i])
            return true;
    }
    return false;
}

static atomic_int signed_messages, disturbers;

/* Signs where the operation, the session or the key may end at any time. Once nobody disturbs any
 * more, a message is signed. */
static void *sign_long_messages(void *argument) {
    static const CK_RV refusals[] = {
        CKR_OPERATION_ACTIVE,           CKR_OPERATION_NOT_INITIALIZED,
        CKR_KEY_FUNCTION_NOT_PERMITTED, CKR_SESSION_HANDLE_INVALID,
    };
    CK_MECHANISM hmac = mechanism_of(CKM_SHA256_HMAC);
    CK_BYTE out[32];
    for (int round = 0; round < 4 * long_rounds() || signed_messages == 0; round++) {
        int i = (*(int *)argument + round) % number_of_lengths();
        CK_ULONG room = sizeof out;
        CK_SESSION_HANDLE session = moving_session;
        CK_RV code = p11->C_SignInit(session, &hmac, shared_key);
        if (code == CKR_OK || code == CKR_OPERATION_ACTIVE)
            code = p11->C_Sign(session, long_message, lengths[i], out, &room);
        signed_messages += code == CKR_OK;
        if (code == CKR_OK)
            CHECK(memcmp(out, signatures[i], sizeof out) == 0);
        else
            check(is_one_of(code, refusals, sizeof refusals / sizeof *refusals), "C_Sign");
    }
    return NULL;
}

static void *disturb(void *argument) {
    const struct ospreyrack_functions *vendor = vendor_functions();
    int number = *(int *)argument;
    for (int round = 0; round < 20 * long_rounds(); round++) {
        CK_SESSION_HANDLE session = moving_session, opened = 0;
        switch ((number + round) % 4) {
        case 0:
            p11->C_SessionCancel(session, CKF_SIGN);
            break;
        case 1:
            vendor->C_SetKeyState(shared[0], shared_key, OSPREYRACK_SUSPENDED);
            break;
        case 2:
            vendor->C_SetKeyState(shared[0], shared_key, OSPREYRACK_ACTIVE);
            break;
        default:
            if (p11->C_CloseSession(session) != CKR_OK)
                break;
            EXPECT(CKR_OK, p11->C_OpenSession(0, read_write, NULL, NULL, &opened));
            moving_session = opened;
        }
    }
    if (--disturbers == 0)
        vendor->C_SetKeyState(shared[0], shared_key, OSPREYRACK_ACTIVE);
    return NULL;
}

/* The child has this thread only, and begins anew. */
static int see_as_child(void) {
    CK_INFO info;
    unsetenv("OSPREYRACK_JOURNAL");
    if (p11->C_GetInfo(&info) != CKR_CRYPTOKI_NOT_INITIALIZED)
        return 1;
    if (p11->C_Initialize(NULL) != CKR_OK || p11->C_GetInfo(&info) != CKR_OK)
        return 2;
    return p11->C_Finalize(NULL) == CKR_OK ? 0 : 3;
}

static void *fork_children(void *ignored) {
    for (int i = 0; i < 2; i++) {
        int status = -1;
        pid_t child = fork();
        if (child == 0)
            _exit(see_as_child());
        waitpid(child, &status, 0);
        check(WIFEXITED(status) && WEXITSTATUS(status) == 0, "a child begins anew");
    }
    return ignored;
}

/* ---- The application's mutex functions */

static bool has_mutexes;
static atomic_int mutexes; /* that are there */

static CK_RV create_mutex(CK_VOID_PTR_PTR mutex) {
    *mutex = malloc(sizeof(pthread_mutex_t));
    if (*mutex == NULL)
        return CKR_HOST_MEMORY;
    mutexes++;
    return pthread_mutex_init(*mutex, NULL) == 0 ? CKR_OK : CKR_GENERAL_ERROR;
}

static CK_RV destroy_mutex(CK_VOID_PTR mutex) {
    pthread_mutex_destroy(mutex);
    free(mutex);
    mutexes--;
    return CKR_OK;
}

static CK_RV lock_mutex(CK_VOID_PTR mutex) {
    return pthread_mutex_lock(mutex) == 0 ? CKR_OK : CKR_MUTEX_BAD;
}

static CK_RV unlock_mutex(CK_VOID_PTR mutex) {
    return pthread_mutex_unlock(mutex) == 0 ? CKR_OK : CKR_MUTEX_BAD;
}

static atomic_int initialized;

static void *initialize(void *argument) {
    CK_C_INITIALIZE_ARGS functions = {
        .CreateMutex = create_mutex,
        .DestroyMutex = destroy_mutex,
        .LockMutex = lock_mutex,
        .UnlockMutex = unlock_mutex,
    };
    (void)argument;
    CK_RV code = p11->C_Initialize(has_mutexes ? &functions : NULL);
    check(code == CKR_OK || code == CKR_CRYPTOKI_ALREADY_INITIALIZED, "C_Initialize");
    initialized += code == CKR_OK;
    return NULL;
}

/* The first half of the threads does the one, and the second half the other. */
static void run_threads(void *(*first)(void *), void *(*second)(void *)) {
    static int numbers[MOST_THREADS];
    pthread_t started[MOST_THREADS];
    for (int i = 0; i < threads; i++) {
        numbers[i] = i;
        if (pthread_create(&started[i], NULL, i < threads / 2 ? first : second, &numbers[i]) != 0)
            exit(2);
    }
    for (int i = 0; i < threads; i++)
        pthread_join(started[i], NULL);
}

/* ---- C_Finalize beside calls */

static atomic_int finalized;

static void *ask_until_end(void *ignored) {
    CK_TOKEN_INFO info;
    CK_RV code = CKR_OK;
    while (code == CKR_OK)
        code = p11->C_GetTokenInfo(0, &info);
    EXPECT(CKR_CRYPTOKI_NOT_INITIALIZED, code);
    return ignored;
}

static void *finalize(void *ignored) {
    CK_RV code = p11->C_Finalize(NULL);
    check(code == CKR_OK || code == CKR_CRYPTOKI_NOT_INITIALIZED, "C_Finalize");
    finalized += code == CKR_OK;
    return ignored;
}

/* ---- A lock that fails between the pieces of an update, beside calls */

/* The last of this many locks that the thread takes fails. */
static _Thread_local int locks_until_failure;

static CK_RV lock_or_fail(CK_VOID_PTR mutex) {
    if (locks_until_failure > 0 && --locks_until_failure == 0)
        return CKR_MUTEX_BAD;
    return lock_mutex(mutex);
}

static void begin_with_failing_locks(void) {
    CK_C_INITIALIZE_ARGS functions = {
        .CreateMutex = create_mutex,
        .DestroyMutex = destroy_mutex,
        .LockMutex = lock_or_fail,
        .UnlockMutex = unlock_mutex,
    };
    EXPECT(CKR_OK, p11->C_Initialize(&functions));
    log_in();
}

static atomic_int failed_updates;

/* The lock is taken three times for a long piece, so it fails behind the first one. From then on no
 * call of any thread is answered. */
static void *update_and_fail(void *ignored) {
    CK_MECHANISM sha256 = mechanism_of(CKM_SHA256);
    CK_SESSION_HANDLE session = 0;
    CK_RV code = p11->C_OpenSession(0, read_write, NULL, NULL, &session);
    if (code == CKR_OK)
        code = p11->C_DigestInit(session, &sha256);
    locks_until_failure = 4;
    if (code == CKR_OK)
        code = p11->C_DigestUpdate(session, large_zeros, sizeof large_zeros);
    locks_until_failure = 0;
    check(code == CKR_GENERAL_ERROR || code == CKR_DEVICE_ERROR, "an update whose lock fails");
    failed_updates += code == CKR_GENERAL_ERROR;
    return ignored;
}

static void *ask_until_error(void *ignored) {
    CK_TOKEN_INFO info;
    CK_RV code = CKR_OK;
    while (code == CKR_OK)
        code = p11->C_GetTokenInfo(0, &info);
    EXPECT(CKR_DEVICE_ERROR, code);
    return ignored;
}

/* ---- Lives of the library: two threads finalize it and initialize it anew, again and again, and
 * others make calls without pause. The standard leaves undefined what C_Finalize does beside calls.
 * Here each call is made before it, or is answered CKR_CRYPTOKI_NOT_INITIALIZED, or is made in
 * a later life (docs/module.md, What it answers).
 *
 * A later life's token may give the same handles. So a thread works only in sessions of which the
 * handle, divided by the number of these threads, leaves its own number: no other thread has an
 * operation there, and one that can go on was begun by this thread in the same life. */

enum { PARTS = 5, OWN_LENGTH = 1 << 16, MOST_SECONDS = 10 };

/* Of a thread's own message, long parts and short ones. */
static const CK_ULONG parts[PARTS] = {20000, 4095, 4096, 34000, 3345};
static CK_BYTE own_digests[MOST_THREADS][32];

/* Where a journal file is kept, the token goes on from another one in each life. */
static char token_file[4096];

static atomic_int whole_digests, broken_digests; /* of those that were begun */
static atomic_int refused_calls, late_calls;      /* without a life, and in a later one */
static atomic_int ends_begun, ends_made;          /* calls of C_Finalize */
static atomic_int renewers;
static time_t last_second;

static bool has_seen_all(void) {
    return whole_digests > 0 && broken_digests > 0 && refused_calls > 0 && late_calls > 0;
}

/* Where other programs have the processors, few lives begin in these seconds. So the time isn't
 * over before all was seen. */
static bool has_time(void) {
    return time(NULL) <= last_second || !has_seen_all();
}

static CK_BYTE *own_message(int number) {
    return long_message + 4096 * number;
}

static void make_own_digests(void) {
    CK_MECHANISM sha256 = mechanism_of(CKM_SHA256);
    CK_SESSION_HANDLE session = log_in();
    fill_long_message();
    for (int i = 0; i < threads / 2; i++) {
        CK_ULONG room = sizeof own_digests[i];
        EXPECT(CKR_OK, p11->C_DigestInit(session, &sha256));
        add_in_short_pieces(p11->C_DigestUpdate, session, own_message(i), OWN_LENGTH);
        EXPECT(CKR_OK, p11->C_DigestFinal(session, own_digests[i], &room));
    }
}

/* What calls may be answered besides CKR_OK: the token of a later life isn't initialized at first,
 * and doesn't have the session, or has one of this handle without an operation. */
static const CK_RV without_token[] = {
    CKR_CRYPTOKI_NOT_INITIALIZED, CKR_TOKEN_NOT_RECOGNIZED,
};
static const CK_RV without_session[] = {
    CKR_CRYPTOKI_NOT_INITIALIZED, CKR_SESSION_HANDLE_INVALID,
};
static const CK_RV without_operation[] = {
    CKR_CRYPTOKI_NOT_INITIALIZED, CKR_SESSION_HANDLE_INVALID, CKR_OPERATION_NOT_INITIALIZED,
};

static bool is_made(CK_RV code, const CK_RV *refusals, size_t count, const char *what) {
    check_code(is_one_of(code, refusals, count) ? CKR_OK : code, CKR_OK, what);
    refused_calls += code == CKR_CRYPTOKI_NOT_INITIALIZED;
    late_calls += code == CKR_SESSION_HANDLE_INVALID;
    return code == CKR_OK;
}

#define IS_MADE(call, refusals) is_made((call), refusals, sizeof refusals / sizeof *refusals, #call)

/* Adds the parts until one is refused, as the next one must be where C_Finalize was called and
 * answered since the start of the digest. */
static bool add_own_parts(CK_SESSION_HANDLE session, int number) {
    CK_BYTE *part = own_message(number);
    int begun = ends_begun;
    bool is_added = true;
    for (int i = 0; is_added && i < PARTS; i++) {
        bool has_ended = ends_made > begun;
        is_added = IS_MADE(p11->C_DigestUpdate(session, part, parts[i]), without_operation);
        CHECK(!(is_added && has_ended));
        part += parts[i];
    }
    return is_added;
}

static void digest_own_message(CK_SESSION_HANDLE session, int number) {
    CK_MECHANISM sha256 = mechanism_of(CKM_SHA256);
    CK_BYTE digest[32];
    CK_ULONG room = sizeof digest;
    if (!IS_MADE(p11->C_DigestInit(session, &sha256), without_session))
        return;
    bool is_whole = add_own_parts(session, number)
        && IS_MADE(p11->C_DigestFinal(session, digest, &room), without_operation);
    if (is_whole)
        CHECK(room == 32 && memcmp(digest, own_digests[number], sizeof digest) == 0);
    whole_digests += is_whole;
    broken_digests += !is_whole;
}

static void *call_through_lives(void *argument) {
    int number = *(int *)argument;
    CK_ULONG callers = (CK_ULONG)(threads / 2);
    CK_SESSION_INFO info;
    while (renewers > 0) {
        CK_SESSION_HANDLE session = 0;
        if (!IS_MADE(p11->C_OpenSession(0, read_write, NULL, NULL, &session), without_token))
            continue;
        if (IS_MADE(p11->C_GetSessionInfo(session, &info), without_session))
            CHECK(info.flags == read_write && info.state == CKS_RW_PUBLIC_SESSION);
        if (session % callers == (CK_ULONG)number)
            digest_own_message(session, number);
        IS_MADE(p11->C_CloseSession(session), without_session);
    }
    return NULL;
}

/* The other thread may have begun this life, so that sessions are open, or have ended it again. */
static void begin_life(void) {
    initialize(NULL);
    CK_RV code = p11->C_InitToken(0, so_pin, sizeof so_pin, token_label);
    check(code == CKR_OK || code == CKR_CRYPTOKI_NOT_INITIALIZED || code == CKR_SESSION_EXISTS,
          "C_InitToken");
}

static void wait_a_moment(void) {
    const struct timespec moment = {.tv_nsec = 20000};
    nanosleep(&moment, NULL);
}

static void wait_for_digests(int more) {
    int wanted = whole_digests + more;
    while (whole_digests < wanted && has_time())
        wait_a_moment();
}

/* Or until the other thread has begun one life more than these: in it no call is refused. */
static void wait_for_refusals(int more, int lives) {
    int wanted = refused_calls + more;
    while (refused_calls < wanted && initialized == lives && has_time())
        wait_a_moment();
}

/* Each C_Initialize makes the calls of a token's file again, so with one the lives are fewer. */
static bool has_more_lives(int round) {
    int lives = token_file[0] == '\0' ? rounds : long_rounds();
    return has_time() && (round < lives || !has_seen_all());
}

/* Some lives end at once, and others when digests were made in them. Some begin at once, and others
 * when calls were refused. */
static void *renew(void *argument) {
    int number = *(int *)argument - threads / 2;
    for (int round = 0; number < 2 && has_more_lives(round); round++) {
        wait_for_digests(round % 4);
        int lives = initialized;
        ends_begun++;
        finalize(NULL);
        ends_made++;
        wait_for_refusals(round % 3, lives);
        begin_life();
    }
    renewers--;
    return NULL;
}

static void use_last_life(void) {
    char label[] = "in the last life";
    initialize(NULL);
    CK_SESSION_HANDLE session = log_in();
    make_round(session, create_key(session, "Jefe"), label);
    end_token();
    EXPECT(CKR_CRYPTOKI_NOT_INITIALIZED, p11->C_Finalize(NULL));
}

/* ---- Tests. The library stays initialized from the first to the last but three. */

static void test_initialize(void) {
    run_threads(initialize, initialize);
    CHECK(initialized == 1);
    shared[0] = log_in();
    for (int i = 1; i < SHARED_SESSIONS; i++)
        EXPECT(CKR_OK, p11->C_OpenSession(0, read_write, NULL, NULL, &shared[i]));
    shared_key = create_key(shared[0], "Jefe");
}

static void test_own_sessions(void) {
    run_threads(work_in_own_session, work_in_own_session);
}

static void test_shared_sessions(void) {
    run_threads(work_in_shared_session, work_in_shared_session);
}

static void test_both(void) {
    run_threads(work_in_own_session, work_in_shared_session);
}

static void test_long_messages(void) {
    make_expected(shared[0], shared_key);
    run_threads(use_long_messages, use_long_messages);
    run_threads(use_long_messages, work_in_shared_session);
}

static void test_added_pieces(void) {
    CK_MECHANISM sha256 = mechanism_of(CKM_SHA256);
    CK_BYTE out[32], expected[32];
    CK_ULONG room = sizeof out;
    CK_ULONG added = (CK_ULONG)long_rounds() * ((CK_ULONG)(threads / 2) * LONG_PIECE
        + (CK_ULONG)(threads - threads / 2) * SHORT_PIECE);
    EXPECT(CKR_OK, p11->C_DigestInit(shared[0], &sha256));
    run_threads(add_long_zeros, add_short_zeros);
    EXPECT(CKR_OK, p11->C_DigestFinal(shared[0], out, &room));
    EXPECT(CKR_OK, p11->C_DigestInit(shared[0], &sha256));
    add_in_short_pieces(p11->C_DigestUpdate, shared[0], NULL, added);
    EXPECT(CKR_OK, p11->C_DigestFinal(shared[0], expected, &room));
    CHECK(memcmp(out, expected, sizeof out) == 0);
}

static void test_updates_in_pieces(void) {
    CK_MECHANISM sha256 = mechanism_of(CKM_SHA256);
    CK_ULONG room = sizeof digest_of_zeros;
    EXPECT(CKR_OK, p11->C_DigestInit(shared[0], &sha256));
    add_in_short_pieces(p11->C_DigestUpdate, shared[0], NULL, LARGE_MESSAGE);
    EXPECT(CKR_OK, p11->C_DigestFinal(shared[0], digest_of_zeros, &room));
    run_threads(update_in_pieces, work_in_shared_session);
}

static void test_disturbed_signing(void) {
    CK_SESSION_HANDLE session = 0;
    EXPECT(CKR_OK, p11->C_OpenSession(0, read_write, NULL, NULL, &session));
    moving_session = session;
    disturbers = threads - threads / 2;
    run_threads(sign_long_messages, disturb);
    CHECK(signed_messages > 0 && disturbers == 0);
    EXPECT(CKR_OK, p11->C_CloseSession(moving_session));
}

static void test_forks(void) {
    run_threads(work_in_own_session, fork_children);
}

static void test_logins(void) {
    EXPECT(CKR_OK, p11->C_Logout(shared[0]));
    run_threads(log_in_and_out, log_in_and_out);
    CHECK(logins == logouts && logins > 0);
    CK_TOKEN_INFO info;
    EXPECT(CKR_OK, p11->C_GetTokenInfo(0, &info));
    CHECK(info.ulSessionCount == SHARED_SESSIONS);
    end_token();
}

/* A second C_Initialize can't have the journal of the first. */
static void test_finalize(void) {
    unsetenv("OSPREYRACK_JOURNAL");
    for (int round = 0; round < rounds; round++) {
        initialized = finalized = 0;
        initialize(NULL);
        run_threads(ask_until_end, finalize);
        CHECK(initialized == 1 && finalized == 1);
    }
}

static void test_failing_locks(void) {
    begin_with_failing_locks();
    failed_updates = 0;
    run_threads(update_and_fail, ask_until_error);
    CHECK(failed_updates > 0);
    end_token();
    begin_with_failing_locks();
    end_token();
}

/* The two threads end with C_Initialize, so with one more C_Finalize all lives have ended. */
static void test_lives(void) {
    if (token_file[0] != '\0')
        setenv("OSPREYRACK_TOKEN", token_file, 1);
    initialized = finalized = 0;
    initialize(NULL);
    make_own_digests();
    finalize(NULL);
    begin_life();
    renewers = threads - threads / 2;
    last_second = time(NULL) + MOST_SECONDS;
    run_threads(call_through_lives, renew);
    finalize(NULL);
    CHECK(has_seen_all());
    CHECK(initialized == finalized && mutexes == 0);
    use_last_life();
    unsetenv("OSPREYRACK_TOKEN");
}

static const struct test tests[] = {
    {"threads initialize at once, and one of them does it", test_initialize},
    {"threads in sessions of their own", test_own_sessions},
    {"threads in sessions that they share", test_shared_sessions},
    {"threads in their own sessions and in shared ones", test_both},
    {"long messages in sessions of their own, and short ones beside them", test_long_messages},
    {"long and short pieces are added to one message", test_added_pieces},
    {"updates above 2^20 bytes in sessions of their own, and short calls beside them",
     test_updates_in_pieces},
    {"long messages are signed where operations, sessions and keys change", test_disturbed_signing},
    {"threads make calls, and others fork", test_forks},
    {"threads log in and out; C_Finalize", test_logins},
    {"threads finalize the library, and others make calls", test_finalize},
    {"a lock fails between the pieces of an update, and others make calls", test_failing_locks},
    {"threads make calls through many lives of the library", test_lives},
};

int main(int count, char **arguments) {
    char name[100];
    has_mutexes = count == 5 && strcmp(arguments[4], "mutexes") == 0;
    if (count != 4 && !has_mutexes) {
        fprintf(stderr, "threads MODULE THREADS ROUNDS [mutexes]\n");
        return 2;
    }
    threads = atoi(arguments[2]);
    rounds = atoi(arguments[3]);
    if (threads < 2 || threads > MOST_THREADS)
        return 2;
    snprintf(name, sizeof name, "threads, %d%s%s%s", threads,
             getenv("OSPREYRACK_JOURNAL") == NULL ? "" : " with a journal",
             getenv("OSPREYRACK_SEED") == NULL ? "" : " with a seed",
             has_mutexes ? " with the application's mutexes" : "");
    if (getenv("OSPREYRACK_JOURNAL") != NULL)
        snprintf(token_file, sizeof token_file, "%s.lives", getenv("OSPREYRACK_JOURNAL"));
    load_module(arguments[1]);
    return run_tests(name, tests, sizeof tests / sizeof *tests);
}
