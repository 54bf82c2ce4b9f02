/*
 * The conventions of the C interface, which the token itself knows nothing of: pointers, lengths
 * and rooms, the order of initialization, the lists of functions, the application's lock, forks and
 * the environment variables. Called with the module's file and a temporary folder, and with the
 * word `journals` where each token is to keep a journal there, or the word `built` where the module
 * is the one that module/build makes, and not a sanitized one. It is linked with -rdynamic, so that
 * its own C_GetFunctionList is there for all libraries, as that of p11-kit may be. The tests stand
 * in several files, which conventions.h names; here are those of the lists of functions and of the
 * arguments of C_Initialize.
 */
#include "conventions.h"

#include <stdio.h>
#include <stdlib.h>
#include <string.h>
#include <time.h>
#include <unistd.h>

const char *folder;
bool has_journals;

static char path[4096];

const char *path_of(const char *name) {
    snprintf(path, sizeof path, "%s/%s", folder, name);
    return path;
}

const CK_FLAGS read_write = CKF_SERIAL_SESSION | CKF_RW_SESSION;

CK_BYTE bytes[64] = "bytes";
CK_ULONG length;

/* ---- Every function of the list, by its name */

struct function {
    const char *name;
    size_t offset; /* in the function list */
};

#define CK_PKCS11_3_0 1
#define CK_PKCS11_FUNCTION_INFO(name) {#name, offsetof(CK_FUNCTION_LIST_3_0, name)},

static const struct function functions[] = {
#include <pkcs11f.h>
};

#undef CK_PKCS11_FUNCTION_INFO

enum { FUNCTIONS = sizeof functions / sizeof *functions };

/* No function has more than nine arguments, and each of them is a number or a pointer. */
typedef CK_RV (*any_function)(CK_ULONG, CK_ULONG, CK_ULONG, CK_ULONG, CK_ULONG, CK_ULONG, CK_ULONG,
                              CK_ULONG, CK_ULONG);

static any_function function_at(const void *list, size_t offset) {
    any_function function;
    memcpy(&function, (const char *)list + offset, sizeof function);
    return function;
}

/* Behind the first argument all are zeros. */
static CK_RV call_with(const struct function *function, CK_ULONG first) {
    return function_at(p11, function->offset)(first, 0, 0, 0, 0, 0, 0, 0, 0);
}

static CK_RV call_with_zeros(const struct function *function) {
    return call_with(function, 0);
}

static bool is_one_of(const char *name, const char *const *names) {
    for (; *names != NULL; names++) {
        if (strcmp(*names, name) == 0)
            return true;
    }
    return false;
}

/* ---- Lists of functions */

/* Another library's function, which mustn't take the place of the module's. */
CK_RV C_GetFunctionList(CK_FUNCTION_LIST_PTR_PTR list) {
    (void)list;
    return CKR_FUNCTION_FAILED;
}

static void test_lists(void) {
    CK_FUNCTION_LIST *old = NULL;
    CHECK(p11->version.major == 3 && p11->version.minor == 0);
    EXPECT(CKR_OK, p11->C_GetFunctionList(&old));
    CHECK(old != NULL && old->version.major == 2 && old->version.minor == 40);
    for (size_t i = 0; i < FUNCTIONS; i++) {
        const struct function *function = &functions[i];
        void *symbol = exported(function->name);
        any_function address = function_at(p11, function->offset);
        check(symbol != NULL && memcmp(&symbol, &address, sizeof symbol) == 0, function->name);
        if (old != NULL && function->offset < sizeof *old)
            check(function_at(old, function->offset) == address, function->name);
    }
    CHECK(exported("C_SetKeyState") == NULL);
    CHECK(exported("ospreyrack_line") == NULL);
}

static bool is_interface(const CK_INTERFACE *interface, const char *name, int major, int minor) {
    const CK_VERSION *version = interface->pFunctionList;
    return strcmp((const char *)interface->pInterfaceName, name) == 0 && version->major == major
        && version->minor == minor && interface->flags == 0;
}

static void test_interfaces(void) {
    static CK_UTF8CHAR standard[] = "PKCS 11", vendor[] = "Vendor Ospreyrack";
    static CK_UTF8CHAR others[][9] = {"PKCS 12", "", "PKCS", "PKCS 111", "Vendor"};
    CK_VERSION v3_0 = {3, 0}, v2_40 = {2, 40}, v1_0 = {1, 0}, v3_1 = {3, 1}, v2_0 = {2, 0};
    CK_INTERFACE *interface = NULL;
    EXPECT(CKR_OK, p11->C_GetInterface(NULL, NULL, &interface, 0));
    CHECK(is_interface(interface, "PKCS 11", 3, 0));
    EXPECT(CKR_OK, p11->C_GetInterface(standard, NULL, &interface, 0));
    CHECK(is_interface(interface, "PKCS 11", 3, 0));
    EXPECT(CKR_OK, p11->C_GetInterface(NULL, &v3_0, &interface, 0));
    CHECK(interface->pFunctionList == p11);
    EXPECT(CKR_OK, p11->C_GetInterface(standard, &v2_40, &interface, 0));
    CHECK(is_interface(interface, "PKCS 11", 2, 40));
    EXPECT(CKR_OK, p11->C_GetInterface(NULL, &v2_40, &interface, 0));
    CHECK(is_interface(interface, "PKCS 11", 2, 40));
    EXPECT(CKR_OK, p11->C_GetInterface(vendor, &v1_0, &interface, 0));
    CHECK(is_interface(interface, "Vendor Ospreyrack", 1, 0));
    for (size_t i = 0; i < sizeof others / sizeof *others; i++)
        EXPECT(CKR_ARGUMENTS_BAD, p11->C_GetInterface(others[i], NULL, &interface, 0));
    EXPECT(CKR_ARGUMENTS_BAD, p11->C_GetInterface(standard, &v3_1, &interface, 0));
    EXPECT(CKR_ARGUMENTS_BAD, p11->C_GetInterface(standard, &v2_0, &interface, 0));
    EXPECT(CKR_ARGUMENTS_BAD, p11->C_GetInterface(vendor, &v2_40, &interface, 0));
    /* Without a name it is the standard's interface that is asked for. */
    EXPECT(CKR_ARGUMENTS_BAD, p11->C_GetInterface(NULL, &v1_0, &interface, 0));
    EXPECT(CKR_ARGUMENTS_BAD,
           p11->C_GetInterface(NULL, NULL, &interface, CKF_INTERFACE_FORK_SAFE));
    EXPECT(CKR_ARGUMENTS_BAD, p11->C_GetInterface(NULL, NULL, &interface, 2));
    check(is_interface(interface, "Vendor Ospreyrack", 1, 0), "what is refused gives no interface");
    EXPECT(CKR_ARGUMENTS_BAD, p11->C_GetInterface(NULL, NULL, NULL, 0));
    EXPECT(CKR_ARGUMENTS_BAD, p11->C_GetFunctionList(NULL));
    EXPECT(CKR_ARGUMENTS_BAD, p11->C_GetInterfaceList(NULL, NULL));
}

/* The list has the interfaces that are given by name and version. */
static void test_interface_list(void) {
    static CK_UTF8CHAR standard[] = "PKCS 11", vendor[] = "Vendor Ospreyrack";
    static CK_UTF8CHAR *const names[] = {standard, standard, vendor};
    CK_VERSION versions[] = {{3, 0}, {2, 40}, {1, 0}};
    CK_INTERFACE list[3], *interface = NULL;
    CK_ULONG count = 3;
    memset(list, 0xff, sizeof list);
    EXPECT(CKR_OK, p11->C_GetInterfaceList(list, &count));
    CHECK(count == 3);
    for (int i = 0; i < 3; i++) {
        EXPECT(CKR_OK, p11->C_GetInterface(names[i], &versions[i], &interface, 0));
        CHECK(list[i].pInterfaceName == interface->pInterfaceName);
        CHECK(list[i].pFunctionList == interface->pFunctionList);
        CHECK(list[i].flags == interface->flags);
    }
}

static void test_vendor_interface(void) {
    CK_MECHANISM hmac = mechanism_of(CKM_SHA256_HMAC);
    const struct ospreyrack_functions *vendor = vendor_functions();
    EXPECT(CKR_CRYPTOKI_NOT_INITIALIZED, vendor->C_SetKeyState(1, 1, 5));
    CK_SESSION_HANDLE session = begin_token();
    CK_OBJECT_HANDLE key = create_key(session, "Jefe");
    EXPECT(CKR_OK, vendor->C_SetKeyState(session, key, 5));
    EXPECT(CKR_KEY_FUNCTION_NOT_PERMITTED, p11->C_SignInit(session, &hmac, key));
    EXPECT(CKR_OK, p11->C_VerifyInit(session, &hmac, key));
    EXPECT(CKR_ARGUMENTS_BAD, vendor->C_SetKeyState(session, key, 99));
    EXPECT(CKR_ACTION_PROHIBITED, vendor->C_SetKeyState(session, key, 5));
    EXPECT(CKR_KEY_HANDLE_INVALID, vendor->C_SetKeyState(session, 0, 1));
    EXPECT(CKR_SESSION_HANDLE_INVALID, vendor->C_SetKeyState(0, key, 1));
    end_token();
}

/* A key in pre-activation. */
static CK_OBJECT_HANDLE create_inactive_key(CK_SESSION_HANDLE session) {
    CK_OBJECT_CLASS class = CKO_SECRET_KEY;
    CK_KEY_TYPE type = CKK_GENERIC_SECRET;
    CK_ULONG state = OSPREYRACK_PRE_ACTIVATION;
    CK_OBJECT_HANDLE key = 0;
    CK_ATTRIBUTE template[] = {
        {CKA_CLASS, &class, sizeof class},
        {CKA_KEY_TYPE, &type, sizeof type},
        {CKA_OSPREYRACK_KEY_STATE, &state, sizeof state},
        {CKA_VALUE, user_pin, sizeof user_pin},
    };
    EXPECT(CKR_OK, p11->C_CreateObject(session, template, 4, &key));
    return key;
}

static void check_key_state(CK_SESSION_HANDLE session, CK_OBJECT_HANDLE key, CK_ULONG expected,
                            CK_RV signing) {
    CK_MECHANISM hmac = mechanism_of(CKM_SHA256_HMAC);
    CK_ULONG state = 77;
    CK_ATTRIBUTE query = {CKA_OSPREYRACK_KEY_STATE, &state, sizeof state};
    EXPECT(CKR_OK, p11->C_GetAttributeValue(session, key, &query, 1));
    CHECK(state == expected);
    EXPECT(signing, p11->C_SignInit(session, &hmac, key));
}

/* Through all states by their names in the header, in an order that the token lets a key take. */
static void test_key_states(void) {
    static const CK_ULONG later[] = {OSPREYRACK_SUSPENDED, OSPREYRACK_DEACTIVATED,
                                     OSPREYRACK_COMPROMISED, OSPREYRACK_DESTROYED};
    const struct ospreyrack_functions *vendor = vendor_functions();
    CK_SESSION_HANDLE session = begin_token();
    CK_OBJECT_HANDLE key = create_inactive_key(session);
    check_key_state(session, key, OSPREYRACK_PRE_ACTIVATION, CKR_KEY_FUNCTION_NOT_PERMITTED);
    EXPECT(CKR_OK, vendor->C_SetKeyState(session, key, OSPREYRACK_ACTIVE));
    check_key_state(session, key, OSPREYRACK_ACTIVE, CKR_OK);
    EXPECT(CKR_OK, p11->C_SessionCancel(session, CKF_SIGN));
    for (size_t i = 0; i < sizeof later / sizeof *later; i++) {
        EXPECT(CKR_OK, vendor->C_SetKeyState(session, key, later[i]));
        check_key_state(session, key, later[i], CKR_KEY_FUNCTION_NOT_PERMITTED);
    }
    end_token();
}

/* ---- The order of initialization */

static const char *const always_answered[] = {
    "C_Initialize", "C_GetFunctionList", "C_GetInterface", "C_GetInterfaceList", NULL,
};

static const char *const of_slot[] = {
    "C_GetSlotInfo", "C_GetTokenInfo", "C_GetMechanismList", "C_GetMechanismInfo", "C_InitToken",
    "C_OpenSession", "C_CloseAllSessions", NULL,
};

/* Each other function answers this before it looks at an argument, be it a pointer that is NULL, a
 * session that isn't open or a slot that isn't there. */
static void check_each_code(CK_RV expected) {
    for (size_t i = 0; i < FUNCTIONS; i++) {
        const char *name = functions[i].name;
        if (is_one_of(name, always_answered))
            continue;
        check_code(call_with_zeros(&functions[i]), expected, name);
        if (is_one_of(name, of_slot))
            check_code(call_with(&functions[i], 1), expected, name);
    }
}

static void check_not_initialized(void) {
    check_each_code(CKR_CRYPTOKI_NOT_INITIALIZED);
}

static void test_order(void) {
    check_not_initialized();
    EXPECT(CKR_OK, p11->C_Initialize(NULL));
    EXPECT(CKR_CRYPTOKI_ALREADY_INITIALIZED, p11->C_Initialize(NULL));
    CK_C_INITIALIZE_ARGS bad = {.LibraryParameters = (void *)token_label};
    EXPECT(CKR_CRYPTOKI_ALREADY_INITIALIZED, p11->C_Initialize(&bad));
    EXPECT(CKR_ARGUMENTS_BAD, p11->C_Finalize(token_label));
    CK_SESSION_HANDLE session = log_in();
    EXPECT(CKR_OK, p11->C_Finalize(NULL));
    check_not_initialized();
    EXPECT(CKR_CRYPTOKI_NOT_INITIALIZED, p11->C_Finalize(token_label));
    EXPECT(CKR_OK, p11->C_Initialize(NULL));
    EXPECT(CKR_SESSION_HANDLE_INVALID, p11->C_CloseSession(session));
    CK_TOKEN_INFO info;
    EXPECT(CKR_OK, p11->C_GetTokenInfo(0, &info));
    check((info.flags & CKF_TOKEN_INITIALIZED) == 0, "C_Initialize makes a new token");
    end_token();
}

/* Another slot is refused before a pointer is looked at. */
static void test_other_slot(void) {
    begin_token();
    for (size_t i = 0; i < FUNCTIONS; i++) {
        if (is_one_of(functions[i].name, of_slot))
            check_code(call_with(&functions[i], 1), CKR_SLOT_ID_INVALID, functions[i].name);
    }
    end_token();
}

/* ---- Functions that aren't supported */

static const char *const supported[] = {
    "C_Initialize", "C_Finalize", "C_GetInfo", "C_GetFunctionList", "C_GetInterface",
    "C_GetInterfaceList", "C_GetSlotList", "C_GetSlotInfo", "C_GetTokenInfo", "C_GetMechanismList",
    "C_GetMechanismInfo", "C_WaitForSlotEvent", "C_InitToken", "C_InitPIN", "C_SetPIN",
    "C_OpenSession", "C_CloseSession", "C_CloseAllSessions", "C_GetSessionInfo", "C_SessionCancel",
    "C_Login", "C_Logout", "C_CreateObject", "C_CopyObject", "C_DestroyObject", "C_GetObjectSize",
    "C_GetAttributeValue", "C_SetAttributeValue", "C_FindObjectsInit", "C_FindObjects",
    "C_FindObjectsFinal", "C_DigestInit", "C_Digest", "C_DigestUpdate", "C_DigestFinal",
    "C_SignInit", "C_Sign", "C_SignUpdate", "C_SignFinal", "C_VerifyInit", "C_Verify",
    "C_VerifyUpdate", "C_VerifyFinal", "C_GenerateKey", "C_SeedRandom", "C_GenerateRandom", NULL,
};

static const char *const parallel[] = {"C_GetFunctionStatus", "C_CancelFunction", NULL};

static CK_RV refusal_of(const char *name) {
    return is_one_of(name, parallel) ? CKR_FUNCTION_NOT_PARALLEL : CKR_FUNCTION_NOT_SUPPORTED;
}

static void test_unsupported(void) {
    begin_token();
    for (size_t i = 0; i < FUNCTIONS; i++) {
        const char *name = functions[i].name;
        if (!is_one_of(name, supported))
            check_code(call_with_zeros(&functions[i]), refusal_of(name), name);
    }
    CK_SLOT_ID slot = 7;
    EXPECT(CKR_NO_EVENT, p11->C_WaitForSlotEvent(CKF_DONT_BLOCK, &slot, NULL));
    EXPECT(CKR_NO_EVENT, p11->C_WaitForSlotEvent(CKF_DONT_BLOCK | 6, &slot, NULL));
    EXPECT(CKR_FUNCTION_NOT_SUPPORTED, p11->C_WaitForSlotEvent(0, &slot, NULL));
    EXPECT(CKR_FUNCTION_NOT_SUPPORTED, p11->C_WaitForSlotEvent(6, &slot, NULL));
    CHECK(slot == 7);
    end_token();
}

/* They answer the same to a session that is open, and write nothing to where they are pointed. */
static void test_unsupported_in_session(void) {
    enum { ROOM = 64 };
    CK_SESSION_HANDLE session = begin_token();
    uint8_t *memory = guarded_new(ROOM);
    CK_ULONG at = (CK_ULONG)(uintptr_t)memory;
    for (size_t i = 0; i < FUNCTIONS; i++) {
        const char *name = functions[i].name;
        if (is_one_of(name, supported))
            continue;
        any_function function = function_at(p11, functions[i].offset);
        check_code(function(session, at, at, at, at, at, at, at, at), refusal_of(name), name);
        check(guarded_is_intact(memory, ROOM, 0), name);
    }
    guarded_free(memory);
    end_token();
}

/* ---- Arguments of C_Initialize */

int mutexes, locks, unlocks, destroyed, depth;
static CK_RV created_code, locked_code;

int locks_until_change, unlocks_until_change, locks_at_change;
void (*change)(void);
int locks_until_failure;
void (*change_at_failure)(void);

/* How many of the application's functions are making a change. */
static int inside;

static void make_change(void (*made)(void)) {
    inside++;
    made();
    inside--;
    locks_at_change = locks;
}

static CK_RV fail_lock(void) {
    void (*made)(void) = change_at_failure;
    change_at_failure = NULL;
    if (made != NULL)
        make_change(made);
    return CKR_MUTEX_BAD;
}

long long noted_times[MOST_TIMES];
size_t times_noted = MOST_TIMES;

static void note_time(void) {
    struct timespec now;
    if (inside > 0 || times_noted >= MOST_TIMES)
        return;
    clock_gettime(CLOCK_THREAD_CPUTIME_ID, &now);
    noted_times[times_noted++] = now.tv_sec * 1000000000LL + now.tv_nsec;
}

static CK_RV create_mutex(CK_VOID_PTR_PTR mutex) {
    if (created_code != CKR_OK)
        return created_code;
    *mutex = &mutexes;
    mutexes++;
    return CKR_OK;
}

static CK_RV destroy_mutex(CK_VOID_PTR mutex) {
    check(mutex == &mutexes && depth == 0 && inside == 0,
          "DestroyMutex is given the mutex, unlocked, and no other function has it");
    destroyed++;
    return CKR_OK;
}

static CK_RV lock_mutex(CK_VOID_PTR mutex) {
    if (locked_code != CKR_OK)
        return locked_code;
    if (locks_until_failure > 0 && --locks_until_failure == 0)
        return fail_lock();
    check(mutex == &mutexes && depth == 0, "LockMutex is given the mutex, unlocked");
    if (locks_until_change > 0 && --locks_until_change == 0)
        make_change(change);
    depth++;
    locks++;
    note_time();
    return CKR_OK;
}

static CK_RV unlock_mutex(CK_VOID_PTR mutex) {
    note_time();
    check(mutex == &mutexes && depth == 1, "UnlockMutex is given the mutex, locked");
    depth--;
    unlocks++;
    if (unlocks_until_change > 0 && --unlocks_until_change == 0)
        make_change(change);
    return CKR_OK;
}

CK_C_INITIALIZE_ARGS mutex_arguments(void) {
    mutexes = locks = unlocks = destroyed = depth = 0;
    created_code = locked_code = CKR_OK;
    return (CK_C_INITIALIZE_ARGS){
        .CreateMutex = create_mutex,
        .DestroyMutex = destroy_mutex,
        .LockMutex = lock_mutex,
        .UnlockMutex = unlock_mutex,
    };
}

/* All four functions are given or none, and the reserved member is NULL, whatever the flags are. */
static void check_bad_arguments(CK_FLAGS flags) {
    CK_C_INITIALIZE_ARGS arguments = {.flags = flags, .LibraryParameters = (void *)token_label};
    EXPECT(CKR_ARGUMENTS_BAD, p11->C_Initialize(&arguments));
    arguments = mutex_arguments();
    arguments.flags = flags;
    arguments.LibraryParameters = (void *)token_label;
    EXPECT(CKR_ARGUMENTS_BAD, p11->C_Initialize(&arguments));
    for (unsigned set = 1; set < 15; set++) {
        arguments = mutex_arguments();
        arguments.flags = flags;
        arguments.CreateMutex = (set & 1) ? create_mutex : NULL;
        arguments.DestroyMutex = (set & 2) ? destroy_mutex : NULL;
        arguments.LockMutex = (set & 4) ? lock_mutex : NULL;
        arguments.UnlockMutex = (set & 8) ? unlock_mutex : NULL;
        EXPECT(CKR_ARGUMENTS_BAD, p11->C_Initialize(&arguments));
    }
}

static void test_bad_arguments(void) {
    const CK_FLAGS no_threads = CKF_LIBRARY_CANT_CREATE_OS_THREADS;
    check_bad_arguments(0);
    check_bad_arguments(no_threads);
    check_bad_arguments(CKF_OS_LOCKING_OK);
    check_bad_arguments(no_threads | CKF_OS_LOCKING_OK);
    CK_C_INITIALIZE_ARGS arguments = {0};
    EXPECT(CKR_OK, p11->C_Initialize(&arguments));
    end_token();
    /* The standard's structure, behind which NSS's has one more member. */
    void *shorter = calloc(1, offsetof(CK_C_INITIALIZE_ARGS, pReserved));
    EXPECT(CKR_OK, p11->C_Initialize(shorter));
    end_token();
    free(shorter);
}

/* Only codes that the standard lists for C_Initialize are handed on. */
static void test_no_mutex(void) {
    static const struct { CK_RV made, expected; } codes[] = {
        {CKR_HOST_MEMORY, CKR_HOST_MEMORY},
        {CKR_CANT_LOCK, CKR_CANT_LOCK},
        {CKR_GENERAL_ERROR, CKR_GENERAL_ERROR},
        {CKR_MUTEX_BAD, CKR_GENERAL_ERROR},
        {CKR_DEVICE_ERROR, CKR_GENERAL_ERROR},
        {CKR_CRYPTOKI_ALREADY_INITIALIZED, CKR_GENERAL_ERROR},
        {CKR_VENDOR_DEFINED | 1, CKR_GENERAL_ERROR},
    };
    CK_INFO info;
    for (size_t i = 0; i < sizeof codes / sizeof *codes; i++) {
        CK_C_INITIALIZE_ARGS arguments = mutex_arguments();
        created_code = codes[i].made;
        EXPECT(codes[i].expected, p11->C_Initialize(&arguments));
        CHECK(destroyed == 0 && locks == 0 && unlocks == 0);
        EXPECT(CKR_CRYPTOKI_NOT_INITIALIZED, p11->C_GetInfo(&info));
    }
    begin_token();
    end_token();
}

/* The module makes no threads, and has a mutex of its own. */
static void test_flags_of_initialize(void) {
    const CK_FLAGS no_threads = CKF_LIBRARY_CANT_CREATE_OS_THREADS;
    const CK_FLAGS flags[] = {no_threads, CKF_OS_LOCKING_OK, no_threads | CKF_OS_LOCKING_OK};
    for (size_t i = 0; i < sizeof flags / sizeof *flags; i++) {
        CK_C_INITIALIZE_ARGS arguments = {.flags = flags[i]};
        EXPECT(CKR_OK, p11->C_Initialize(&arguments));
        log_in();
        end_token();
        arguments = mutex_arguments();
        arguments.flags = flags[i];
        EXPECT(CKR_OK, p11->C_Initialize(&arguments));
        log_in();
        end_token();
        check((mutexes > 0) == (flags[i] == no_threads), "whose mutex is used");
        CHECK(destroyed == mutexes && (locks > 0) == (mutexes > 0) && locks == unlocks);
    }
}

/* Calls every function but C_Finalize, and sees that the lock was taken and released for it. */
static void check_every_lock(void) {
    static const char *const without[] = {
        "C_Initialize", "C_Finalize", "C_GetFunctionList", "C_GetInterface", "C_GetInterfaceList",
        NULL,
    };
    for (size_t i = 0; i < FUNCTIONS; i++) {
        int before = locks;
        if (is_one_of(functions[i].name, without))
            continue;
        call_with_zeros(&functions[i]);
        check(locks > before && locks == unlocks && depth == 0, functions[i].name);
    }
}

static void test_mutex_functions(void) {
    CK_C_INITIALIZE_ARGS arguments = mutex_arguments();
    EXPECT(CKR_OK, p11->C_Initialize(&arguments));
    CHECK(mutexes == 1 && destroyed == 0);
    log_in();
    check_every_lock();
    EXPECT(CKR_OK, p11->C_Finalize(NULL));
    CHECK(mutexes == 1 && destroyed == 1 && locks == unlocks && depth == 0);
    arguments = mutex_arguments();
    arguments.flags = CKF_OS_LOCKING_OK;
    EXPECT(CKR_OK, p11->C_Initialize(&arguments));
    log_in();
    EXPECT(CKR_OK, p11->C_Finalize(NULL));
    CHECK(locks == unlocks && depth == 0 && mutexes == destroyed);
}

static void test_failing_lock(void) {
    CK_C_INITIALIZE_ARGS arguments = mutex_arguments();
    EXPECT(CKR_OK, p11->C_Initialize(&arguments));
    CK_SESSION_HANDLE session = log_in();
    static const CK_RV codes[] = {CKR_MUTEX_BAD, CKR_HOST_MEMORY, CKR_CANT_LOCK,
                                  CKR_CRYPTOKI_NOT_INITIALIZED};
    int before = unlocks;
    for (size_t i = 0; i < sizeof codes / sizeof *codes; i++) {
        locked_code = codes[i];
        check_each_code(CKR_GENERAL_ERROR);
        EXPECT(CKR_GENERAL_ERROR, p11->C_CloseSession(session));
    }
    check(unlocks == before, "what wasn't locked isn't unlocked");
    locked_code = CKR_OK;
    check_code(p11->C_CloseSession(session), CKR_OK, "the call that found no lock changed nothing");
    end_token();
    CHECK(destroyed == 1 && locks == unlocks);
}

/* ---- Functions that are given only zeros */

static const char *const need_pointers[] = {
    "C_GetInfo", "C_GetSlotList", "C_GetSlotInfo", "C_GetTokenInfo", "C_GetMechanismList",
    "C_GetMechanismInfo", "C_WaitForSlotEvent", "C_InitToken", "C_InitPIN", "C_SetPIN",
    "C_OpenSession", "C_GetSessionInfo", "C_Login", "C_CreateObject", "C_CopyObject",
    "C_GetObjectSize", "C_FindObjects", "C_Digest", "C_DigestFinal", "C_Sign", "C_SignFinal",
    "C_GenerateKey", NULL,
};

static const char *const without_session[] = {
    "C_Initialize", "C_Finalize", "C_GetFunctionList", "C_GetInterface", "C_GetInterfaceList",
    "C_CloseAllSessions", NULL,
};

/* A NULL pointer is refused before the session is looked at, which isn't open. Where nothing is
 * wrong with the pointers, this is answered. */
static void check_zeros(CK_RV expected) {
    for (size_t i = 0; i < FUNCTIONS; i++) {
        const char *name = functions[i].name;
        if (!is_one_of(name, supported) || is_one_of(name, without_session))
            continue;
        CK_RV code = call_with_zeros(&functions[i]);
        check_code(code, is_one_of(name, need_pointers) ? CKR_ARGUMENTS_BAD : expected, name);
    }
}

/* In a token that answers calls, and in one that answers none any more, since the lock has failed
 * between two pieces of an update. */
static void test_zeros(void) {
    CK_MECHANISM sha256 = mechanism_of(CKM_SHA256);
    CK_C_INITIALIZE_ARGS arguments = mutex_arguments();
    CK_SESSION_HANDLE session = begin_token_with(&arguments);
    check_zeros(CKR_SESSION_HANDLE_INVALID);
    EXPECT(CKR_OK, p11->C_DigestInit(session, &sha256));
    locks_until_failure = 4;
    EXPECT(CKR_GENERAL_ERROR, p11->C_DigestUpdate(session, large, LARGE));
    CHECK(locks_until_failure == 0);
    check_zeros(CKR_DEVICE_ERROR);
    end_token();
}

static const struct test tests[] = {
    {"before C_Initialize and after C_Finalize; twice; a new token each time", test_order},
    {"the lists of functions have each function, and it is exported", test_lists},
    {"interfaces by name, by version, and by neither", test_interfaces},
    {"the list of interfaces has those that are given by name", test_interface_list},
    {"the vendor interface takes a key to another state", test_vendor_interface},
    {"a key goes through all states by their names", test_key_states},
    {"another slot is refused before a pointer is looked at", test_other_slot},
    {"functions that aren't supported say so", test_unsupported},
    {"functions that aren't supported say so in a session, and write nothing",
     test_unsupported_in_session},
    {"bad arguments of C_Initialize", test_bad_arguments},
    {"an application that can't make its mutex", test_no_mutex},
    {"flags of C_Initialize", test_flags_of_initialize},
    {"the application's mutex functions are called in pairs, around every call",
     test_mutex_functions},
    {"an application's lock that fails", test_failing_lock},
    {"NULL pointers are refused before the session is looked at, also where no call is answered",
     test_zeros},
};

int main(int count, char **arguments) {
    has_journals = count == 4 && strcmp(arguments[3], "journals") == 0;
    bool is_built = count == 4 && strcmp(arguments[3], "built") == 0;
    if (count != 3 && !has_journals && !is_built) {
        fprintf(stderr, "conventions MODULE FOLDER [journals | built]\n");
        return 2;
    }
    folder = arguments[2];
    if (has_journals)
        keep_journals(folder);
    load_module(arguments[1]);
    const char *name = has_journals ? "conventions by lines"
        : is_built ? "conventions of the built module" : "conventions";
    int status = run_tests(name, tests, sizeof tests / sizeof *tests);
    status |= run_argument_tests(name);
    status |= run_room_tests(name);
    status |= run_lock_tests(name);
    status |= run_slot_tests(name);
    status |= run_environment_tests(name);
    return status;
}
