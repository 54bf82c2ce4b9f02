/*
 * What the tests in C share. See support.h.
 */
#include "support.h"

#include <dlfcn.h>
#include <stdatomic.h>
#include <stdio.h>
#include <stdlib.h>
#include <string.h>

/* ---- The module */

CK_FUNCTION_LIST_3_0 *p11;
static void *library;

void *exported(const char *name) {
    return dlsym(library, name);
}

void load_module(const char *path) {
    library = dlopen(path, RTLD_NOW | RTLD_LOCAL);
    if (library == NULL) {
        fprintf(stderr, "%s\n", dlerror());
        exit(2);
    }
    void *symbol = exported("C_GetInterface");
    CK_C_GetInterface get_interface;
    memcpy(&get_interface, &symbol, sizeof symbol);
    CK_INTERFACE *interface;
    if (symbol == NULL || get_interface(NULL, NULL, &interface, 0) != CKR_OK) {
        fprintf(stderr, "%s: C_GetInterface gives no interface\n", path);
        exit(2);
    }
    p11 = interface->pFunctionList;
}

const struct ospreyrack_functions *vendor_functions(void) {
    static CK_UTF8CHAR name[] = OSPREYRACK_INTERFACE;
    CK_INTERFACE *interface = NULL;
    EXPECT(CKR_OK, p11->C_GetInterface(name, NULL, &interface, 0));
    return interface->pFunctionList;
}

/* ---- Checks */

/* Threads check, too. */
static atomic_size_t checks;
static atomic_size_t failures;

void check(bool is_good, const char *what) {
    checks++;
    if (is_good)
        return;
    failures++;
    fprintf(stderr, "  failed: %s\n", what);
}

void check_code(CK_RV code, CK_RV expected, const char *what) {
    checks++;
    if (code == expected)
        return;
    failures++;
    fprintf(stderr, "  failed: %s is %lx, and not %lx\n", what, code, expected);
}

/* A test that checks nothing fails. */
static bool run_test(const char *name, const struct test *test) {
    checks = 0;
    failures = 0;
    test->run();
    bool is_good = failures == 0 && checks > 0;
    printf("%s %s: %s (%zu of %zu checks)\n", is_good ? "passed" : "FAILED", name, test->what,
           checks - failures, checks);
    fflush(stdout);
    return is_good;
}

int run_tests(const char *name, const struct test *tests, size_t count) {
    size_t failed = 0;
    for (size_t i = 0; i < count; i++)
        failed += !run_test(name, &tests[i]);
    return failed > 0;
}

/* ---- A token */

CK_UTF8CHAR so_pin[4] = {'1', '2', '3', '4'};
CK_UTF8CHAR user_pin[4] = {'u', 's', 'e', 'r'};
CK_UTF8CHAR token_label[32] = {
    'a', ' ', 't', 'o', 'k', 'e', 'n', ' ', 'f', 'o', 'r', ' ', 't', 'e', 's', 't',
    's', ' ', ' ', ' ', ' ', ' ', ' ', ' ', ' ', ' ', ' ', ' ', ' ', ' ', ' ', ' ',
};

static CK_BBOOL yes = CK_TRUE;
static CK_BBOOL no = CK_FALSE;

CK_SESSION_HANDLE log_in(void) {
    CK_SESSION_HANDLE session = 0;
    EXPECT(CKR_OK, p11->C_InitToken(0, so_pin, sizeof so_pin, token_label));
    const CK_FLAGS read_write = CKF_SERIAL_SESSION | CKF_RW_SESSION;
    EXPECT(CKR_OK, p11->C_OpenSession(0, read_write, NULL, NULL, &session));
    EXPECT(CKR_OK, p11->C_Login(session, CKU_SO, so_pin, sizeof so_pin));
    EXPECT(CKR_OK, p11->C_InitPIN(session, user_pin, sizeof user_pin));
    EXPECT(CKR_OK, p11->C_Logout(session));
    EXPECT(CKR_OK, p11->C_Login(session, CKU_USER, user_pin, sizeof user_pin));
    return session;
}

static const char *journal_folder;
static int journals;

void keep_journals(const char *in_folder) {
    journal_folder = in_folder;
}

CK_SESSION_HANDLE begin_token_with(CK_C_INITIALIZE_ARGS *arguments) {
    char path[4096];
    if (journal_folder != NULL) {
        snprintf(path, sizeof path, "%s/kept-%d.cases", journal_folder, journals++);
        setenv("OSPREYRACK_JOURNAL", path, 1);
    }
    EXPECT(CKR_OK, p11->C_Initialize(arguments));
    if (journal_folder != NULL)
        unsetenv("OSPREYRACK_JOURNAL");
    return log_in();
}

CK_SESSION_HANDLE begin_token(void) {
    return begin_token_with(NULL);
}

void end_token(void) {
    EXPECT(CKR_OK, p11->C_Finalize(NULL));
}

CK_OBJECT_HANDLE create_data(CK_SESSION_HANDLE session, const char *label) {
    CK_OBJECT_CLASS class = CKO_DATA;
    CK_OBJECT_HANDLE object = 0;
    CK_ATTRIBUTE template[] = {
        {CKA_CLASS, &class, sizeof class},
        {CKA_PRIVATE, &no, sizeof no},
        {CKA_LABEL, (void *)(uintptr_t)label, strlen(label)},
    };
    EXPECT(CKR_OK, p11->C_CreateObject(session, template, 3, &object));
    return object;
}

CK_OBJECT_HANDLE create_key(CK_SESSION_HANDLE session, const char *value) {
    CK_OBJECT_CLASS class = CKO_SECRET_KEY;
    CK_KEY_TYPE type = CKK_GENERIC_SECRET;
    CK_OBJECT_HANDLE key = 0;
    CK_ATTRIBUTE template[] = {
        {CKA_CLASS, &class, sizeof class},
        {CKA_KEY_TYPE, &type, sizeof type},
        {CKA_PRIVATE, &no, sizeof no},
        {CKA_SIGN, &yes, sizeof yes},
        {CKA_VERIFY, &yes, sizeof yes},
        {CKA_VALUE, (void *)(uintptr_t)value, strlen(value)},
    };
    EXPECT(CKR_OK, p11->C_CreateObject(session, template, 6, &key));
    return key;
}

CK_MECHANISM mechanism_of(CK_MECHANISM_TYPE type) {
    return (CK_MECHANISM){type, NULL, 0};
}

bool is_hexadecimal(const CK_BYTE *bytes, CK_ULONG length, const char *text) {
    char digits[3];
    if (strlen(text) != 2 * length)
        return false;
    for (CK_ULONG i = 0; i < length; i++) {
        snprintf(digits, sizeof digits, "%02x", bytes[i]);
        if (memcmp(digits, text + 2 * i, 2) != 0)
            return false;
    }
    return true;
}

/* ---- Memory between guards */

enum { GUARD = 64, GUARD_BYTE = 0xa5, FILL_BYTE = 0x5a };

uint8_t *guarded_new(size_t length) {
    uint8_t *all = malloc(length + 2 * GUARD);
    if (all == NULL)
        exit(2);
    memset(all, GUARD_BYTE, length + 2 * GUARD);
    memset(all + GUARD, FILL_BYTE, length);
    return all + GUARD;
}

static bool is_filled(const uint8_t *from, const uint8_t *to, uint8_t byte) {
    for (; from < to; from++) {
        if (*from != byte)
            return false;
    }
    return true;
}

bool guarded_is_intact(const uint8_t *memory, size_t length, size_t used) {
    const uint8_t *end = memory + length;
    return is_filled(memory - GUARD, memory, GUARD_BYTE)
        && is_filled(memory + used, end, FILL_BYTE) && is_filled(end, end + GUARD, GUARD_BYTE);
}

bool guarded_is_written(const uint8_t *memory, size_t length) {
    return !is_filled(memory, memory + length, FILL_BYTE);
}

void guarded_free(uint8_t *memory) {
    free(memory - GUARD);
}

/* ---- Vectors */

const char sha256_of_abc[] = "ba7816bf8f01cfea414140de5dae2223b00361a396177a9cb410ff61f20015ad";
const char sha512_of_abc[] =
    "ddaf35a193617abacc417349ae20413112e6fa4e89a97ea20a9eeee64b55d39a"
    "2192992a274fc1a836ba3c23a3feebbd454d4423643ce80e2a9ac94fa54ca49f";
CK_BYTE hmac_message[28] = {
    'w', 'h', 'a', 't', ' ', 'd', 'o', ' ', 'y', 'a', ' ', 'w', 'a', 'n',
    't', ' ', 'f', 'o', 'r', ' ', 'n', 'o', 't', 'h', 'i', 'n', 'g', '?',
};
const char hmac_of_message[] = "5bdcc146bf60754e6a042426089575c75a003f089d2739839dec58b964ec3843";
