/*
 * A program that has only what is installed: the header and the module, whose file is named. It
 * suspends a key, as docs/module.md shows it.
 */
#include <pkcs11.h>

#include <ospreyrack.h>

#include <dlfcn.h>
#include <stdio.h>
#include <string.h>

static CK_FUNCTION_LIST_3_0 *p11;

static int load(const char *path) {
    void *library = dlopen(path, RTLD_NOW | RTLD_LOCAL);
    void *symbol = library == NULL ? NULL : dlsym(library, "C_GetInterface");
    CK_C_GetInterface get_interface;
    CK_INTERFACE *interface;
    if (symbol == NULL)
        return 0;
    memcpy(&get_interface, &symbol, sizeof symbol);
    if (get_interface(NULL, NULL, &interface, 0) != CKR_OK)
        return 0;
    p11 = interface->pFunctionList;
    return 1;
}

static CK_RV open_session(CK_SESSION_HANDLE *session) {
    CK_UTF8CHAR pin[] = {'1', '2', '3', '4'}, label[32] = "a token for tests";
    CK_RV code = p11->C_InitToken(0, pin, sizeof pin, label);
    if (code == CKR_OK)
        code = p11->C_OpenSession(0, CKF_SERIAL_SESSION, NULL, NULL, session);
    return code;
}

static CK_RV create_key(CK_SESSION_HANDLE session, CK_ULONG state, CK_OBJECT_HANDLE *key) {
    CK_OBJECT_CLASS class = CKO_SECRET_KEY;
    CK_KEY_TYPE type = CKK_GENERIC_SECRET;
    CK_BBOOL no = CK_FALSE;
    CK_BYTE value[] = {'J', 'e', 'f', 'e'};
    CK_ATTRIBUTE template[] = {
        {CKA_CLASS, &class, sizeof class},
        {CKA_KEY_TYPE, &type, sizeof type},
        {CKA_PRIVATE, &no, sizeof no},
        {CKA_VALUE, value, sizeof value},
        {CKA_OSPREYRACK_KEY_STATE, &state, sizeof state},
    };
    return p11->C_CreateObject(session, template, 5, key);
}

static CK_RV suspend(CK_SESSION_HANDLE session, CK_OBJECT_HANDLE key) {
    CK_UTF8CHAR name[] = OSPREYRACK_INTERFACE;
    CK_INTERFACE *interface;
    CK_RV code = p11->C_GetInterface(name, NULL, &interface, 0);
    if (code == CKR_OK) {
        const struct ospreyrack_functions *vendor = interface->pFunctionList;
        code = vendor->C_SetKeyState(session, key, OSPREYRACK_SUSPENDED);
    }
    return code;
}

static CK_RV read_state(CK_SESSION_HANDLE session, CK_OBJECT_HANDLE key, CK_ULONG *state) {
    CK_ATTRIBUTE query = {CKA_OSPREYRACK_KEY_STATE, state, sizeof *state};
    return p11->C_GetAttributeValue(session, key, &query, 1);
}

int main(int count, char **words) {
    CK_SESSION_HANDLE session = 0;
    CK_OBJECT_HANDLE key = 0;
    CK_ULONG state = 0;
    if (count != 2 || !load(words[1])) {
        fprintf(stderr, "installed MODULE: there is no module of this name\n");
        return 2;
    }
    CK_RV code = p11->C_Initialize(NULL);
    if (code == CKR_OK)
        code = open_session(&session);
    if (code == CKR_OK)
        code = create_key(session, OSPREYRACK_ACTIVE, &key);
    if (code == CKR_OK)
        code = suspend(session, key);
    if (code == CKR_OK)
        code = read_state(session, key, &state);
    if (code == CKR_OK)
        code = p11->C_Finalize(NULL);
    if (code != CKR_OK || state != OSPREYRACK_SUSPENDED)
        fprintf(stderr, "installed: the code is %lx, and the key's state %lu\n", code, state);
    return code == CKR_OK && state == OSPREYRACK_SUSPENDED ? 0 : 1;
}
