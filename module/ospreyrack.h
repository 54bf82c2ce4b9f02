/*
 * What the module has beyond the standard: the interface "Vendor Ospreyrack" 1.0, and the states of
 * keys (NIST SP 800-57 Part 1 Revision 5, Key states and transitions). The numbers of the states,
 * and which may become which, are this token's. The program's header of PKCS #11 3.0 is included
 * before this.
 */
#ifndef OSPREYRACK_H
#define OSPREYRACK_H

/* The name by which C_GetInterface gives the interface. */
#define OSPREYRACK_INTERFACE "Vendor Ospreyrack"

/* The interface's list of functions. */
struct ospreyrack_functions {
    CK_VERSION version;

    /*
     * Takes a secret key to another state, which is one of `enum ospreyrack_key_state`. It is
     * answered CKR_OK, or with the code of the first check that fails:
     *
     * - the session is open: CKR_SESSION_HANDLE_INVALID;
     * - the handle names a secret key: CKR_KEY_HANDLE_INVALID;
     * - the key is a session object, or the session is read/write: CKR_SESSION_READ_ONLY;
     * - a state has this number: CKR_ARGUMENTS_BAD;
     * - the key's state may become this one: CKR_ACTION_PROHIBITED.
     *
     * It may also be answered with a code that each function may have, such as
     * CKR_CRYPTOKI_NOT_INITIALIZED or CKR_HOST_MEMORY.
     */
    CK_RV (*C_SetKeyState)(CK_SESSION_HANDLE session, CK_OBJECT_HANDLE key, CK_ULONG state);
};

/* A secret key's state as an attribute, whose value is a CK_ULONG: one of the numbers below. A
 * template of C_CreateObject or C_GenerateKey may give pre-activation or active, and without it the
 * key is active. A template of C_CopyObject or C_SetAttributeValue may not give it. */
#define CKA_OSPREYRACK_KEY_STATE (CKA_VENDOR_DEFINED | 1UL)

/* The states of keys, and which each of them may become. A key signs only where it is active. It
 * verifies only where it is active, suspended or deactivated. */
enum ospreyrack_key_state {
    OSPREYRACK_PRE_ACTIVATION = 0, /* active, compromised, destroyed */
    OSPREYRACK_ACTIVE = 1,         /* suspended, deactivated, compromised, destroyed */
    OSPREYRACK_DEACTIVATED = 2,    /* compromised, destroyed */
    OSPREYRACK_COMPROMISED = 3,    /* destroyed */
    OSPREYRACK_DESTROYED = 4,      /* none */
    OSPREYRACK_SUSPENDED = 5       /* active, deactivated, compromised, destroyed */
};

#endif
