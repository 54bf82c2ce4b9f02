/*
 * Keys and random bytes (PKCS #11 Base 3.0, Key management functions, Random number generation
 * functions), and the states of keys, for which the standard has no function.
 */
#include "module.h"

#include <string.h>

/* How many random bytes a key takes by its template. The token refuses keys that are longer than
 * LONGEST_KEY. */
static size_t key_length(const CK_ATTRIBUTE *attributes, CK_ULONG count) {
    for (CK_ULONG i = 0; i < count; i++) {
        const CK_ATTRIBUTE *attribute = &attributes[i];
        CK_ULONG length;
        if (attribute->type != CKA_VALUE_LEN)
            continue;
        if (attribute->ulValueLen != sizeof length)
            return 0;
        memcpy(&length, attribute->pValue, sizeof length);
        return length > LONGEST_KEY ? LONGEST_KEY : length;
    }
    return 0;
}

/* The bytes are drawn under the lock, also the system's, which C_GenerateRandom draws without it:
 * only under the lock it is known whether there is a seed. They are few, but where the system is
 * long about them, other threads wait. */
static CK_RV generate_key(struct call call, CK_OBJECT_HANDLE *key) {
    uint8_t bytes[LONGEST_KEY];
    if (call.mechanism == NULL || key == NULL)
        return CKR_ARGUMENTS_BAD;
    /* Checked here although make_call checks it too: before that, the template is read and random
     * bytes are drawn. */
    CK_RV code = check_call(&call);
    if (code != CKR_OK)
        return code;
    call.bytes = (struct bytes){bytes, key_length(call.attributes, call.count)};
    int before = forbid_cancel();
    bool is_random = random_bytes(bytes, call.bytes.length);
    allow_cancel(before);
    return is_random ? make_call_for_handle(&call, key) : CKR_DEVICE_ERROR;
}

CK_RV C_GenerateKey(CK_SESSION_HANDLE session, CK_MECHANISM_PTR mechanism,
                    CK_ATTRIBUTE_PTR attributes, CK_ULONG count, CK_OBJECT_HANDLE_PTR key) {
    const struct call call = {
        .name = GENERATE_KEY,
        .session = session,
        .mechanism = mechanism,
        .attributes = attributes,
        .count = count,
    };
    CK_RV code = enter();
    return code == CKR_OK ? leave(generate_key(call, key)) : code;
}

/* Asks for the session, as a function does that is given only a session and bytes, and checks the
 * bytes. */
static CK_RV ask_with_bytes(CK_SESSION_HANDLE session, const CK_BYTE *bytes, CK_ULONG length) {
    const struct call call = {
        .name = GET_SESSION_INFO,
        .session = session,
        .bytes = bytes_of(bytes, length, SIZE_MAX),
    };
    return make_call(&call);
}

/* The system may be long about its bytes, which need no lock. */
CK_RV C_GenerateRandom(CK_SESSION_HANDLE session, CK_BYTE_PTR out, CK_ULONG length) {
    CK_RV code = enter();
    if (code != CKR_OK)
        return code;
    code = ask_with_bytes(session, out, length);
    bool has_seed = library.has_seed;
    if (code == CKR_OK && has_seed)
        random_bytes(out, length);
    leave(code);
    if (code != CKR_OK || has_seed)
        return code;
    return system_bytes(out, length) ? CKR_OK : CKR_DEVICE_ERROR;
}

CK_RV C_SeedRandom(CK_SESSION_HANDLE session, CK_BYTE_PTR seed, CK_ULONG length) {
    CK_RV code = enter();
    if (code != CKR_OK)
        return code;
    code = ask_with_bytes(session, seed, length);
    return leave(code == CKR_OK ? CKR_RANDOM_SEED_NOT_SUPPORTED : code);
}

CK_RV C_SetKeyState(CK_SESSION_HANDLE session, CK_OBJECT_HANDLE key, CK_ULONG state) {
    const struct call call = {
        .name = SET_KEY_STATE,
        .session = session,
        .object = key,
        .number = state,
    };
    return answer(&call);
}
