/*
 * Digests (PKCS #11 Base 3.0, Message digesting functions).
 */
#include "module.h"

CK_RV C_DigestInit(CK_SESSION_HANDLE session, CK_MECHANISM_PTR mechanism) {
    const struct call call = {.name = DIGEST_INIT, .session = session, .mechanism = mechanism};
    return begin_operation(&call, CKF_DIGEST);
}

CK_RV C_Digest(CK_SESSION_HANDLE session, CK_BYTE_PTR message, CK_ULONG length, CK_BYTE_PTR digest,
               CK_ULONG_PTR digest_length) {
    struct bytes bytes = bytes_of(message, length, LONGEST_MESSAGE);
    const struct call call = {.name = DIGEST, .session = session, .bytes = bytes};
    return answer_output(call, digest, digest_length);
}

CK_RV C_DigestUpdate(CK_SESSION_HANDLE session, CK_BYTE_PTR part, CK_ULONG length) {
    struct bytes bytes = bytes_of(part, length, SIZE_MAX);
    const struct call call = {.name = DIGEST_UPDATE, .session = session, .bytes = bytes};
    return answer_update(call, CKF_DIGEST);
}

CK_RV C_DigestFinal(CK_SESSION_HANDLE session, CK_BYTE_PTR digest, CK_ULONG_PTR digest_length) {
    const struct call call = {.name = DIGEST_FINAL, .session = session};
    return answer_output(call, digest, digest_length);
}
