/*
 * Signing and verifying (PKCS #11 Base 3.0, Signing and MACing functions, Functions for verifying
 * signatures and MACs).
 */
#include "module.h"

/* Starts a signing or a verifying. */
static CK_RV begin_with_key(enum call_name name, CK_SESSION_HANDLE session,
                            const CK_MECHANISM *mechanism, CK_OBJECT_HANDLE key, CK_FLAGS kind) {
    const struct call call = {
        .name = name,
        .session = session,
        .mechanism = mechanism,
        .object = key,
    };
    return begin_operation(&call, kind);
}

CK_RV C_SignInit(CK_SESSION_HANDLE session, CK_MECHANISM_PTR mechanism, CK_OBJECT_HANDLE key) {
    return begin_with_key(SIGN_INIT, session, mechanism, key, CKF_SIGN);
}

CK_RV C_Sign(CK_SESSION_HANDLE session, CK_BYTE_PTR message, CK_ULONG length,
             CK_BYTE_PTR signature, CK_ULONG_PTR signature_length) {
    struct bytes bytes = bytes_of(message, length, LONGEST_MESSAGE);
    const struct call call = {.name = SIGN, .session = session, .bytes = bytes};
    return answer_output(call, signature, signature_length);
}

CK_RV C_SignUpdate(CK_SESSION_HANDLE session, CK_BYTE_PTR part, CK_ULONG length) {
    struct bytes bytes = bytes_of(part, length, SIZE_MAX);
    const struct call call = {.name = SIGN_UPDATE, .session = session, .bytes = bytes};
    return answer_update(call, CKF_SIGN);
}

CK_RV C_SignFinal(CK_SESSION_HANDLE session, CK_BYTE_PTR signature,
                  CK_ULONG_PTR signature_length) {
    const struct call call = {.name = SIGN_FINAL, .session = session};
    return answer_output(call, signature, signature_length);
}

CK_RV C_VerifyInit(CK_SESSION_HANDLE session, CK_MECHANISM_PTR mechanism, CK_OBJECT_HANDLE key) {
    return begin_with_key(VERIFY_INIT, session, mechanism, key, CKF_VERIFY);
}

CK_RV C_Verify(CK_SESSION_HANDLE session, CK_BYTE_PTR message, CK_ULONG length,
               CK_BYTE_PTR signature, CK_ULONG signature_length) {
    const struct call call = {
        .name = VERIFY,
        .session = session,
        .bytes = bytes_of(message, length, LONGEST_MESSAGE),
        .signature = bytes_of(signature, signature_length, LONGEST_SIGNATURE),
    };
    return answer_message(call);
}

CK_RV C_VerifyUpdate(CK_SESSION_HANDLE session, CK_BYTE_PTR part, CK_ULONG length) {
    struct bytes bytes = bytes_of(part, length, SIZE_MAX);
    const struct call call = {.name = VERIFY_UPDATE, .session = session, .bytes = bytes};
    return answer_update(call, CKF_VERIFY);
}

CK_RV C_VerifyFinal(CK_SESSION_HANDLE session, CK_BYTE_PTR signature, CK_ULONG signature_length) {
    struct bytes bytes = bytes_of(signature, signature_length, LONGEST_SIGNATURE);
    const struct call call = {.name = VERIFY_FINAL, .session = session, .signature = bytes};
    return answer(&call);
}
