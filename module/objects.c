/*
 * Objects and their attributes (PKCS #11 Base 3.0, Object management functions).
 */
#include "module.h"

CK_RV C_CreateObject(CK_SESSION_HANDLE session, CK_ATTRIBUTE_PTR attributes, CK_ULONG count,
                     CK_OBJECT_HANDLE_PTR object) {
    const struct call call = {
        .name = CREATE_OBJECT,
        .session = session,
        .attributes = attributes,
        .count = count,
    };
    return answer_handle(&call, object);
}

CK_RV C_CopyObject(CK_SESSION_HANDLE session, CK_OBJECT_HANDLE object, CK_ATTRIBUTE_PTR attributes,
                   CK_ULONG count, CK_OBJECT_HANDLE_PTR copy) {
    const struct call call = {
        .name = COPY_OBJECT,
        .session = session,
        .object = object,
        .attributes = attributes,
        .count = count,
    };
    return answer_handle(&call, copy);
}

CK_RV C_DestroyObject(CK_SESSION_HANDLE session, CK_OBJECT_HANDLE object) {
    const struct call call = {.name = DESTROY_OBJECT, .session = session, .object = object};
    return answer(&call);
}

/* No size is told; the call is made to check the handles of the session and of the object. */
static CK_RV get_object_size(const struct call *call, CK_ULONG *size) {
    if (size == NULL)
        return CKR_ARGUMENTS_BAD;
    CK_RV code = make_call(call);
    if (code == CKR_OK)
        *size = CK_UNAVAILABLE_INFORMATION;
    return code;
}

CK_RV C_GetObjectSize(CK_SESSION_HANDLE session, CK_OBJECT_HANDLE object, CK_ULONG_PTR size) {
    const struct call call = {.name = GET_ATTRIBUTE_VALUE, .session = session, .object = object};
    CK_RV code = enter();
    return code == CKR_OK ? leave(get_object_size(&call, size)) : code;
}

/* The token answers a value only where there is room for it. */
static void read_answer(size_t index, CK_ATTRIBUTE *attribute) {
    struct answer answer;
    ospreyrack_answer(&library.token, index, &answer);
    if (answer.kind == VALUE)
        ospreyrack_value(&library.token, index, attribute->pValue, answer.length);
    attribute->ulValueLen = answer.kind == UNAVAILABLE ? CK_UNAVAILABLE_INFORMATION : answer.length;
}

static bool has_answers(CK_RV code) {
    return code == CKR_OK || code == CKR_ATTRIBUTE_SENSITIVE || code == CKR_ATTRIBUTE_TYPE_INVALID
        || code == CKR_BUFFER_TOO_SMALL;
}

CK_RV C_GetAttributeValue(CK_SESSION_HANDLE session, CK_OBJECT_HANDLE object,
                          CK_ATTRIBUTE_PTR attributes, CK_ULONG count) {
    const struct call call = {
        .name = GET_ATTRIBUTE_VALUE,
        .session = session,
        .object = object,
        .attributes = attributes,
        .count = count,
    };
    CK_RV code = enter();
    if (code != CKR_OK)
        return code;
    code = make_call(&call);
    for (CK_ULONG i = 0; has_answers(code) && i < count; i++)
        read_answer(i, &attributes[i]);
    return leave(code);
}

CK_RV C_SetAttributeValue(CK_SESSION_HANDLE session, CK_OBJECT_HANDLE object,
                          CK_ATTRIBUTE_PTR attributes, CK_ULONG count) {
    const struct call call = {
        .name = SET_ATTRIBUTE_VALUE,
        .session = session,
        .object = object,
        .attributes = attributes,
        .count = count,
    };
    return answer(&call);
}
