/*
 * Searches (PKCS #11 Base 3.0, Object management functions, C_FindObjectsInit and what follows).
 */
#include "module.h"

/* How many handles are asked for at once. */
static const CK_ULONG most_handles = 1000;

CK_RV C_FindObjectsInit(CK_SESSION_HANDLE session, CK_ATTRIBUTE_PTR attributes, CK_ULONG count) {
    const struct call call = {
        .name = FIND_OBJECTS_INIT,
        .session = session,
        .attributes = attributes,
        .count = count,
    };
    return answer(&call);
}

/* Handles that were found before a call that isn't answered are still given: no later call would
 * find them. */
static CK_RV find_objects(CK_SESSION_HANDLE session, CK_OBJECT_HANDLE *objects, CK_ULONG most,
                          CK_ULONG *count) {
    CK_OBJECT_HANDLE none;
    if ((objects == NULL && most > 0) || count == NULL)
        return CKR_ARGUMENTS_BAD;
    struct call call = {.name = FIND_OBJECTS, .session = session};
    CK_ULONG total = 0;
    CK_ULONG found;
    do {
        call.number = most - total > most_handles ? most_handles : most - total;
        CK_RV code = make_call(&call);
        if (code != CKR_OK && total == 0)
            return code;
        if (code != CKR_OK)
            break;
        CK_OBJECT_HANDLE *out = call.number == 0 ? &none : objects + total;
        found = ospreyrack_handles(&library.token, out, call.number);
        total += found;
    } while (found == most_handles && total < most);
    *count = total;
    return CKR_OK;
}

CK_RV C_FindObjects(CK_SESSION_HANDLE session, CK_OBJECT_HANDLE_PTR objects, CK_ULONG most,
                    CK_ULONG_PTR count) {
    CK_RV code = enter();
    return code == CKR_OK ? leave(find_objects(session, objects, most, count)) : code;
}

CK_RV C_FindObjectsFinal(CK_SESSION_HANDLE session) {
    const struct call call = {.name = FIND_OBJECTS_FINAL, .session = session};
    return answer(&call);
}
