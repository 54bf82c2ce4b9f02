/*
 * The one slot, its token and mechanisms (PKCS #11 Base 3.0, Slot and token management functions).
 */
#include "module.h"

#include <string.h>

/* Key sizes are in bytes, except those that are generated: in bits (PKCS #11 Current Mechanisms
 * 3.0, Generic secret key generation). */
static const CK_MECHANISM_INFO digest = {.flags = CKF_DIGEST};
static const CK_MECHANISM_INFO hmac = {1, LONGEST_KEY, CKF_SIGN | CKF_VERIFY};
static const CK_MECHANISM_INFO generation = {8, 8 * LONGEST_KEY, CKF_GENERATE};

static const struct mechanism {
    CK_MECHANISM_TYPE type;
    const CK_MECHANISM_INFO *info;
} mechanisms[] = {
    {CKM_SHA224, &digest},
    {CKM_SHA224_HMAC, &hmac},
    {CKM_SHA224_HMAC_GENERAL, &hmac},
    {CKM_SHA256, &digest},
    {CKM_SHA256_HMAC, &hmac},
    {CKM_SHA256_HMAC_GENERAL, &hmac},
    {CKM_SHA384, &digest},
    {CKM_SHA384_HMAC, &hmac},
    {CKM_SHA384_HMAC_GENERAL, &hmac},
    {CKM_SHA512, &digest},
    {CKM_SHA512_HMAC, &hmac},
    {CKM_SHA512_HMAC_GENERAL, &hmac},
    {CKM_GENERIC_SECRET_KEY_GEN, &generation},
};

CK_RV enter_slot(CK_SLOT_ID slot) {
    CK_RV code = enter();
    if (code == CKR_OK && slot != SLOT)
        return leave(CKR_SLOT_ID_INVALID);
    return code;
}

void copy_padded(CK_UTF8CHAR *out, size_t length, const char *text) {
    size_t count = strnlen(text, length);
    memcpy(out, text, count);
    memset(out + count, ' ', length - count);
}

CK_RV C_GetSlotList(CK_BBOOL with_token, CK_SLOT_ID_PTR slots, CK_ULONG_PTR count) {
    (void)with_token;
    CK_RV code = enter();
    if (code != CKR_OK)
        return code;
    if (count == NULL)
        return leave(CKR_ARGUMENTS_BAD);
    if (slots != NULL && *count == 0)
        code = CKR_BUFFER_TOO_SMALL;
    else if (slots != NULL)
        slots[0] = SLOT;
    *count = 1;
    return leave(code);
}

CK_RV C_GetSlotInfo(CK_SLOT_ID slot, CK_SLOT_INFO_PTR info) {
    CK_RV code = enter_slot(slot);
    if (code != CKR_OK)
        return code;
    if (info == NULL)
        return leave(CKR_ARGUMENTS_BAD);
    *info = (CK_SLOT_INFO){.flags = CKF_TOKEN_PRESENT};
    copy_padded(info->slotDescription, sizeof info->slotDescription, "Ospreyrack slot");
    copy_padded(info->manufacturerID, sizeof info->manufacturerID, MANUFACTURER);
    info->hardwareVersion = module_version;
    info->firmwareVersion = module_version;
    return leave(CKR_OK);
}

/* What the token's reply doesn't have: the label, which the library keeps, and what never
 * changes. */
static void describe_token(CK_TOKEN_INFO *info) {
    memcpy(info->label, library.label, sizeof info->label);
    copy_padded(info->manufacturerID, sizeof info->manufacturerID, MANUFACTURER);
    copy_padded(info->model, sizeof info->model, "Software token");
    copy_padded(info->serialNumber, sizeof info->serialNumber, "1");
    info->ulMaxPinLen = LONGEST_PIN;
    info->ulMinPinLen = SHORTEST_PIN;
    info->ulTotalPublicMemory = CK_UNAVAILABLE_INFORMATION;
    info->ulFreePublicMemory = CK_UNAVAILABLE_INFORMATION;
    info->ulTotalPrivateMemory = CK_UNAVAILABLE_INFORMATION;
    info->ulFreePrivateMemory = CK_UNAVAILABLE_INFORMATION;
    info->hardwareVersion = module_version;
    info->firmwareVersion = module_version;
    copy_padded(info->utcTime, sizeof info->utcTime, "");
}

static CK_RV get_token_info(CK_TOKEN_INFO *info) {
    const struct call call = {.name = GET_TOKEN_INFO};
    struct token_info reply;
    if (info == NULL)
        return CKR_ARGUMENTS_BAD;
    CK_RV code = make_call(&call);
    if (code != CKR_OK)
        return code;
    ospreyrack_token_info(&library.token, &reply);
    describe_token(info);
    info->flags = reply.flags | CKF_RNG;
    info->ulMaxSessionCount = reply.limit;
    info->ulSessionCount = reply.sessions;
    info->ulMaxRwSessionCount = reply.limit;
    info->ulRwSessionCount = reply.rw_sessions;
    return CKR_OK;
}

CK_RV C_GetTokenInfo(CK_SLOT_ID slot, CK_TOKEN_INFO_PTR info) {
    CK_RV code = enter_slot(slot);
    return code == CKR_OK ? leave(get_token_info(info)) : code;
}

static CK_RV get_mechanism_list(CK_MECHANISM_TYPE *list, CK_ULONG *count) {
    const struct call call = {.name = GET_MECHANISM_LIST};
    CK_MECHANISM_TYPE none;
    if (count == NULL)
        return CKR_ARGUMENTS_BAD;
    CK_RV code = make_call(&call);
    if (code != CKR_OK)
        return code;
    size_t length = ospreyrack_mechanisms(&library.token, &none, 0);
    if (list != NULL && *count < length)
        code = CKR_BUFFER_TOO_SMALL;
    else if (list != NULL)
        ospreyrack_mechanisms(&library.token, list, length);
    *count = length;
    return code;
}

CK_RV C_GetMechanismList(CK_SLOT_ID slot, CK_MECHANISM_TYPE_PTR list, CK_ULONG_PTR count) {
    CK_RV code = enter_slot(slot);
    return code == CKR_OK ? leave(get_mechanism_list(list, count)) : code;
}

CK_RV C_GetMechanismInfo(CK_SLOT_ID slot, CK_MECHANISM_TYPE type, CK_MECHANISM_INFO_PTR info) {
    CK_RV code = enter_slot(slot);
    if (code != CKR_OK)
        return code;
    if (info == NULL)
        return leave(CKR_ARGUMENTS_BAD);
    for (size_t i = 0; i < sizeof mechanisms / sizeof *mechanisms; i++) {
        if (mechanisms[i].type == type) {
            *info = *mechanisms[i].info;
            return leave(CKR_OK);
        }
    }
    return leave(CKR_MECHANISM_INVALID);
}

/* No token is ever put in or taken out. */
CK_RV C_WaitForSlotEvent(CK_FLAGS flags, CK_SLOT_ID_PTR slot, CK_VOID_PTR reserved) {
    CK_RV code = enter();
    if (code != CKR_OK)
        return code;
    if (slot == NULL || reserved != NULL)
        return leave(CKR_ARGUMENTS_BAD);
    return leave((flags & CKF_DONT_BLOCK) != 0 ? CKR_NO_EVENT : CKR_FUNCTION_NOT_SUPPORTED);
}

CK_RV C_InitToken(CK_SLOT_ID slot, CK_UTF8CHAR_PTR pin, CK_ULONG length, CK_UTF8CHAR_PTR label) {
    const struct call call = {
        .name = INIT_TOKEN,
        .pin = pin_of(pin, length),
        .label = label,
    };
    CK_RV code = enter_slot(slot);
    if (code != CKR_OK)
        return code;
    return leave(label == NULL ? CKR_ARGUMENTS_BAD : make_call(&call));
}
