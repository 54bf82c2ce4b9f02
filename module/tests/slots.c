/*
 * PINs, the slot, its token and mechanisms: what is said of them.
 */
#include "conventions.h"

#include <string.h>

/* ---- PINs of any length */

static void test_pins(void) {
    CK_SESSION_HANDLE session = begin_token();
    CK_UTF8CHAR pin[200], zero_pin[] = {'a', 'b', 'c', 'd', 0, 'e'};
    CK_UTF8CHAR other_zero_pin[] = {'a', 'b', 'c', 'd', 0, 'f'};
    memset(pin, 'p', sizeof pin);
    EXPECT(CKR_PIN_LEN_RANGE, p11->C_SetPIN(session, user_pin, 4, pin, 3));
    EXPECT(CKR_PIN_LEN_RANGE, p11->C_SetPIN(session, user_pin, 4, pin, 65));
    EXPECT(CKR_PIN_LEN_RANGE, p11->C_SetPIN(session, user_pin, 4, pin, 200));
    EXPECT(CKR_OK, p11->C_SetPIN(session, user_pin, 4, pin, 64));
    EXPECT(CKR_OK, p11->C_Logout(session));
    EXPECT(CKR_PIN_INCORRECT, p11->C_Login(session, CKU_USER, pin, 200));
    EXPECT(CKR_PIN_INCORRECT, p11->C_Login(session, CKU_USER, pin, 65));
    EXPECT(CKR_OK, p11->C_Login(session, CKU_USER, pin, 64));
    /* A zero byte counts like any other. */
    EXPECT(CKR_OK, p11->C_SetPIN(session, pin, 64, zero_pin, sizeof zero_pin));
    EXPECT(CKR_OK, p11->C_Logout(session));
    EXPECT(CKR_PIN_INCORRECT,
           p11->C_Login(session, CKU_USER, other_zero_pin, sizeof other_zero_pin));
    EXPECT(CKR_PIN_INCORRECT, p11->C_Login(session, CKU_USER, zero_pin, 4));
    EXPECT(CKR_OK, p11->C_Login(session, CKU_USER, zero_pin, sizeof zero_pin));
    end_token();
}

/* ---- The slot and its token */

static void test_slots(void) {
    CK_SLOT_INFO slot;
    CK_TOKEN_INFO token;
    CK_MECHANISM_INFO mechanism;
    CK_SLOT_ID slots[] = {77, 77};
    CK_ULONG count = 2;
    CK_SESSION_HANDLE session = begin_token();
    EXPECT(CKR_OK, p11->C_GetSlotList(CK_TRUE, slots, &count));
    CHECK(count == 1 && slots[0] == 0 && slots[1] == 77);
    EXPECT(CKR_SLOT_ID_INVALID, p11->C_GetSlotInfo(1, &slot));
    EXPECT(CKR_SLOT_ID_INVALID, p11->C_GetTokenInfo(1, &token));
    EXPECT(CKR_SLOT_ID_INVALID, p11->C_GetMechanismList(1, NULL, &length));
    EXPECT(CKR_SLOT_ID_INVALID, p11->C_GetMechanismInfo(1, CKM_SHA256, &mechanism));
    EXPECT(CKR_SLOT_ID_INVALID, p11->C_OpenSession(1, read_write, NULL, NULL, &session));
    EXPECT(CKR_SLOT_ID_INVALID, p11->C_CloseAllSessions(CK_UNAVAILABLE_INFORMATION));
    EXPECT(CKR_SLOT_ID_INVALID, p11->C_InitToken(1, so_pin, 4, token_label));
    EXPECT(CKR_OK, p11->C_GetSlotInfo(0, &slot));
    CHECK((slot.flags & CKF_TOKEN_PRESENT) != 0);
    EXPECT(CKR_OK, p11->C_GetTokenInfo(0, &token));
    check(token.ulSessionCount == 1, "without a slot no session is opened or closed");
    end_token();
}

/* Whether a text stands in a field that is padded with blanks. */
static bool is_padded(const CK_UTF8CHAR *field, size_t size, const char *text) {
    size_t used = strlen(text);
    if (memcmp(field, text, used) != 0)
        return false;
    for (size_t i = used; i < size; i++) {
        if (field[i] != ' ')
            return false;
    }
    return true;
}

#define HAS_TEXT(field, text) is_padded((field), sizeof(field), (text))

static bool is_version(CK_VERSION version, int major, int minor) {
    return version.major == major && version.minor == minor;
}

static void test_info(void) {
    CK_INFO info;
    memset(&info, 0xff, sizeof info);
    begin_token();
    EXPECT(CKR_OK, p11->C_GetInfo(&info));
    CHECK(is_version(info.cryptokiVersion, 3, 0) && is_version(info.libraryVersion, 1, 0));
    CHECK(HAS_TEXT(info.manufacturerID, "Ospreyrack"));
    CHECK(HAS_TEXT(info.libraryDescription, "Ospreyrack software token"));
    CHECK(info.flags == 0);
    end_token();
}

static void test_slot_info(void) {
    CK_SLOT_INFO info;
    memset(&info, 0xff, sizeof info);
    begin_token();
    EXPECT(CKR_OK, p11->C_GetSlotInfo(0, &info));
    CHECK(HAS_TEXT(info.slotDescription, "Ospreyrack slot"));
    CHECK(HAS_TEXT(info.manufacturerID, "Ospreyrack"));
    CHECK(info.flags == CKF_TOKEN_PRESENT);
    CHECK(is_version(info.hardwareVersion, 1, 0) && is_version(info.firmwareVersion, 1, 0));
    end_token();
}

/* What is said of every token. */
static void check_token_info(const CK_TOKEN_INFO *info) {
    CHECK(HAS_TEXT(info->manufacturerID, "Ospreyrack"));
    CHECK(HAS_TEXT(info->model, "Software token"));
    CHECK(HAS_TEXT(info->serialNumber, "1"));
    CHECK(HAS_TEXT(info->utcTime, ""));
    CHECK(info->ulMinPinLen == 4 && info->ulMaxPinLen == 64);
    CHECK(info->ulMaxSessionCount == 64 && info->ulMaxRwSessionCount == 64);
    CHECK(info->ulTotalPublicMemory == CK_UNAVAILABLE_INFORMATION);
    CHECK(info->ulFreePublicMemory == CK_UNAVAILABLE_INFORMATION);
    CHECK(info->ulTotalPrivateMemory == CK_UNAVAILABLE_INFORMATION);
    CHECK(info->ulFreePrivateMemory == CK_UNAVAILABLE_INFORMATION);
    CHECK(is_version(info->hardwareVersion, 1, 0) && is_version(info->firmwareVersion, 1, 0));
}

/* Before C_InitToken. What stands in the members before is the right value of none. */
static void test_new_token_info(void) {
    CK_TOKEN_INFO info;
    memset(&info, 0x5a, sizeof info);
    EXPECT(CKR_OK, p11->C_Initialize(NULL));
    EXPECT(CKR_OK, p11->C_GetTokenInfo(0, &info));
    CHECK(HAS_TEXT(info.label, ""));
    CHECK(info.flags == (CKF_RNG | CKF_LOGIN_REQUIRED));
    CHECK(info.ulSessionCount == 0 && info.ulRwSessionCount == 0);
    check_token_info(&info);
    end_token();
}

static void test_token_info(void) {
    CK_TOKEN_INFO info;
    memset(&info, 0x5a, sizeof info);
    CK_SESSION_HANDLE session = begin_token(), read_only = 0;
    EXPECT(CKR_OK, p11->C_OpenSession(0, CKF_SERIAL_SESSION, NULL, NULL, &read_only));
    EXPECT(CKR_OK, p11->C_GetTokenInfo(0, &info));
    CHECK(memcmp(info.label, token_label, sizeof info.label) == 0);
    CHECK(info.flags == (CKF_RNG | CKF_LOGIN_REQUIRED | CKF_USER_PIN_INITIALIZED
                         | CKF_TOKEN_INITIALIZED));
    CHECK(info.ulSessionCount == 2 && info.ulRwSessionCount == 1);
    check_token_info(&info);
    CK_SESSION_INFO session_info;
    memset(&session_info, 0xff, sizeof session_info);
    EXPECT(CKR_OK, p11->C_GetSessionInfo(session, &session_info));
    CHECK(session_info.slotID == 0 && session_info.state == CKS_RW_USER_FUNCTIONS);
    CHECK(session_info.flags == read_write && session_info.ulDeviceError == 0);
    end_token();
}

/* The label stays where C_InitToken is refused. It may have any bytes, a zero byte among them. */
static void test_label(void) {
    CK_UTF8CHAR other[32];
    CK_TOKEN_INFO info;
    memset(other, 'x', sizeof other);
    other[7] = 0;
    other[31] = 0xff;
    CK_SESSION_HANDLE session = begin_token();
    EXPECT(CKR_SESSION_EXISTS, p11->C_InitToken(0, so_pin, 4, other));
    EXPECT(CKR_OK, p11->C_CloseSession(session));
    EXPECT(CKR_PIN_INCORRECT, p11->C_InitToken(0, user_pin, 4, other));
    EXPECT(CKR_OK, p11->C_GetTokenInfo(0, &info));
    CHECK(memcmp(info.label, token_label, 32) == 0);
    EXPECT(CKR_OK, p11->C_InitToken(0, so_pin, 4, other));
    EXPECT(CKR_OK, p11->C_GetTokenInfo(0, &info));
    CHECK(memcmp(info.label, other, 32) == 0);
    end_token();
}

static bool is_among(CK_MECHANISM_TYPE type, const CK_MECHANISM_TYPE *types, CK_ULONG count) {
    for (CK_ULONG i = 0; i < count; i++) {
        if (types[i] == type)
            return true;
    }
    return false;
}

/* Nothing is said of mechanisms that aren't listed. */
static void check_other_mechanisms(const CK_MECHANISM_TYPE *types, CK_ULONG count) {
    enum { TYPES = 0x1100 };
    CK_MECHANISM_INFO info;
    CK_ULONG refused = 0;
    for (CK_MECHANISM_TYPE type = 0; type < TYPES; type++) {
        if (!is_among(type, types, count))
            refused += p11->C_GetMechanismInfo(0, type, &info) == CKR_MECHANISM_INVALID;
    }
    CHECK(refused == TYPES - count);
}

static void test_mechanisms(void) {
    CK_MECHANISM_TYPE types[13];
    CK_MECHANISM_INFO info;
    CK_ULONG count = 13;
    begin_token();
    EXPECT(CKR_OK, p11->C_GetMechanismList(0, types, &count));
    for (CK_ULONG i = 0; i < count; i++) {
        bool is_digest = types[i] == CKM_SHA224 || types[i] == CKM_SHA256 || types[i] == CKM_SHA384
            || types[i] == CKM_SHA512;
        CK_FLAGS flags = types[i] == CKM_GENERIC_SECRET_KEY_GEN ? CKF_GENERATE
            : is_digest ? CKF_DIGEST : CKF_SIGN | CKF_VERIFY;
        memset(&info, 0xff, sizeof info);
        EXPECT(CKR_OK, p11->C_GetMechanismInfo(0, types[i], &info));
        CHECK(info.flags == flags);
        /* Of the generation of keys they are in bits, else in bytes; a digest has no key. */
        CK_ULONG unit = is_digest ? 0 : types[i] == CKM_GENERIC_SECRET_KEY_GEN ? 8 : 1;
        CHECK(info.ulMinKeySize == unit && info.ulMaxKeySize == 4096 * unit);
    }
    EXPECT(CKR_MECHANISM_INVALID, p11->C_GetMechanismInfo(0, CKM_RSA_PKCS, &info));
    check_other_mechanisms(types, count);
    end_token();
}

static void test_object_size(void) {
    CK_SESSION_HANDLE session = begin_token();
    CK_OBJECT_HANDLE object = create_data(session, "label");
    CK_ULONG size = 0;
    EXPECT(CKR_OK, p11->C_GetObjectSize(session, object, &size));
    CHECK(size == CK_UNAVAILABLE_INFORMATION);
    EXPECT(CKR_OBJECT_HANDLE_INVALID, p11->C_GetObjectSize(session, object + 1, &size));
    EXPECT(CKR_SESSION_HANDLE_INVALID, p11->C_GetObjectSize(session + 1, object, &size));
    end_token();
}

static const struct test tests[] = {
    {"PINs of 3 to 200 bytes", test_pins},
    {"the slot, and slots that aren't there", test_slots},
    {"what is said of the library", test_info},
    {"what is said of the slot", test_slot_info},
    {"what is said of a new token", test_new_token_info},
    {"what is said of the token and of a session", test_token_info},
    {"the label is that of the last C_InitToken that was answered OK", test_label},
    {"what is said of the mechanisms", test_mechanisms},
    {"the size of an object", test_object_size},
};

int run_slot_tests(const char *name) {
    return run_tests(name, tests, sizeof tests / sizeof *tests);
}
