/*
 * What the arguments of calls may be: NULL pointers, lengths that no memory has, numbers of more
 * than 32 bits, and an application's function for notifications.
 */
#include "conventions.h"

#include <stdlib.h>
#include <string.h>

/* ---- NULL pointers */

static void test_null_general(void) {
    begin_token();
    EXPECT(CKR_ARGUMENTS_BAD, p11->C_GetInfo(NULL));
    EXPECT(CKR_ARGUMENTS_BAD, p11->C_GetSlotList(CK_TRUE, NULL, NULL));
    EXPECT(CKR_ARGUMENTS_BAD, p11->C_GetSlotInfo(0, NULL));
    EXPECT(CKR_ARGUMENTS_BAD, p11->C_GetTokenInfo(0, NULL));
    EXPECT(CKR_ARGUMENTS_BAD, p11->C_GetMechanismList(0, NULL, NULL));
    EXPECT(CKR_ARGUMENTS_BAD, p11->C_GetMechanismInfo(0, CKM_SHA256, NULL));
    EXPECT(CKR_ARGUMENTS_BAD, p11->C_GetMechanismInfo(0, CKM_RSA_PKCS, NULL));
    EXPECT(CKR_ARGUMENTS_BAD, p11->C_WaitForSlotEvent(CKF_DONT_BLOCK, NULL, NULL));
    EXPECT(CKR_ARGUMENTS_BAD, p11->C_WaitForSlotEvent(CKF_DONT_BLOCK, &length, bytes));
    EXPECT(CKR_ARGUMENTS_BAD, p11->C_WaitForSlotEvent(0, NULL, NULL));
    EXPECT(CKR_ARGUMENTS_BAD, p11->C_WaitForSlotEvent(0, &length, bytes));
    EXPECT(CKR_OK, p11->C_CloseAllSessions(0));
    EXPECT(CKR_ARGUMENTS_BAD, p11->C_InitToken(0, NULL, 4, token_label));
    EXPECT(CKR_ARGUMENTS_BAD, p11->C_InitToken(0, NULL, 0, token_label));
    EXPECT(CKR_ARGUMENTS_BAD, p11->C_InitToken(0, so_pin, 4, NULL));
    EXPECT(CKR_ARGUMENTS_BAD, p11->C_OpenSession(0, read_write, NULL, NULL, NULL));
    CK_TOKEN_INFO info;
    EXPECT(CKR_OK, p11->C_GetTokenInfo(0, &info));
    CHECK(info.ulSessionCount == 0 && (info.flags & CKF_SO_PIN_COUNT_LOW) == 0);
    end_token();
}

/* A NULL PIN is no wrong try, whatever its length is. */
static void test_null_pins(void) {
    CK_SESSION_HANDLE session = begin_token();
    CK_TOKEN_INFO info;
    for (CK_ULONG given = 0; given <= 4; given += 4) {
        EXPECT(CKR_ARGUMENTS_BAD, p11->C_SetPIN(session, NULL, given, user_pin, 4));
        EXPECT(CKR_ARGUMENTS_BAD, p11->C_SetPIN(session, user_pin, 4, NULL, given));
        EXPECT(CKR_OK, p11->C_Logout(session));
        EXPECT(CKR_ARGUMENTS_BAD, p11->C_Login(session, CKU_USER, NULL, given));
        EXPECT(CKR_ARGUMENTS_BAD, p11->C_Login(session, CKU_SO, NULL, given));
        EXPECT(CKR_OK, p11->C_Login(session, CKU_SO, so_pin, 4));
        EXPECT(CKR_ARGUMENTS_BAD, p11->C_InitPIN(session, NULL, given));
        EXPECT(CKR_OK, p11->C_Logout(session));
        EXPECT(CKR_OK, p11->C_GetTokenInfo(0, &info));
        CHECK((info.flags & (CKF_USER_PIN_COUNT_LOW | CKF_SO_PIN_COUNT_LOW)) == 0);
        EXPECT(CKR_OK, p11->C_Login(session, CKU_USER, user_pin, 4));
    }
    EXPECT(CKR_OK, p11->C_Logout(session));
    EXPECT(CKR_PIN_INCORRECT, p11->C_Login(session, CKU_USER, user_pin, 0));
    EXPECT(CKR_OK, p11->C_GetTokenInfo(0, &info));
    CHECK((info.flags & CKF_USER_PIN_COUNT_LOW) != 0);
    end_token();
}

static void test_null_sessions(void) {
    CK_SESSION_HANDLE session = begin_token();
    EXPECT(CKR_ARGUMENTS_BAD, p11->C_GetSessionInfo(session, NULL));
    EXPECT(CKR_ARGUMENTS_BAD, p11->C_GenerateRandom(session, NULL, 1));
    EXPECT(CKR_ARGUMENTS_BAD, p11->C_SeedRandom(session, NULL, 1));
    EXPECT(CKR_OK, p11->C_GenerateRandom(session, NULL, 0));
    end_token();
}

static void test_null_objects(void) {
    CK_SESSION_HANDLE session = begin_token();
    CK_OBJECT_HANDLE object = create_data(session, "label"), handle = 77;
    CK_MECHANISM generation = mechanism_of(CKM_GENERIC_SECRET_KEY_GEN);
    CK_ULONG key_length = 16;
    CK_OBJECT_CLASS class = CKO_DATA;
    CK_ATTRIBUTE data = {CKA_CLASS, &class, sizeof class};
    CK_ATTRIBUTE key = {CKA_VALUE_LEN, &key_length, sizeof key_length};
    EXPECT(CKR_ARGUMENTS_BAD, p11->C_CreateObject(session, NULL, 1, &handle));
    EXPECT(CKR_ARGUMENTS_BAD, p11->C_CreateObject(session, &data, 1, NULL));
    EXPECT(CKR_ARGUMENTS_BAD, p11->C_CopyObject(session, object, NULL, 1, &handle));
    EXPECT(CKR_ARGUMENTS_BAD, p11->C_CopyObject(session, object, NULL, 0, NULL));
    EXPECT(CKR_ARGUMENTS_BAD, p11->C_GetObjectSize(session, object, NULL));
    EXPECT(CKR_ARGUMENTS_BAD, p11->C_GetAttributeValue(session, object, NULL, 1));
    EXPECT(CKR_OK, p11->C_GetAttributeValue(session, object, NULL, 0));
    EXPECT(CKR_ARGUMENTS_BAD, p11->C_SetAttributeValue(session, object, NULL, 1));
    EXPECT(CKR_ARGUMENTS_BAD, p11->C_FindObjectsInit(session, NULL, 1));
    EXPECT(CKR_OK, p11->C_FindObjectsInit(session, NULL, 0));
    EXPECT(CKR_ARGUMENTS_BAD, p11->C_FindObjects(session, NULL, 1, &length));
    EXPECT(CKR_ARGUMENTS_BAD, p11->C_FindObjects(session, &handle, 1, NULL));
    EXPECT(CKR_OK, p11->C_FindObjects(session, &handle, 1, &length));
    check(length == 1 && handle == object, "the calls before found nothing and lost nothing");
    EXPECT(CKR_ARGUMENTS_BAD, p11->C_GenerateKey(session, NULL, &key, 1, &handle));
    EXPECT(CKR_ARGUMENTS_BAD, p11->C_GenerateKey(session, &generation, NULL, 1, &handle));
    EXPECT(CKR_ARGUMENTS_BAD, p11->C_GenerateKey(session, &generation, &key, 1, NULL));
    CK_ATTRIBUTE lacking = {CKA_VALUE_LEN, NULL, sizeof key_length};
    EXPECT(CKR_ATTRIBUTE_VALUE_INVALID,
           p11->C_GenerateKey(session, &generation, &lacking, 1, &handle));
    EXPECT(CKR_OK, p11->C_GenerateKey(session, &generation, &key, 1, &handle));
    CHECK((handle & UINT32_MAX) == object + 1);
    end_token();
}

/* The first template of a token, and the first queries, where the module has no memory for any
 * yet. What it hands on isn't NULL all the same: see token.h. */
static void test_empty_lists(void) {
    CK_SESSION_HANDLE session = begin_token();
    EXPECT(CKR_OK, p11->C_FindObjectsInit(session, NULL, 0));
    end_token();
    session = begin_token();
    EXPECT(CKR_OBJECT_HANDLE_INVALID, p11->C_GetAttributeValue(session, 1, NULL, 0));
    end_token();
}

/* A NULL pointer changes nothing: the operation stays active. */
static void test_null_operations(void) {
    CK_SESSION_HANDLE session = begin_token();
    CK_MECHANISM sha256 = mechanism_of(CKM_SHA256), hmac = mechanism_of(CKM_SHA256_HMAC);
    CK_MECHANISM no_parameter = {CKM_SHA256_HMAC_GENERAL, NULL, 8};
    CK_OBJECT_HANDLE key = create_key(session, "Jefe");
    EXPECT(CKR_MECHANISM_PARAM_INVALID, p11->C_DigestInit(session, &no_parameter));
    EXPECT(CKR_MECHANISM_PARAM_INVALID, p11->C_SignInit(session, &no_parameter, key));
    EXPECT(CKR_MECHANISM_PARAM_INVALID, p11->C_VerifyInit(session, &no_parameter, key));
    EXPECT(CKR_OK, p11->C_DigestInit(session, &sha256));
    EXPECT(CKR_ARGUMENTS_BAD, p11->C_Digest(session, NULL, 1, bytes, &length));
    EXPECT(CKR_ARGUMENTS_BAD, p11->C_Digest(session, bytes, 1, bytes, NULL));
    EXPECT(CKR_ARGUMENTS_BAD, p11->C_DigestUpdate(session, NULL, 1));
    EXPECT(CKR_ARGUMENTS_BAD, p11->C_DigestFinal(session, bytes, NULL));
    EXPECT(CKR_OK, p11->C_DigestUpdate(session, NULL, 0));
    EXPECT(CKR_OK, p11->C_SignInit(session, &hmac, key));
    EXPECT(CKR_ARGUMENTS_BAD, p11->C_Sign(session, NULL, 1, bytes, &length));
    EXPECT(CKR_ARGUMENTS_BAD, p11->C_Sign(session, bytes, 1, bytes, NULL));
    EXPECT(CKR_ARGUMENTS_BAD, p11->C_SignUpdate(session, NULL, 1));
    EXPECT(CKR_ARGUMENTS_BAD, p11->C_SignFinal(session, bytes, NULL));
    EXPECT(CKR_OK, p11->C_SignUpdate(session, NULL, 0));
    EXPECT(CKR_OK, p11->C_VerifyInit(session, &hmac, key));
    EXPECT(CKR_ARGUMENTS_BAD, p11->C_Verify(session, NULL, 1, bytes, 32));
    EXPECT(CKR_ARGUMENTS_BAD, p11->C_Verify(session, bytes, 1, NULL, 32));
    EXPECT(CKR_ARGUMENTS_BAD, p11->C_VerifyUpdate(session, NULL, 1));
    EXPECT(CKR_ARGUMENTS_BAD, p11->C_VerifyFinal(session, NULL, 32));
    EXPECT(CKR_OK, p11->C_VerifyUpdate(session, NULL, 0));
    EXPECT(CKR_SIGNATURE_LEN_RANGE, p11->C_VerifyFinal(session, NULL, 0));
    end_token();
}

/* An update of that many bytes is made in pieces, and the first of them is at NULL. What was added
 * before stays. */
static void test_null_updates(void) {
    static const CK_ULONG lengths[] = {(1 << 20) + 1, (CK_ULONG)1 << 32, (CK_ULONG)1 << 40};
    CK_SESSION_HANDLE session = begin_token();
    CK_MECHANISM sha256 = mechanism_of(CKM_SHA256), hmac = mechanism_of(CKM_SHA256_HMAC);
    CK_OBJECT_HANDLE key = create_key(session, "Jefe");
    CK_BYTE abc[] = {'a', 'b', 'c'}, out[32];
    EXPECT(CKR_OK, p11->C_DigestInit(session, &sha256));
    EXPECT(CKR_OK, p11->C_DigestUpdate(session, abc, sizeof abc));
    EXPECT(CKR_OK, p11->C_SignInit(session, &hmac, key));
    EXPECT(CKR_OK, p11->C_SignUpdate(session, hmac_message, sizeof hmac_message));
    EXPECT(CKR_OK, p11->C_VerifyInit(session, &hmac, key));
    EXPECT(CKR_OK, p11->C_VerifyUpdate(session, hmac_message, sizeof hmac_message));
    for (size_t i = 0; i < sizeof lengths / sizeof *lengths; i++) {
        EXPECT(CKR_ARGUMENTS_BAD, p11->C_DigestUpdate(session, NULL, lengths[i]));
        EXPECT(CKR_ARGUMENTS_BAD, p11->C_SignUpdate(session, NULL, lengths[i]));
        EXPECT(CKR_ARGUMENTS_BAD, p11->C_VerifyUpdate(session, NULL, lengths[i]));
    }
    length = sizeof out;
    EXPECT(CKR_OK, p11->C_DigestFinal(session, out, &length));
    CHECK(is_hexadecimal(out, length, sha256_of_abc));
    EXPECT(CKR_OK, p11->C_SignFinal(session, out, &length));
    CHECK(is_hexadecimal(out, length, hmac_of_message));
    EXPECT(CKR_OK, p11->C_VerifyFinal(session, out, length));
    end_token();
}

/* No bytes may stand at a pointer that isn't NULL, too: parameters, pieces and values. */
static void test_no_bytes(void) {
    CK_SESSION_HANDLE session = begin_token();
    CK_MECHANISM sha256 = {CKM_SHA256, bytes, 0}, hmac = {CKM_SHA256_HMAC, bytes, 0};
    CK_OBJECT_HANDLE key = create_key(session, "Jefe"), object = create_data(session, "label");
    CK_BYTE abc[] = {'a', 'b', 'c'}, out[32];
    CK_ATTRIBUTE label = {CKA_LABEL, bytes, 0};
    EXPECT(CKR_OK, p11->C_DigestInit(session, &sha256));
    EXPECT(CKR_OK, p11->C_SignInit(session, &hmac, key));
    EXPECT(CKR_OK, p11->C_VerifyInit(session, &hmac, key));
    EXPECT(CKR_OK, p11->C_DigestUpdate(session, abc, sizeof abc));
    EXPECT(CKR_OK, p11->C_DigestUpdate(session, bytes, 0));
    EXPECT(CKR_OK, p11->C_SignUpdate(session, bytes, 0));
    EXPECT(CKR_OK, p11->C_VerifyUpdate(session, bytes, 0));
    length = sizeof out;
    EXPECT(CKR_OK, p11->C_DigestFinal(session, out, &length));
    CHECK(is_hexadecimal(out, length, sha256_of_abc));
    EXPECT(CKR_OK, p11->C_SetAttributeValue(session, object, &label, 1));
    label = (CK_ATTRIBUTE){CKA_LABEL, NULL, 77};
    EXPECT(CKR_OK, p11->C_GetAttributeValue(session, object, &label, 1));
    CHECK(label.ulValueLen == 0);
    end_token();
}

/* A number in a template, and the place for one, may have any address. */
static void test_odd_addresses(void) {
    CK_SESSION_HANDLE session = begin_token();
    CK_MECHANISM generation = mechanism_of(CKM_GENERIC_SECRET_KEY_GEN);
    CK_ULONG key_length = 16;
    _Alignas(CK_ULONG) CK_BYTE place[1 + sizeof key_length];
    CK_ATTRIBUTE value_length = {CKA_VALUE_LEN, place + 1, sizeof key_length};
    CK_OBJECT_HANDLE key = 0;
    memcpy(place + 1, &key_length, sizeof key_length);
    EXPECT(CKR_OK, p11->C_GenerateKey(session, &generation, &value_length, 1, &key));
    memset(place, 0, sizeof place);
    EXPECT(CKR_OK, p11->C_GetAttributeValue(session, key, &value_length, 1));
    CHECK(memcmp(place + 1, &key_length, sizeof key_length) == 0);
    end_token();
}

/* Lengths that no memory can have are refused before anything is read. */
static void test_bad_lengths(void) {
    static const CK_ULONG lengths[] = {CK_UNAVAILABLE_INFORMATION, (CK_ULONG)1 << 63,
                                       (CK_ULONG)1 << 40};
    CK_SESSION_HANDLE session = begin_token();
    CK_OBJECT_HANDLE object = create_data(session, "label"), handle = 0;
    CK_OBJECT_CLASS class = CKO_DATA;
    for (size_t i = 0; i < sizeof lengths / sizeof *lengths; i++) {
        CK_ATTRIBUTE template[] = {
            {CKA_CLASS, &class, sizeof class},
            {CKA_LABEL, bytes, lengths[i]},
            {CKA_APPLICATION, bytes, lengths[i]},
        };
        EXPECT(CKR_ATTRIBUTE_VALUE_INVALID, p11->C_CreateObject(session, template, 3, &handle));
        EXPECT(CKR_ATTRIBUTE_VALUE_INVALID,
               p11->C_CopyObject(session, object, template + 1, 2, &handle));
        EXPECT(CKR_ATTRIBUTE_VALUE_INVALID,
               p11->C_SetAttributeValue(session, object, template + 1, 2));
        EXPECT(CKR_ATTRIBUTE_VALUE_INVALID, p11->C_FindObjectsInit(session, template, 3));
        template[1].pValue = NULL;
        EXPECT(CKR_ATTRIBUTE_VALUE_INVALID, p11->C_CreateObject(session, template, 2, &handle));
        CHECK(p11->C_GetAttributeValue(session, object, template, lengths[i]) == CKR_ARGUMENTS_BAD);
    }
    CHECK(handle == 0);
    end_token();
}

/* A length that no memory has is refused also where the pointer is good, and nothing behind that is
 * read or written. */
static void check_length_of_no_memory(CK_SESSION_HANDLE session, CK_ULONG given) {
    CK_MECHANISM sha256 = mechanism_of(CKM_SHA256), hmac = mechanism_of(CKM_SHA256_HMAC);
    CK_MECHANISM bad_parameter = {CKM_SHA256_HMAC_GENERAL, bytes, given};
    CK_OBJECT_HANDLE key = create_key(session, "Jefe");
    CK_BYTE out[64];
    length = sizeof out;
    EXPECT(CKR_ARGUMENTS_BAD, p11->C_GenerateRandom(session, bytes, given));
    EXPECT(CKR_ARGUMENTS_BAD, p11->C_SeedRandom(session, bytes, given));
    EXPECT(CKR_ARGUMENTS_BAD, p11->C_SetPIN(session, user_pin, given, user_pin, 4));
    EXPECT(CKR_ARGUMENTS_BAD, p11->C_SetPIN(session, user_pin, 4, user_pin, given));
    EXPECT(CKR_ARGUMENTS_BAD, p11->C_InitPIN(session, user_pin, given));
    EXPECT(CKR_ARGUMENTS_BAD, p11->C_InitToken(0, so_pin, given, token_label));
    EXPECT(CKR_ARGUMENTS_BAD, p11->C_Login(session, CKU_USER, user_pin, given));
    EXPECT(CKR_MECHANISM_PARAM_INVALID, p11->C_SignInit(session, &bad_parameter, key));
    EXPECT(CKR_OK, p11->C_DigestInit(session, &sha256));
    EXPECT(CKR_ARGUMENTS_BAD, p11->C_Digest(session, bytes, given, out, &length));
    EXPECT(CKR_ARGUMENTS_BAD, p11->C_DigestUpdate(session, bytes, given));
    EXPECT(CKR_OK, p11->C_Digest(session, bytes, 5, out, &length));
    EXPECT(CKR_OK, p11->C_SignInit(session, &hmac, key));
    EXPECT(CKR_ARGUMENTS_BAD, p11->C_Sign(session, bytes, given, out, &length));
    EXPECT(CKR_ARGUMENTS_BAD, p11->C_SignUpdate(session, bytes, given));
    EXPECT(CKR_OK, p11->C_Sign(session, bytes, 5, out, &length));
    EXPECT(CKR_OK, p11->C_VerifyInit(session, &hmac, key));
    EXPECT(CKR_ARGUMENTS_BAD, p11->C_Verify(session, bytes, given, out, length));
    EXPECT(CKR_ARGUMENTS_BAD, p11->C_Verify(session, bytes, 5, out, given));
    EXPECT(CKR_ARGUMENTS_BAD, p11->C_VerifyUpdate(session, bytes, given));
    EXPECT(CKR_OK, p11->C_Verify(session, bytes, 5, out, length));
}

static void test_lengths_of_no_memory(void) {
    CK_SESSION_HANDLE session = begin_token();
    check_length_of_no_memory(session, (CK_ULONG)1 << 47);
    check_length_of_no_memory(session, (CK_ULONG)1 << 63);
    check_length_of_no_memory(session, CK_UNAVAILABLE_INFORMATION);
    CHECK(memcmp(bytes, "bytes", 6) == 0);
    end_token();
}

enum { MOST_ATTRIBUTES = 1 << 20, LONG_VALUE = 1 << 24 };

void *zeros_new(size_t count, size_t size) {
    void *memory = calloc(count, size);
    if (memory == NULL)
        exit(2);
    return memory;
}

/* Templates of the most attributes aren't refused for their number. Those that go by a line are
 * too long for one. */
static void check_longest_templates(CK_SESSION_HANDLE session, CK_OBJECT_HANDLE object,
                                    CK_ATTRIBUTE *labels) {
    CK_MECHANISM generation = mechanism_of(CKM_GENERIC_SECRET_KEY_GEN);
    CK_OBJECT_HANDLE other = 0;
    for (CK_ULONG i = 0; i < MOST_ATTRIBUTES; i++)
        labels[i] = (CK_ATTRIBUTE){CKA_LABEL, NULL, 0};
    CK_RV code = p11->C_FindObjectsInit(session, labels, MOST_ATTRIBUTES);
    check_code(code, has_journals ? CKR_HOST_MEMORY : CKR_OK, "C_FindObjectsInit of the most");
    code = p11->C_CreateObject(session, labels, MOST_ATTRIBUTES, &other);
    check_code(code, has_journals ? CKR_HOST_MEMORY : CKR_TEMPLATE_INCOMPLETE,
               "C_CreateObject of the most");
    EXPECT(CKR_HOST_MEMORY,
           p11->C_CopyObject(session, object, labels, MOST_ATTRIBUTES, &other));
    EXPECT(CKR_HOST_MEMORY, p11->C_SetAttributeValue(session, object, labels, MOST_ATTRIBUTES));
    EXPECT(CKR_HOST_MEMORY,
           p11->C_GenerateKey(session, &generation, labels, MOST_ATTRIBUTES, &other));
    CHECK(other == 0);
}

/* By lines the call is too long for one. */
static void test_most_attributes(void) {
    CK_SESSION_HANDLE session = begin_token();
    CK_OBJECT_HANDLE object = create_data(session, "label"), other = 0;
    CK_ATTRIBUTE *many = zeros_new(MOST_ATTRIBUTES + 1, sizeof *many);
    CK_ULONG more = MOST_ATTRIBUTES + 1;
    CK_MECHANISM generation = mechanism_of(CKM_GENERIC_SECRET_KEY_GEN);
    for (CK_ULONG i = 0; i < more; i++)
        many[i] = (CK_ATTRIBUTE){CKA_LABEL, NULL, 77};
    EXPECT(CKR_ARGUMENTS_BAD, p11->C_GetAttributeValue(session, object, many, more));
    EXPECT(CKR_ARGUMENTS_BAD, p11->C_SetAttributeValue(session, object, many, more));
    EXPECT(CKR_ARGUMENTS_BAD, p11->C_CopyObject(session, object, many, more, &other));
    EXPECT(CKR_ARGUMENTS_BAD, p11->C_CreateObject(session, many, more, &other));
    EXPECT(CKR_ARGUMENTS_BAD, p11->C_FindObjectsInit(session, many, more));
    EXPECT(CKR_ARGUMENTS_BAD, p11->C_GenerateKey(session, &generation, many, more, &other));
    CHECK(many[0].ulValueLen == 77 && many[MOST_ATTRIBUTES].ulValueLen == 77);
    CK_RV code = p11->C_GetAttributeValue(session, object, many, MOST_ATTRIBUTES);
    check_code(code, has_journals ? CKR_HOST_MEMORY : CKR_OK, "the most attributes");
    CHECK(has_journals || many[MOST_ATTRIBUTES - 1].ulValueLen == 5);
    CHECK(many[MOST_ATTRIBUTES].ulValueLen == 77);
    check_longest_templates(session, object, many);
    free(many);
    end_token();
}

/* A value that is too long is refused before it is read. The longest one isn't refused for its
 * length, but C_SetAttributeValue goes by a line, and is too long for one. */
static void test_longest_value(void) {
    CK_SESSION_HANDLE session = begin_token();
    CK_OBJECT_HANDLE object = 0, other = create_data(session, "label");
    CK_OBJECT_CLASS class = CKO_DATA;
    CK_BBOOL no = CK_FALSE;
    CK_BYTE *value = zeros_new(LONG_VALUE, 1);
    CK_ATTRIBUTE template[] = {
        {CKA_CLASS, &class, sizeof class},
        {CKA_PRIVATE, &no, sizeof no},
        {CKA_VALUE, value, (1 << 30) + 1},
    };
    CK_ATTRIBUTE query = {CKA_VALUE, NULL, 0};
    EXPECT(CKR_ATTRIBUTE_VALUE_INVALID, p11->C_CreateObject(session, template, 3, &object));
    EXPECT(CKR_ATTRIBUTE_VALUE_INVALID, p11->C_FindObjectsInit(session, template, 3));
    EXPECT(CKR_ATTRIBUTE_VALUE_INVALID, p11->C_SetAttributeValue(session, other, template + 2, 1));
    CHECK(object == 0);
    template[2].ulValueLen = 1 << 30;
    EXPECT(CKR_HOST_MEMORY, p11->C_SetAttributeValue(session, other, template + 2, 1));
    template[2].ulValueLen = LONG_VALUE;
    CK_RV code = p11->C_CreateObject(session, template, 3, &object);
    check_code(code, has_journals ? CKR_HOST_MEMORY : CKR_OK, "C_CreateObject of a long value");
    if (!has_journals)
        EXPECT(CKR_OK, p11->C_GetAttributeValue(session, object, &query, 1));
    CHECK(query.ulValueLen == (has_journals ? 0 : LONG_VALUE));
    free(value);
    end_token();
}

/* No session has such a handle, although one has its lower 32 bits. */
static void check_session_and_objects(CK_SESSION_HANDLE session, CK_OBJECT_HANDLE object,
                                      CK_OBJECT_HANDLE key) {
    CK_OBJECT_CLASS class = CKO_DATA;
    CK_ULONG size = 16;
    CK_MECHANISM generation = mechanism_of(CKM_GENERIC_SECRET_KEY_GEN);
    CK_ATTRIBUTE data = {CKA_CLASS, &class, sizeof class}, label = {CKA_LABEL, bytes, 5};
    CK_ATTRIBUTE query = {CKA_LABEL, NULL, 0}, value_length = {CKA_VALUE_LEN, &size, sizeof size};
    CK_OBJECT_HANDLE handle = 0;
    EXPECT(CKR_SESSION_HANDLE_INVALID, p11->C_CreateObject(session, &data, 1, &handle));
    EXPECT(CKR_SESSION_HANDLE_INVALID, p11->C_CopyObject(session, object, NULL, 0, &handle));
    EXPECT(CKR_SESSION_HANDLE_INVALID,
           p11->C_GenerateKey(session, &generation, &value_length, 1, &handle));
    EXPECT(CKR_SESSION_HANDLE_INVALID, p11->C_GetObjectSize(session, object, &size));
    EXPECT(CKR_SESSION_HANDLE_INVALID, p11->C_GetAttributeValue(session, object, &query, 1));
    EXPECT(CKR_SESSION_HANDLE_INVALID, p11->C_SetAttributeValue(session, object, &label, 1));
    EXPECT(CKR_SESSION_HANDLE_INVALID, vendor_functions()->C_SetKeyState(session, key, 5));
    EXPECT(CKR_SESSION_HANDLE_INVALID, p11->C_DestroyObject(session, object));
    EXPECT(CKR_SESSION_HANDLE_INVALID, p11->C_FindObjectsInit(session, NULL, 0));
    EXPECT(CKR_SESSION_HANDLE_INVALID, p11->C_FindObjects(session, &handle, 1, &length));
    EXPECT(CKR_SESSION_HANDLE_INVALID, p11->C_FindObjectsFinal(session));
    CHECK(handle == 0);
}

static void check_session_and_messages(CK_SESSION_HANDLE session, CK_OBJECT_HANDLE key) {
    CK_MECHANISM sha256 = mechanism_of(CKM_SHA256), hmac = mechanism_of(CKM_SHA256_HMAC);
    CK_BYTE out[32];
    length = sizeof out;
    EXPECT(CKR_SESSION_HANDLE_INVALID, p11->C_DigestInit(session, &sha256));
    EXPECT(CKR_SESSION_HANDLE_INVALID, p11->C_DigestUpdate(session, bytes, 5));
    EXPECT(CKR_SESSION_HANDLE_INVALID, p11->C_DigestFinal(session, out, &length));
    EXPECT(CKR_SESSION_HANDLE_INVALID, p11->C_Digest(session, bytes, 5, out, &length));
    EXPECT(CKR_SESSION_HANDLE_INVALID, p11->C_SignInit(session, &hmac, key));
    EXPECT(CKR_SESSION_HANDLE_INVALID, p11->C_SignUpdate(session, bytes, 5));
    EXPECT(CKR_SESSION_HANDLE_INVALID, p11->C_SignFinal(session, out, &length));
    EXPECT(CKR_SESSION_HANDLE_INVALID, p11->C_Sign(session, bytes, 5, out, &length));
    EXPECT(CKR_SESSION_HANDLE_INVALID, p11->C_VerifyInit(session, &hmac, key));
    EXPECT(CKR_SESSION_HANDLE_INVALID, p11->C_VerifyUpdate(session, bytes, 5));
    EXPECT(CKR_SESSION_HANDLE_INVALID, p11->C_VerifyFinal(session, bytes, 32));
    EXPECT(CKR_SESSION_HANDLE_INVALID, p11->C_Verify(session, bytes, 5, bytes, 32));
    EXPECT(CKR_SESSION_HANDLE_INVALID, p11->C_SessionCancel(session, CKF_DIGEST));
    EXPECT(CKR_SESSION_HANDLE_INVALID, p11->C_GenerateRandom(session, out, sizeof out));
    EXPECT(CKR_SESSION_HANDLE_INVALID, p11->C_SeedRandom(session, bytes, 5));
}

static void check_session_and_pins(CK_SESSION_HANDLE session) {
    CK_SESSION_INFO info;
    EXPECT(CKR_SESSION_HANDLE_INVALID, p11->C_GetSessionInfo(session, &info));
    EXPECT(CKR_SESSION_HANDLE_INVALID, p11->C_Login(session, CKU_USER, user_pin, 4));
    EXPECT(CKR_SESSION_HANDLE_INVALID, p11->C_InitPIN(session, user_pin, 4));
    EXPECT(CKR_SESSION_HANDLE_INVALID, p11->C_SetPIN(session, user_pin, 4, user_pin, 4));
    EXPECT(CKR_SESSION_HANDLE_INVALID, p11->C_Logout(session));
    EXPECT(CKR_SESSION_HANDLE_INVALID, p11->C_CloseSession(session));
}

/* The room is said to be for more than a list has. Of handles there is as much as the module asks
 * for at once, and more. */
static void check_high_rooms(CK_SESSION_HANDLE session, CK_ULONG room) {
    static CK_OBJECT_HANDLE handles[5000];
    CK_SLOT_ID slots[1];
    CK_MECHANISM_TYPE types[13];
    CK_INTERFACE interfaces[3];
    CK_ULONG count = room;
    EXPECT(CKR_OK, p11->C_GetSlotList(CK_TRUE, slots, &count));
    CHECK(count == 1);
    count = room;
    EXPECT(CKR_OK, p11->C_GetMechanismList(0, types, &count));
    CHECK(count == 13);
    count = room;
    EXPECT(CKR_OK, p11->C_GetInterfaceList(interfaces, &count));
    CHECK(count == 3);
    EXPECT(CKR_OK, p11->C_FindObjects(session, handles, room, &count));
    CHECK(count == 2);
}

/* Numbers are compared with all their bits. */
static void test_high_numbers(void) {
    const CK_ULONG high = (CK_ULONG)1 << 32;
    CK_SESSION_HANDLE session = begin_token();
    CK_OBJECT_HANDLE object = create_data(session, "label"), key = create_key(session, "Jefe");
    CK_MECHANISM sha256 = mechanism_of(CKM_SHA256);
    CK_MECHANISM high_sha256 = mechanism_of(CKM_SHA256 + high);
    CK_MECHANISM high_hmac = mechanism_of(CKM_SHA256_HMAC + high);
    CK_MECHANISM_INFO mechanism_info;
    CK_ATTRIBUTE label = {CKA_LABEL + high, NULL, 0};
    CK_ULONG size = 0;
    EXPECT(CKR_MECHANISM_INVALID, p11->C_DigestInit(session, &high_sha256));
    EXPECT(CKR_MECHANISM_INVALID, p11->C_SignInit(session, &high_hmac, key));
    EXPECT(CKR_MECHANISM_INVALID, p11->C_GetMechanismInfo(0, CKM_SHA256 + high, &mechanism_info));
    EXPECT(CKR_ATTRIBUTE_TYPE_INVALID, p11->C_GetAttributeValue(session, object, &label, 1));
    EXPECT(CKR_OBJECT_HANDLE_INVALID, p11->C_GetObjectSize(session, object + high, &size));
    EXPECT(CKR_OBJECT_HANDLE_INVALID, p11->C_DestroyObject(session, object + high));
    EXPECT(CKR_OK, p11->C_DigestInit(session, &sha256));
    EXPECT(CKR_OK, p11->C_FindObjectsInit(session, NULL, 0));
    check_session_and_objects(session + high, object, key);
    check_session_and_messages(session + high, key);
    check_session_and_pins(session + high);
    EXPECT(CKR_SLOT_ID_INVALID, p11->C_CloseAllSessions(high));
    check_high_rooms(session, high);
    EXPECT(CKR_OK, p11->C_Logout(session));
    EXPECT(CKR_USER_TYPE_INVALID, p11->C_Login(session, CKU_SO + high, so_pin, 4));
    EXPECT(CKR_OK, p11->C_Login(session, CKU_SO, so_pin, 4));
    end_token();
}

static size_t notifications;

static CK_RV count_notification(CK_SESSION_HANDLE session, CK_NOTIFICATION event,
                                CK_VOID_PTR application) {
    (void)session, (void)event, (void)application;
    notifications++;
    return CKR_OK;
}

/* There is nothing that the library would notify an application of. */
static void test_notifications(void) {
    CK_SESSION_HANDLE session = begin_token(), notified = 0;
    notifications = 0;
    EXPECT(CKR_OK, p11->C_OpenSession(0, read_write, bytes, count_notification, &notified));
    CHECK(notified != 0 && notified != session);
    EXPECT(CKR_OK, p11->C_OpenSession(0, read_write, NULL, count_notification, &notified));
    EXPECT(CKR_OK, p11->C_CloseSession(notified));
    CHECK(notifications == 0);
    end_token();
}

static const struct test tests[] = {
    {"NULL pointers: the library, slots and tokens", test_null_general},
    {"NULL pointers: PINs", test_null_pins},
    {"NULL pointers: sessions and random bytes", test_null_sessions},
    {"NULL pointers: objects, searches and keys", test_null_objects},
    {"empty lists, where the module has had none before", test_empty_lists},
    {"NULL pointers: digests, signing and verifying", test_null_operations},
    {"NULL pointers: updates above 2^20 bytes", test_null_updates},
    {"no bytes, at pointers that aren't NULL", test_no_bytes},
    {"numbers in templates at odd addresses", test_odd_addresses},
    {"lengths of attributes that no memory can have", test_bad_lengths},
    {"lengths of messages, PINs and random bytes that no memory has", test_lengths_of_no_memory},
    {"templates of 2^20 attributes and of one more", test_most_attributes},
    {"values of 2^24 bytes and of more than 2^30", test_longest_value},
    {"numbers of which only the lower 32 bits are right", test_high_numbers},
    {"sessions that are opened with a function for notifications", test_notifications},
};

int run_argument_tests(const char *name) {
    return run_tests(name, tests, sizeof tests / sizeof *tests);
}
