/*
 * Outputs and the rooms for them, searches in pieces, and messages and signatures of any length.
 */
#include "conventions.h"

#include <stdlib.h>
#include <string.h>

/* ---- Outputs and rooms */

CK_SESSION_HANDLE current_session;
CK_OBJECT_HANDLE current_key;
CK_MECHANISM current_mechanism;

/* A call with an output, and what must be done before it. */
struct output {
    const char *what;
    CK_RV (*begin)(void);
    CK_RV (*make)(void *out, CK_ULONG *count);
    size_t size; /* of one element */
};

CK_RV begin_nothing(void) {
    return CKR_OK;
}

CK_RV begin_digest(void) {
    return p11->C_DigestInit(current_session, &current_mechanism);
}

static CK_RV begin_digest_update(void) {
    CK_RV code = begin_digest();
    return code == CKR_OK ? p11->C_DigestUpdate(current_session, bytes, 5) : code;
}

CK_RV begin_sign(void) {
    return p11->C_SignInit(current_session, &current_mechanism, current_key);
}

static CK_RV begin_sign_update(void) {
    CK_RV code = begin_sign();
    return code == CKR_OK ? p11->C_SignUpdate(current_session, bytes, 5) : code;
}

static CK_RV make_digest(void *out, CK_ULONG *count) {
    return p11->C_Digest(current_session, bytes, 5, out, count);
}

static CK_RV make_digest_final(void *out, CK_ULONG *count) {
    return p11->C_DigestFinal(current_session, out, count);
}

static CK_RV make_sign(void *out, CK_ULONG *count) {
    return p11->C_Sign(current_session, bytes, 5, out, count);
}

static CK_RV make_sign_final(void *out, CK_ULONG *count) {
    return p11->C_SignFinal(current_session, out, count);
}

static CK_RV make_slots(void *out, CK_ULONG *count) {
    return p11->C_GetSlotList(CK_TRUE, out, count);
}

static CK_RV make_all_slots(void *out, CK_ULONG *count) {
    return p11->C_GetSlotList(CK_FALSE, out, count);
}

static CK_RV make_mechanisms(void *out, CK_ULONG *count) {
    return p11->C_GetMechanismList(0, out, count);
}

static CK_RV make_interfaces(void *out, CK_ULONG *count) {
    return p11->C_GetInterfaceList(out, count);
}

/* Whether each element of a list is written. Of bytes one by one it can't be told: any of them may
 * be what stood there before. */
static bool are_written(const uint8_t *memory, size_t written, size_t size) {
    size_t step = size == 1 ? written : size;
    for (size_t at = 0; at < written * size; at += step) {
        if (!guarded_is_written(memory + at, step))
            return false;
    }
    return true;
}

/* One call with room for this many elements: `written` of them are written, and no more. */
static void check_room(const struct output *output, CK_ULONG room, CK_RV expected, CK_ULONG count,
                       CK_ULONG written) {
    size_t memory_length = room * output->size;
    uint8_t *memory = guarded_new(memory_length);
    CK_ULONG given = room;
    check_code(output->make(memory, &given), expected, output->what);
    check(given == count, output->what);
    check(are_written(memory, written, output->size), output->what);
    check(guarded_is_intact(memory, memory_length, written * output->size), output->what);
    guarded_free(memory);
}

/* The length is asked for; then the room is none, one too small, exact, and more than needed. */
static void check_output(const struct output *output, CK_ULONG count) {
    CK_ULONG given = 0;
    check_code(output->begin(), CKR_OK, output->what);
    check_code(output->make(NULL, &given), CKR_OK, output->what);
    check(given == count, output->what);
    check_room(output, 0, CKR_BUFFER_TOO_SMALL, count, 0);
    check_room(output, count - 1, CKR_BUFFER_TOO_SMALL, count, 0);
    check_room(output, count, CKR_OK, count, count);
    check_code(output->begin(), CKR_OK, output->what);
    check_room(output, count + 3, CKR_OK, count, count);
}

static void test_lists_of_numbers(void) {
    static const struct output slots = {"C_GetSlotList", begin_nothing, make_slots, 8};
    static const struct output all_slots = {"C_GetSlotList", begin_nothing, make_all_slots, 8};
    static const struct output mechanisms = {"C_GetMechanismList", begin_nothing, make_mechanisms,
                                             8};
    static const struct output interfaces = {"C_GetInterfaceList", begin_nothing, make_interfaces,
                                             sizeof(CK_INTERFACE)};
    check_output(&interfaces, 3);
    begin_token();
    check_output(&slots, 1);
    check_output(&all_slots, 1);
    check_output(&mechanisms, 13);
    end_token();
}

static void test_digest_rooms(void) {
    static const struct output digest = {"C_Digest", begin_digest, make_digest, 1};
    static const struct output final = {"C_DigestFinal", begin_digest_update, make_digest_final, 1};
    static const struct { CK_MECHANISM_TYPE type; CK_ULONG length; } digests[] = {
        {CKM_SHA224, 28}, {CKM_SHA256, 32}, {CKM_SHA384, 48}, {CKM_SHA512, 64},
    };
    current_session = begin_token();
    for (size_t i = 0; i < 4; i++) {
        current_mechanism = mechanism_of(digests[i].type);
        check_output(&digest, digests[i].length);
        check_output(&final, digests[i].length);
    }
    end_token();
}

static void test_sign_rooms(void) {
    static const struct output sign = {"C_Sign", begin_sign, make_sign, 1};
    static const struct output final = {"C_SignFinal", begin_sign_update, make_sign_final, 1};
    static const struct { CK_MECHANISM_TYPE type; CK_ULONG length; } macs[] = {
        {CKM_SHA224_HMAC, 28}, {CKM_SHA256_HMAC, 32}, {CKM_SHA384_HMAC, 48}, {CKM_SHA512_HMAC, 64},
        {CKM_SHA256_HMAC_GENERAL, 1}, {CKM_SHA512_HMAC_GENERAL, 63},
    };
    current_session = begin_token();
    current_key = create_key(current_session, "Jefe");
    for (size_t i = 0; i < 6; i++) {
        CK_ULONG general = macs[i].length;
        current_mechanism = mechanism_of(macs[i].type);
        if (i >= 4)
            current_mechanism = (CK_MECHANISM){macs[i].type, &general, sizeof general};
        check_output(&sign, macs[i].length);
        check_output(&final, macs[i].length);
    }
    end_token();
}

/* C_GetAttributeValue of a label of five bytes with this room. */
static void check_label_room(CK_SESSION_HANDLE session, CK_OBJECT_HANDLE object, CK_ULONG room,
                             CK_RV expected, CK_ULONG given, size_t written) {
    uint8_t *memory = guarded_new(room);
    CK_ATTRIBUTE label = {CKA_LABEL, memory, room};
    EXPECT(expected, p11->C_GetAttributeValue(session, object, &label, 1));
    CHECK(label.ulValueLen == given && label.pValue == memory && label.type == CKA_LABEL);
    CHECK(guarded_is_intact(memory, room, written));
    CHECK(written == 0 || memcmp(memory, "label", written) == 0);
    guarded_free(memory);
}

/* A length that no memory has is no room, also where a call before has left it there. */
static void check_impossible_room(CK_SESSION_HANDLE session, CK_OBJECT_HANDLE object,
                                  CK_ULONG room) {
    uint8_t *memory = guarded_new(2);
    CK_ATTRIBUTE label = {CKA_LABEL, memory, room};
    EXPECT(CKR_ARGUMENTS_BAD, p11->C_GetAttributeValue(session, object, &label, 1));
    CHECK(label.ulValueLen == room && guarded_is_intact(memory, 2, 0));
    label.pValue = NULL;
    EXPECT(CKR_OK, p11->C_GetAttributeValue(session, object, &label, 1));
    CHECK(label.ulValueLen == 5);
    guarded_free(memory);
}

/* The room may be said to have the most bytes that memory could have. */
static void check_largest_room(CK_SESSION_HANDLE session, CK_OBJECT_HANDLE object) {
    uint8_t *memory = guarded_new(5);
    CK_ATTRIBUTE label = {CKA_LABEL, memory, ((CK_ULONG)1 << 47) - 1};
    EXPECT(CKR_OK, p11->C_GetAttributeValue(session, object, &label, 1));
    CHECK(label.ulValueLen == 5 && memcmp(memory, "label", 5) == 0);
    CHECK(guarded_is_intact(memory, 5, 5));
    guarded_free(memory);
}

static void test_attribute_rooms(void) {
    CK_SESSION_HANDLE session = begin_token();
    CK_OBJECT_HANDLE object = create_data(session, "label");
    CK_ATTRIBUTE label = {CKA_LABEL, NULL, 0};
    EXPECT(CKR_OK, p11->C_GetAttributeValue(session, object, &label, 1));
    CHECK(label.ulValueLen == 5);
    check_label_room(session, object, 0, CKR_BUFFER_TOO_SMALL, CK_UNAVAILABLE_INFORMATION, 0);
    check_label_room(session, object, 4, CKR_BUFFER_TOO_SMALL, CK_UNAVAILABLE_INFORMATION, 0);
    check_label_room(session, object, 5, CKR_OK, 5, 5);
    check_label_room(session, object, 64, CKR_OK, 5, 5);
    check_largest_room(session, object);
    check_impossible_room(session, object, CK_UNAVAILABLE_INFORMATION);
    check_impossible_room(session, object, (CK_ULONG)1 << 47);
    end_token();
}

/* Each query is answered by itself, whatever the code of the call is. */
static void test_attribute_codes(void) {
    CK_SESSION_HANDLE session = begin_token();
    CK_OBJECT_HANDLE key = create_key(session, "Jefe");
    CK_BBOOL yes = CK_TRUE;
    CK_BYTE value[8] = {0}, token = 9, small[1] = {0};
    CK_ATTRIBUTE sensitive = {CKA_SENSITIVE, &yes, sizeof yes};
    EXPECT(CKR_OK, p11->C_SetAttributeValue(session, key, &sensitive, 1));
    CK_ATTRIBUTE queries[] = {
        {CKA_CLASS, small, sizeof small},
        {CKA_MODULUS, value, sizeof value},
        {CKA_VALUE, value, sizeof value},
        {CKA_TOKEN, &token, sizeof token},
    };
    EXPECT(CKR_ATTRIBUTE_SENSITIVE, p11->C_GetAttributeValue(session, key, queries, 4));
    for (int i = 0; i < 3; i++)
        CHECK(queries[i].ulValueLen == CK_UNAVAILABLE_INFORMATION);
    CHECK(queries[3].ulValueLen == 1 && token == 0);
    CHECK(value[0] == 0 && small[0] == 0);
    queries[1].ulValueLen = sizeof value;
    EXPECT(CKR_ATTRIBUTE_TYPE_INVALID, p11->C_GetAttributeValue(session, key, queries + 1, 1));
    queries[3].ulValueLen = 77;
    EXPECT(CKR_OBJECT_HANDLE_INVALID, p11->C_GetAttributeValue(session, 0, queries + 3, 1));
    check(queries[3].ulValueLen == 77, "without an object nothing is answered");
    end_token();
}

/* ---- Searches of many objects, which the module makes in pieces */

static void find_and_check(CK_SESSION_HANDLE session, CK_ULONG most, CK_ULONG expected,
                           CK_OBJECT_HANDLE first) {
    size_t memory_length = most * sizeof(CK_OBJECT_HANDLE);
    uint8_t *memory = guarded_new(memory_length);
    CK_OBJECT_HANDLE *handles = (CK_OBJECT_HANDLE *)(void *)memory;
    CK_ULONG count = 77;
    EXPECT(CKR_OK, p11->C_FindObjects(session, handles, most, &count));
    CHECK(count == expected);
    CHECK(guarded_is_intact(memory, memory_length, expected * sizeof *handles));
    size_t wrong = 0;
    for (CK_ULONG i = 0; i < count && i < most; i++)
        wrong += handles[i] != first + i;
    CHECK(wrong == 0);
    guarded_free(memory);
}

static void test_many_objects(void) {
    CK_SESSION_HANDLE session = begin_token();
    CK_ATTRIBUTE label = {CKA_LABEL, (void *)(uintptr_t) "one of many", 11};
    for (int i = 0; i < 2500; i++)
        create_data(session, "one of many");
    EXPECT(CKR_OK, p11->C_FindObjectsInit(session, &label, 1));
    EXPECT(CKR_OK, p11->C_FindObjects(session, NULL, 0, &length));
    CHECK(length == 0);
    find_and_check(session, 3, 3, 1);
    find_and_check(session, 2000, 2000, 4);
    find_and_check(session, 3000, 497, 2004);
    find_and_check(session, 3000, 0, 0);
    EXPECT(CKR_OK, p11->C_FindObjectsFinal(session));
    EXPECT(CKR_OK, p11->C_FindObjectsInit(session, NULL, 0));
    find_and_check(session, 5000, 2500, 1);
    EXPECT(CKR_OK, p11->C_FindObjectsFinal(session));
    end_token();
}

/* ---- Places for what is answered */

/* A call that is refused leaves them as they are. */
static void test_refused_outputs(void) {
    CK_SESSION_HANDLE session = begin_token(), opened = 77;
    CK_OBJECT_HANDLE object = create_data(session, "label"), other = 77;
    CK_MECHANISM generation = mechanism_of(CKM_GENERIC_SECRET_KEY_GEN);
    CK_ULONG count = 77, size = 77;
    CK_SESSION_INFO info = {.state = 77, .flags = 77};
    EXPECT(CKR_SESSION_PARALLEL_NOT_SUPPORTED, p11->C_OpenSession(0, 0, NULL, NULL, &opened));
    EXPECT(CKR_TEMPLATE_INCOMPLETE, p11->C_CreateObject(session, NULL, 0, &other));
    EXPECT(CKR_OBJECT_HANDLE_INVALID, p11->C_CopyObject(session, object + 1, NULL, 0, &other));
    EXPECT(CKR_TEMPLATE_INCOMPLETE, p11->C_GenerateKey(session, &generation, NULL, 0, &other));
    EXPECT(CKR_OPERATION_NOT_INITIALIZED, p11->C_FindObjects(session, &other, 1, &count));
    EXPECT(CKR_OBJECT_HANDLE_INVALID, p11->C_GetObjectSize(session, object + 1, &size));
    EXPECT(CKR_SESSION_HANDLE_INVALID, p11->C_GetSessionInfo(session + 1, &info));
    EXPECT(CKR_OPERATION_NOT_INITIALIZED, p11->C_Digest(session, bytes, 1, bytes, &count));
    EXPECT(CKR_OPERATION_NOT_INITIALIZED, p11->C_DigestFinal(session, bytes, &count));
    EXPECT(CKR_OPERATION_NOT_INITIALIZED, p11->C_Sign(session, bytes, 1, bytes, &count));
    EXPECT(CKR_OPERATION_NOT_INITIALIZED, p11->C_SignFinal(session, bytes, &count));
    CHECK(opened == 77 && other == 77 && count == 77 && size == 77);
    CHECK(info.state == 77 && info.flags == 77);
    end_token();
}

/* Questions about slots, tokens, mechanisms and sessions, and for random bytes. */
static void test_refused_questions(void) {
    enum { ROOM = 256 };
    CK_SESSION_HANDLE session = begin_token();
    CK_ULONG count = 13;
    uint8_t *memory = guarded_new(ROOM);
    void *out = memory;
    EXPECT(CKR_ARGUMENTS_BAD, p11->C_GetSlotList(CK_TRUE, out, NULL));
    EXPECT(CKR_SLOT_ID_INVALID, p11->C_GetSlotInfo(1, out));
    EXPECT(CKR_SLOT_ID_INVALID, p11->C_GetTokenInfo(1, out));
    EXPECT(CKR_SLOT_ID_INVALID, p11->C_GetMechanismList(1, out, &count));
    EXPECT(CKR_SLOT_ID_INVALID, p11->C_GetMechanismInfo(1, CKM_SHA256, out));
    EXPECT(CKR_MECHANISM_INVALID, p11->C_GetMechanismInfo(0, CKM_RSA_PKCS, out));
    EXPECT(CKR_SESSION_HANDLE_INVALID, p11->C_GetSessionInfo(session + 1, out));
    EXPECT(CKR_SESSION_HANDLE_INVALID, p11->C_GenerateRandom(session + 1, out, ROOM));
    CHECK(guarded_is_intact(memory, ROOM, 0) && count == 13);
    guarded_free(memory);
    end_token();
}

/* ---- Operations */

static void test_cancel(void) {
    CK_SESSION_HANDLE session = begin_token();
    CK_MECHANISM sha256 = mechanism_of(CKM_SHA256), hmac = mechanism_of(CKM_SHA256_HMAC);
    CK_OBJECT_HANDLE key = create_key(session, "Jefe");
    for (int way = 0; way < 2; way++) {
        EXPECT(CKR_OK, p11->C_DigestInit(session, &sha256));
        EXPECT(CKR_OPERATION_ACTIVE, p11->C_DigestInit(session, &sha256));
        EXPECT(CKR_OK, p11->C_SignInit(session, &hmac, key));
        EXPECT(CKR_OK, p11->C_VerifyInit(session, &hmac, key));
        EXPECT(CKR_OK, way ? p11->C_DigestInit(session, NULL)
                           : p11->C_SessionCancel(session, CKF_DIGEST));
        EXPECT(CKR_OPERATION_NOT_INITIALIZED, p11->C_DigestUpdate(session, bytes, 1));
        EXPECT(CKR_OK, p11->C_SignUpdate(session, bytes, 1));
        EXPECT(CKR_OK, way ? p11->C_SignInit(session, NULL, key)
                           : p11->C_SessionCancel(session, CKF_SIGN));
        EXPECT(CKR_OPERATION_NOT_INITIALIZED, p11->C_SignUpdate(session, bytes, 1));
        EXPECT(CKR_OK, p11->C_VerifyUpdate(session, bytes, 1));
        EXPECT(CKR_OK, way ? p11->C_VerifyInit(session, NULL, key)
                           : p11->C_SessionCancel(session, CKF_VERIFY));
        EXPECT(CKR_OPERATION_NOT_INITIALIZED, p11->C_VerifyUpdate(session, bytes, 1));
    }
    EXPECT(CKR_ARGUMENTS_BAD, p11->C_SessionCancel(session, CKF_ENCRYPT));
    EXPECT(CKR_SESSION_HANDLE_INVALID, p11->C_SessionCancel(0, CKF_DIGEST));
    EXPECT(CKR_SESSION_HANDLE_INVALID, p11->C_DigestInit(0, NULL));
    end_token();
}

/* The message is 3,000,000 bytes, each its place modulo 251, so no two pieces are the same. The
 * expected values are of Python's hashlib and hmac. */
CK_BYTE large[LARGE];
static const char sha256_of_piece[] =
    "631b84027d6b9e52b539c4e8373622d23032dfadc64d60af87339c9037e4f769";
static const char sha256_of_large[] =
    "4d3870d4655ed773027a713ea136507d22e076248e0e9cc920a996039653b76f";
static const char hmac_of_large[] =
    "e8b645a46aaf1d497b9c921efbff0c29a49f71d21affdfd52eec58aa67f88cfe";

void fill_large(void) {
    for (size_t i = 0; i < sizeof large; i++)
        large[i] = (CK_BYTE)(i % 251);
}

/* A last piece of one byte is taken, as where it is given by itself. */
static void check_last_byte(CK_SESSION_HANDLE session, CK_MECHANISM *mechanism) {
    CK_BYTE whole[32], parted[32] = {0};
    length = sizeof whole;
    EXPECT(CKR_OK, p11->C_DigestInit(session, mechanism));
    EXPECT(CKR_OK, p11->C_DigestUpdate(session, large, PIECE + 1));
    EXPECT(CKR_OK, p11->C_DigestFinal(session, whole, &length));
    EXPECT(CKR_OK, p11->C_DigestInit(session, mechanism));
    EXPECT(CKR_OK, p11->C_DigestUpdate(session, large, PIECE));
    EXPECT(CKR_OK, p11->C_DigestUpdate(session, large + PIECE, 1));
    EXPECT(CKR_OK, p11->C_DigestFinal(session, parted, &length));
    CHECK(memcmp(whole, parted, sizeof whole) == 0);
}

static void test_large_digests(void) {
    CK_SESSION_HANDLE session = begin_token();
    CK_MECHANISM sha256 = mechanism_of(CKM_SHA256);
    CK_BYTE digest[64];
    fill_large();
    length = sizeof digest;
    EXPECT(CKR_OK, p11->C_DigestInit(session, &sha256));
    EXPECT(CKR_OK, p11->C_Digest(session, large, PIECE, digest, &length));
    CHECK(is_hexadecimal(digest, length, sha256_of_piece));
    EXPECT(CKR_OK, p11->C_DigestInit(session, &sha256));
    EXPECT(CKR_DATA_LEN_RANGE, p11->C_Digest(session, large, PIECE + 1, digest, &length));
    EXPECT(CKR_OPERATION_NOT_INITIALIZED, p11->C_Digest(session, large, 1, digest, &length));
    EXPECT(CKR_OK, p11->C_DigestInit(session, &sha256));
    EXPECT(CKR_DATA_LEN_RANGE, p11->C_Digest(session, large, LARGE, digest, &length));
    EXPECT(CKR_OK, p11->C_DigestInit(session, &sha256));
    EXPECT(CKR_OK, p11->C_DigestUpdate(session, large, LARGE));
    length = sizeof digest;
    EXPECT(CKR_OK, p11->C_DigestFinal(session, digest, &length));
    CHECK(is_hexadecimal(digest, length, sha256_of_large));
    check_last_byte(session, &sha256);
    end_token();
}

static void test_large_signatures(void) {
    CK_SESSION_HANDLE session = begin_token();
    CK_MECHANISM hmac = mechanism_of(CKM_SHA256_HMAC);
    CK_OBJECT_HANDLE key = create_key(session, "Jefe");
    CK_BYTE signature[100];
    length = sizeof signature;
    fill_large();
    EXPECT(CKR_OK, p11->C_SignInit(session, &hmac, key));
    EXPECT(CKR_OK, p11->C_SignUpdate(session, large, LARGE));
    EXPECT(CKR_OK, p11->C_SignFinal(session, signature, &length));
    CHECK(is_hexadecimal(signature, length, hmac_of_large));
    EXPECT(CKR_OK, p11->C_VerifyInit(session, &hmac, key));
    EXPECT(CKR_OK, p11->C_VerifyUpdate(session, large, LARGE));
    EXPECT(CKR_OK, p11->C_VerifyFinal(session, signature, 32));
    EXPECT(CKR_OK, p11->C_VerifyInit(session, &hmac, key));
    EXPECT(CKR_DATA_LEN_RANGE, p11->C_Verify(session, large, PIECE + 1, signature, 32));
    EXPECT(CKR_OK, p11->C_SignInit(session, &hmac, key));
    EXPECT(CKR_DATA_LEN_RANGE, p11->C_Sign(session, large, PIECE + 1, signature, &length));
    for (CK_ULONG wrong = 31; wrong <= sizeof signature; wrong += wrong == 31 ? 2 : 67) {
        EXPECT(CKR_OK, p11->C_VerifyInit(session, &hmac, key));
        EXPECT(CKR_SIGNATURE_LEN_RANGE, p11->C_Verify(session, large, LARGE / 3, signature, wrong));
    }
    end_token();
}

/* The longest signature, and one that is too long only by a byte behind the right ones. */
static void test_signature_lengths(void) {
    CK_SESSION_HANDLE session = begin_token();
    CK_MECHANISM hmac = mechanism_of(CKM_SHA512_HMAC);
    CK_OBJECT_HANDLE key = create_key(session, "Jefe");
    CK_BYTE signature[65] = {0};
    length = 64;
    EXPECT(CKR_OK, p11->C_SignInit(session, &hmac, key));
    EXPECT(CKR_OK, p11->C_Sign(session, bytes, 5, signature, &length));
    for (CK_ULONG given = 63; given <= 65; given++) {
        CK_RV expected = given == 64 ? CKR_OK : CKR_SIGNATURE_LEN_RANGE;
        EXPECT(CKR_OK, p11->C_VerifyInit(session, &hmac, key));
        EXPECT(expected, p11->C_Verify(session, bytes, 5, signature, given));
        EXPECT(CKR_OK, p11->C_VerifyInit(session, &hmac, key));
        EXPECT(CKR_OK, p11->C_VerifyUpdate(session, bytes, 5));
        EXPECT(expected, p11->C_VerifyFinal(session, signature, given));
    }
    signature[63] ^= 1;
    EXPECT(CKR_OK, p11->C_VerifyInit(session, &hmac, key));
    EXPECT(CKR_SIGNATURE_INVALID, p11->C_Verify(session, bytes, 5, signature, 64));
    EXPECT(CKR_OK, p11->C_VerifyInit(session, &hmac, key));
    EXPECT(CKR_OK, p11->C_VerifyUpdate(session, bytes, 5));
    EXPECT(CKR_SIGNATURE_INVALID, p11->C_VerifyFinal(session, signature, 64));
    end_token();
}

/* Of what is too long only the first bytes are read, whatever length it is said to have. This is
 * the most that memory could have. */
static void test_said_to_be_long(void) {
    const CK_ULONG most = ((CK_ULONG)1 << 47) - 1;
    CK_SESSION_HANDLE session = begin_token();
    CK_MECHANISM sha256 = mechanism_of(CKM_SHA256), hmac = mechanism_of(CKM_SHA256_HMAC);
    CK_MECHANISM general = {CKM_SHA256_HMAC_GENERAL, bytes, most};
    CK_OBJECT_HANDLE key = create_key(session, "Jefe");
    CK_BYTE out[100] = {0};
    length = sizeof out;
    fill_large();
    EXPECT(CKR_PIN_LEN_RANGE, p11->C_SetPIN(session, user_pin, 4, out, most));
    EXPECT(CKR_MECHANISM_PARAM_INVALID, p11->C_SignInit(session, &general, key));
    EXPECT(CKR_OK, p11->C_DigestInit(session, &sha256));
    EXPECT(CKR_DATA_LEN_RANGE, p11->C_Digest(session, large, most, out, &length));
    EXPECT(CKR_OK, p11->C_SignInit(session, &hmac, key));
    EXPECT(CKR_DATA_LEN_RANGE, p11->C_Sign(session, large, most, out, &length));
    EXPECT(CKR_OK, p11->C_VerifyInit(session, &hmac, key));
    EXPECT(CKR_DATA_LEN_RANGE, p11->C_Verify(session, large, most, out, 32));
    EXPECT(CKR_OK, p11->C_VerifyInit(session, &hmac, key));
    EXPECT(CKR_SIGNATURE_LEN_RANGE, p11->C_Verify(session, bytes, 5, out, most));
    EXPECT(CKR_OK, p11->C_VerifyInit(session, &hmac, key));
    EXPECT(CKR_OK, p11->C_VerifyUpdate(session, bytes, 5));
    EXPECT(CKR_SIGNATURE_LEN_RANGE, p11->C_VerifyFinal(session, out, most));
    EXPECT(CKR_OK, p11->C_Logout(session));
    EXPECT(CKR_PIN_INCORRECT, p11->C_Login(session, CKU_USER, out, most));
    EXPECT(CKR_OK, p11->C_Login(session, CKU_SO, so_pin, 4));
    EXPECT(CKR_PIN_LEN_RANGE, p11->C_InitPIN(session, out, most));
    EXPECT(CKR_OK, p11->C_CloseSession(session));
    EXPECT(CKR_PIN_INCORRECT, p11->C_InitToken(0, out, most, token_label));
    end_token();
}

static const struct test tests[] = {
    {"rooms of lists: asked for, too small, exact, larger", test_lists_of_numbers},
    {"rooms of digests: asked for, too small, exact, larger", test_digest_rooms},
    {"rooms of signatures: asked for, too small, exact, larger", test_sign_rooms},
    {"rooms of attributes: asked for, too small, exact, larger", test_attribute_rooms},
    {"each query of attributes is answered by itself", test_attribute_codes},
    {"searches that find 2,500 objects", test_many_objects},
    {"a call that is refused leaves the places for its answers as they are", test_refused_outputs},
    {"a refused question about slots, tokens or mechanisms leaves its place as it is",
     test_refused_questions},
    {"operations end by C_SessionCancel, and by a NULL mechanism", test_cancel},
    {"digests of messages above 2^20 bytes", test_large_digests},
    {"signatures of messages above 2^20 bytes", test_large_signatures},
    {"signatures of 63, 64 and 65 bytes are verified, and one with a wrong bit",
     test_signature_lengths},
    {"PINs, parameters, messages and signatures that are said to have 2^47 - 1 bytes",
     test_said_to_be_long},
};

int run_room_tests(const char *name) {
    return run_tests(name, tests, sizeof tests / sizeof *tests);
}
