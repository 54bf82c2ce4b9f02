/*
 * What the tests in C share: checks that are counted, the module's functions, a token that is ready
 * for use, and memory between guards.
 */
#ifndef SUPPORT_H
#define SUPPORT_H

#include <stdbool.h>
#include <stddef.h>
#include <stdint.h>

#include <pkcs11.h>

#include "../ospreyrack.h"

/* ---- The module */

/* Its functions, once it is loaded. */
extern CK_FUNCTION_LIST_3_0 *p11;

/* Loads the module from a file, or ends the program. */
void load_module(const char *path);

/* The address of a function that the module exports, or NULL. */
void *exported(const char *name);

/* The functions of the interface "Vendor Ospreyrack". */
const struct ospreyrack_functions *vendor_functions(void);

/* ---- Checks */

/* Counts a check. One that fails is written to standard error. */
void check(bool is_good, const char *what);
void check_code(CK_RV code, CK_RV expected, const char *what);

/* Checks the code of a call, and names the call by its text. */
#define EXPECT(expected, call) check_code((call), (expected), #call)
#define CHECK(condition) check((condition), #condition)

struct test {
    const char *what; /* what is checked, in one line */
    void (*run)(void);
};

/* Runs the tests and writes a line for each. Answers the program's status. */
int run_tests(const char *name, const struct test *tests, size_t count);

/* ---- A token */

extern CK_UTF8CHAR so_pin[4];
extern CK_UTF8CHAR user_pin[4];
extern CK_UTF8CHAR token_label[32];

/* From now on `begin_token` lets each token keep a journal of its own in the folder; or none, where
 * that is NULL. */
void keep_journals(const char *in_folder);

/* Initializes the library and its token, and logs the user in. Answers a read/write session. */
CK_SESSION_HANDLE begin_token(void);

/* The same with these arguments of C_Initialize. */
CK_SESSION_HANDLE begin_token_with(CK_C_INITIALIZE_ARGS *arguments);

/* The same without C_Initialize. */
CK_SESSION_HANDLE log_in(void);

/* Ends the library. */
void end_token(void);

/* A public session object with a label. */
CK_OBJECT_HANDLE create_data(CK_SESSION_HANDLE session, const char *label);

/* A public generic secret key of the bytes of a text. */
CK_OBJECT_HANDLE create_key(CK_SESSION_HANDLE session, const char *value);

/* A mechanism without a parameter. */
CK_MECHANISM mechanism_of(CK_MECHANISM_TYPE type);

/* Whether the bytes are those that the hexadecimal text says, no more and no fewer. */
bool is_hexadecimal(const CK_BYTE *bytes, CK_ULONG length, const char *text);

/* ---- Memory between guards */

/* Memory with known bytes before and behind it. It is filled with a known byte, too. */
uint8_t *guarded_new(size_t length);

/* Whether nothing was written beyond `used` bytes of it, nor before it. */
bool guarded_is_intact(const uint8_t *memory, size_t length, size_t used);

/* Whether one of these bytes has another value than it is filled with. */
bool guarded_is_written(const uint8_t *memory, size_t length);
void guarded_free(uint8_t *memory);

/* ---- Vectors: the digests and HMACs of messages, from FIPS 180-4's examples and RFC 4231 */

extern const char sha256_of_abc[];
extern const char sha512_of_abc[];

/* HMAC with SHA-256, key "Jefe", of hmac_message. */
extern CK_BYTE hmac_message[28];
extern const char hmac_of_message[];

#endif
