/*
 * The library as a whole: its beginning and end, what it is, and its lists of functions (PKCS #11
 * Base 3.0, General-purpose functions).
 */
#include "module.h"

#include <stdlib.h>
#include <string.h>

const CK_VERSION module_version = {1, 0};

/* ---- Interfaces */

#define CK_PKCS11_3_0 1
#define CK_PKCS11_FUNCTION_INFO(function) .function = function,

static CK_FUNCTION_LIST_3_0 functions_3_0 = {
    .version = {3, 0},
#include <pkcs11f.h>
};

#define CK_PKCS11_2_0_ONLY 1

static CK_FUNCTION_LIST functions_2_40 = {
    .version = {2, 40},
#include <pkcs11f.h>
};

static struct ospreyrack_functions vendor_functions = {
    .version = {1, 0},
    .C_SetKeyState = C_SetKeyState,
};

static char standard_name[] = "PKCS 11";
static char vendor_name[] = OSPREYRACK_INTERFACE;

/* The first one of a name is its default. */
static CK_INTERFACE interfaces[] = {
    {(CK_CHAR *)standard_name, &functions_3_0, 0},
    {(CK_CHAR *)standard_name, &functions_2_40, 0},
    {(CK_CHAR *)vendor_name, &vendor_functions, 0},
};

enum { INTERFACES = sizeof interfaces / sizeof *interfaces };

CK_RV C_GetFunctionList(CK_FUNCTION_LIST_PTR_PTR list) {
    if (list == NULL)
        return CKR_ARGUMENTS_BAD;
    *list = &functions_2_40;
    return CKR_OK;
}

CK_RV C_GetInterfaceList(CK_INTERFACE_PTR list, CK_ULONG_PTR count) {
    if (count == NULL)
        return CKR_ARGUMENTS_BAD;
    CK_RV code = CKR_OK;
    if (list != NULL && *count < INTERFACES)
        code = CKR_BUFFER_TOO_SMALL;
    else if (list != NULL)
        memcpy(list, interfaces, sizeof interfaces);
    *count = INTERFACES;
    return code;
}

static bool is_asked_for(const CK_INTERFACE *interface, const char *name,
                         const CK_VERSION *version, CK_FLAGS flags) {
    const CK_VERSION *own = interface->pFunctionList;
    if (strcmp((const char *)interface->pInterfaceName, name) != 0)
        return false;
    if (version != NULL && (version->major != own->major || version->minor != own->minor))
        return false;
    return (flags & ~interface->flags) == 0;
}

CK_RV C_GetInterface(CK_UTF8CHAR_PTR name, CK_VERSION_PTR version, CK_INTERFACE_PTR_PTR interface,
                     CK_FLAGS flags) {
    const char *wanted = name == NULL ? standard_name : (const char *)name;
    if (interface == NULL)
        return CKR_ARGUMENTS_BAD;
    for (size_t i = 0; i < INTERFACES; i++) {
        if (is_asked_for(&interfaces[i], wanted, version, flags)) {
            *interface = &interfaces[i];
            return CKR_OK;
        }
    }
    return CKR_ARGUMENTS_BAD;
}

CK_RV C_GetInfo(CK_INFO_PTR info) {
    CK_RV code = enter();
    if (code != CKR_OK)
        return code;
    if (info == NULL)
        return leave(CKR_ARGUMENTS_BAD);
    *info = (CK_INFO){.cryptokiVersion = {3, 0}, .libraryVersion = module_version};
    copy_padded(info->manufacturerID, sizeof info->manufacturerID, MANUFACTURER);
    copy_padded(info->libraryDescription, sizeof info->libraryDescription,
                "Ospreyrack software token");
    return leave(CKR_OK);
}

/* ---- Beginning and end */

static CK_RV check_arguments(const CK_C_INITIALIZE_ARGS *arguments) {
    if (arguments == NULL)
        return CKR_OK;
    /* NSS has a member of another name where the standard has pReserved, and one more behind it,
     * for which an application need not have given room. */
    if (arguments->LibraryParameters != NULL)
        return CKR_ARGUMENTS_BAD;
    int functions = (arguments->CreateMutex != NULL) + (arguments->DestroyMutex != NULL)
        + (arguments->LockMutex != NULL) + (arguments->UnlockMutex != NULL);
    return functions == 0 || functions == 4 ? CKR_OK : CKR_ARGUMENTS_BAD;
}

static CK_RV begin_token(void) {
    void *token = malloc(ospreyrack_size());
    void *message = malloc(ospreyrack_message_size());
    if (token == NULL || message == NULL) {
        free(token);
        free(message);
        return CKR_HOST_MEMORY;
    }
    ospreyrack_make(token);
    ospreyrack_message_make(message);
    journals_begun++;
    library.token.at = token;
    library.message.at = message;
    copy_padded(library.label, sizeof library.label, "");
    return configure() ? CKR_OK : CKR_GENERAL_ERROR;
}

/* Gives back the memory and the file; the lock is left. Under it no call with a message is being
 * made, so its place has nothing to give back. */
static void end_token(void) {
    if (library.token.at != NULL)
        ospreyrack_reset(&library.token);
    free(library.token.at);
    free(library.message.at);
    close_journal();
    buffer_free(&library.line);
    buffer_free(&library.items);
    buffer_free(&library.values);
    buffer_free(&library.reply);
}

static CK_RV initialize(const CK_C_INITIALIZE_ARGS *arguments) {
    CK_RV code = check_arguments(arguments);
    if (code != CKR_OK)
        return code;
    if (!watch_forks())
        return CKR_HOST_MEMORY;
    code = open_lock(arguments);
    if (code != CKR_OK)
        return code;
    code = begin_token();
    library.is_initialized = code == CKR_OK;
    if (code != CKR_OK) {
        end_token();
        drop_lock();
        library = (struct library){0};
    }
    return code;
}

CK_RV C_Initialize(CK_VOID_PTR arguments) {
    int before = forbid_cancel();
    take_own_mutex();
    CK_RV code = library.is_initialized ? CKR_CRYPTOKI_ALREADY_INITIALIZED : initialize(arguments);
    release_own_mutex();
    allow_cancel(before);
    return code;
}

CK_RV C_Finalize(CK_VOID_PTR reserved) {
    CK_RV code = enter();
    if (code != CKR_OK)
        return code;
    if (reserved != NULL)
        return leave(CKR_ARGUMENTS_BAD);
    int before = forbid_cancel();
    end_token();
    close_library();
    allow_cancel(before);
    return CKR_OK;
}
