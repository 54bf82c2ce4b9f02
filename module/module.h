/*
 * What the files of the module share: its state, the calls that it makes of the token, and the
 * helpers that more than one file needs. Every file includes it first.
 */
#ifndef OSPREYRACK_MODULE_H
#define OSPREYRACK_MODULE_H

#ifndef _GNU_SOURCE
#define _GNU_SOURCE
#endif

#if !defined(__linux__) || !defined(__x86_64__)
#error "the module is for Linux on x86-64"
#endif

#include <signal.h>
#include <stdbool.h>
#include <stddef.h>
#include <stdint.h>
#include <sys/types.h>

/* The functions that the header declares are what the library exports. */
#pragma GCC visibility push(default)
#include <pkcs11.h>
#pragma GCC visibility pop

#include "ospreyrack.h"
#include "token.h"

_Static_assert(sizeof(CK_ULONG) == 8 && sizeof(void *) == 8, "the module is for 64 bits");
_Static_assert(__BYTE_ORDER__ == __ORDER_LITTLE_ENDIAN__, "the module is for little endian");
_Static_assert(_Alignof(max_align_t) >= 16, "malloc gives room that is aligned for a token");

/* ---- Buffers: buffers.c */

/* Bytes that grow. Where memory is refused, a function answers false and nothing has changed. */
struct buffer {
    uint8_t *bytes;
    size_t length;
    size_t room;
};

/* Makes room for this many more bytes. Afterwards `bytes` isn't NULL, also where `more` is 0. */
bool buffer_reserve(struct buffer *buffer, size_t more);
bool buffer_add(struct buffer *buffer, const void *bytes, size_t length);
bool buffer_add_text(struct buffer *buffer, const char *text);

/* Adds two hexadecimal digits for each byte. There are at most LONGEST_LINE / 2 bytes. */
bool buffer_add_hexadecimal(struct buffer *buffer, const uint8_t *bytes, size_t length);
void buffer_free(struct buffer *buffer);

/* ---- The state of the library */

enum { LABEL_LENGTH = 32 };

/* The journal file. */
struct journal {
    bool is_open;
    bool is_kept;         /* calls that are answered are added to it */
    bool has_failed;      /* it couldn't be written, so no call is answered any more */
    int file;
    pid_t process;        /* which has opened it: a child of a fork may have the descriptor, too */
    dev_t device;         /* with `inode`: which file it is; 0 until that is known */
    ino_t inode;
    bool has_name;        /* it stood in a folder when it was locked */
    off_t length;         /* how long the file is, without what is left to be written */
    const char *variable; /* the environment variable that names the file */
    struct buffer text;   /* what is left to be written */
};

/* Everything between C_Initialize and C_Finalize. It is read and written only under the lock, and
 * in the child of a fork before it has threads. `is_initialized` and `lock` are also read under the
 * module's own mutex, under which C_Initialize sets everything. */
struct library {
    bool is_initialized;
    struct application_lock *lock; /* the application's; NULL: the module's own mutex is the lock */
    struct token token;
    struct message_call message; /* where a call with a message lies that is made without work */
    CK_UTF8CHAR label[LABEL_LENGTH];
    bool cuts_journal; /* the token's journal in memory is cut where no session is open */
    uint64_t updates;  /* updates in pieces that are under way: see `cancel_operation` */
    bool has_seed;     /* random bytes follow from a seed */
    uint64_t seed;     /* the state of the seeded generator */
    struct journal journal;
    struct buffer line;   /* a call as a line of the script language */
    struct buffer items;  /* the items of a template, or queries */
    struct buffer values; /* the values of a template's items */
    struct buffer reply;  /* a reply's text that is compared */
};

extern struct library library;

/* ---- Locking: locking.c */

/* Takes the lock: CKR_OK, or else the code to be returned at once. */
CK_RV enter(void);

/* Releases the lock, and returns the code. */
CK_RV leave(CK_RV code);

/* C_Initialize holds the module's own mutex, whatever the application's lock is. */
void take_own_mutex(void);
void release_own_mutex(void);

/* Between these two the thread isn't cancelled: under the lock it would never release it. */
int forbid_cancel(void);
void allow_cancel(int before);

/* Makes the lock that these arguments of C_Initialize ask for; NULL asks for the module's own
 * mutex. */
CK_RV open_lock(const CK_C_INITIALIZE_ARGS *arguments);

/* Gives a lock back that no thread has used. The caller clears the library's state. */
void drop_lock(void);

/* Clears the library's state and releases the lock, which is given back once no thread uses it. */
void close_library(void);

/* From now on a child of a fork begins without initialization. Answers false without memory. */
bool watch_forks(void);

/* ---- Calls: calls.c */

/* The calls of the script language. */
enum call_name {
    INIT_TOKEN,
    INIT_PIN,
    SET_PIN,
    OPEN_SESSION,
    CLOSE_SESSION,
    CLOSE_ALL_SESSIONS,
    LOGIN,
    LOGOUT,
    GET_SESSION_INFO,
    GET_TOKEN_INFO,
    GET_MECHANISM_LIST,
    SESSION_CANCEL,
    CREATE_OBJECT,
    GENERATE_KEY,
    COPY_OBJECT,
    GET_ATTRIBUTE_VALUE,
    SET_ATTRIBUTE_VALUE,
    SET_KEY_STATE,
    DESTROY_OBJECT,
    FIND_OBJECTS_INIT,
    FIND_OBJECTS,
    FIND_OBJECTS_FINAL,
    DIGEST_INIT,
    DIGEST,
    DIGEST_UPDATE,
    DIGEST_FINAL,
    SIGN_INIT,
    SIGN,
    SIGN_UPDATE,
    SIGN_FINAL,
    VERIFY_INIT,
    VERIFY,
    VERIFY_UPDATE,
    VERIFY_FINAL,
};

/* Lengths in bytes, as the token and its scripts take them (docs/rules.md, docs/script.md). */
enum {
    SHORTEST_PIN = 4,
    LONGEST_PIN = 64,
    LONGEST_KEY = 4096,
    LONGEST_SIGNATURE = 64, /* and the longest digest */
    LONGEST_PARAMETER = 8,
    LONGEST_MESSAGE = 1 << 20,
    LONGEST_LINE = 4194304,
};

/* No process has as many bytes of memory. */
#define LONGEST_MEMORY ((CK_ULONG)1 << 47)

struct bytes {
    const uint8_t *at; /* NULL only where bytes are missing, or where there are none */
    size_t length;
};

/* The room for a digest or a signature. Without room only its length is asked for. */
struct room {
    bool has_room;
    CK_ULONG length;
};

struct work;

/* A call with its arguments; those that the call doesn't have are zeros. */
struct call {
    enum call_name name;
    CK_ULONG session;
    CK_ULONG object; /* an object or a key */
    CK_ULONG number; /* a user, the most handles, or a key's state */
    CK_FLAGS flags;
    struct bytes pin, new_pin;
    struct bytes bytes; /* a message, a piece of it, or the random bytes of a new key */
    struct bytes signature;
    struct room room;
    const CK_MECHANISM *mechanism;
    const CK_ATTRIBUTE *attributes; /* a template, or queries */
    CK_ULONG count;
    const CK_UTF8CHAR *label; /* of INIT_TOKEN */
    struct work *work;        /* on a long message, where there is any */
    bool lacks_memory;        /* there was none for the work */
};

/* The bytes that the application gave. Of what is longer than `longest` one byte more than that is
 * handed on, so that it stays too long. Those at NULL are missing, and so are those of a length
 * that no memory has; no bytes are never missing. */
struct bytes bytes_of(const void *at, CK_ULONG length, size_t longest);

/* The same of a PIN. A NULL one is for a PIN that is entered at the token itself, which has no way
 * for that, so it is missing whatever its length is. */
struct bytes pin_of(const CK_UTF8CHAR *at, CK_ULONG length);

/* A mechanism's parameter. */
struct bytes parameter_of(const CK_MECHANISM *mechanism);

/* What is wrong with the pointers and lengths of a call's arguments. */
CK_RV check_call(const struct call *call);

/* Makes a call under the lock. Returns what is wrong with its arguments; CKR_HOST_MEMORY where
 * there is no memory for it, and CKR_GENERAL_ERROR where the token takes its line for no call, and
 * nothing has changed; CKR_DEVICE_ERROR where the journal file can't be written, or after
 * `stop_answering`; or the reply's code. */
CK_RV make_call(const struct call *call);

/* The same of C_GetSessionInfo, by a shorter way where no journal file is kept. */
CK_RV ask_for_session(CK_ULONG session);

/* Ends an operation whose message lacks a piece. It can't be out of memory: for each update that
 * `library.updates` counts, this one among them, the token's journal has room for an entry, which
 * no other call takes. */
void cancel_operation(CK_ULONG session, CK_FLAGS kind);

/* Lets the token with the journal of this number in `journals_begun` answer no later call, where it
 * is still there. Its journal mustn't be cut before. It needs no lock. */
void stop_answering(uint64_t journal);

/* As make_call, of a call that is answered a handle. */
CK_RV make_call_for_handle(const struct call *call, CK_ULONG *handle);

/* make_call and make_call_for_handle, with the lock taken and released. */
CK_RV answer(const struct call *call);
CK_RV answer_handle(const struct call *call, CK_ULONG *handle);

/* A thread's number as a caller. */
uint32_t caller_number(void);

/* Numbers threads from 1 anew: in the child of a fork, which has one. */
void forget_callers(void);

/* How many journals the library's tokens have begun in memory: one when a token is made, and one at
 * each cut. */
extern uint64_t journals_begun;

/* Gives the place a call with a copy of its message. Answers false without memory. */
bool give_message(struct message_call *place, const struct call *call);

/* Makes the call of a line, and adds it to the journal's text where a journal is kept. */
uint32_t answer_line(const uint8_t *line, size_t length);

/* Cuts the token's journal in memory where it is long and the configuration lets it. */
void cut_journal(void);

/* Appends the text of the reply to the last call. */
bool add_reply(struct buffer *buffer);

/* ---- Lines: lines.c */

/* Writes a call as a line. Answers false where it is too long, or without memory. */
bool write_line(const struct call *call, uint32_t caller, struct buffer *line);

/* ---- Work on long messages: works.c */

/* Takes the lock for a call: CKR_OK, or else the code to be returned at once. A long message is
 * copied before (the call then has work) and, where the token begins work on it, taken in while the
 * lock is free. */
CK_RV enter_with_work(struct call *call);

/* The line of a call's work, where a journal file is kept. NULL where the call has no work that can
 * be used. */
const struct buffer *line_of_work(const struct call *call);

/* Makes a call by its work. Answers false, and makes none, where it has none that can be used. */
bool call_by_work(const struct call *call, uint32_t *outcome);

/* Gives back the memory of a call's work, where it has any. The call isn't used any more. */
void drop_work(struct call *call);

/* ---- Messages: messages.c */

/* Starts an operation of the kind that the flag names, or ends it where there is no mechanism. */
CK_RV begin_operation(const struct call *call, CK_FLAGS kind);

/* Makes a call that brings a message or a piece of one. */
CK_RV answer_message(struct call call);

/* Makes a call that is answered a digest or a signature. */
CK_RV answer_output(struct call call, CK_BYTE *output, CK_ULONG *length);

/* Makes an update of an operation, in as many pieces as are needed. */
CK_RV answer_update(struct call call, CK_FLAGS kind);

/* ---- Signals: signals.c */

/* Blocks the signals that a write raises, in this thread, and tells which were blocked before. */
void block_write_signals(sigset_t *before);

/* Takes the signal that the write has raised, by its error (0: none), and blocks those that were
 * blocked before. */
void unblock_write_signals(const sigset_t *before, int error);

/* ---- The journal file: journal.c */

/* Opens and locks the file. */
bool open_journal(const char *variable, const char *path);

/* Whether the file is empty or has only a part of its header. */
bool is_new_file(void);

/* Begins the text of a new file. */
bool begin_file_text(void);

/* Makes room for a line with its end and a label, so that these can be added without a fault. */
bool reserve_entry(size_t length);

/* Adds a line and the reply to it, or only the line where there is no memory for the reply. */
void add_entry(const uint8_t *line, size_t length);

/* Keeps the label, and adds it to the journal. */
bool set_label(const CK_UTF8CHAR *label);

/* What stands between a call and its reply, and what the line of a label begins with. */
extern const char arrow[];
extern const char label_start[];

/* Writes all bytes to a file: 0, or else the error. */
int write_all(int file, const uint8_t *bytes, size_t length);

/* Writes what is left to be written. */
bool write_journal(void);

/* The same once the file's lines are answered: first it is shortened to those that are kept. */
bool write_first_journal(void);
void close_journal(void);

/* Closes the file, and gives its lock back where this process has opened it: also in the child of a
 * fork. Answers the error, or 0. */
int close_file(void);

/* Closes the file, and lets no later call be answered that would have to be written. */
void abandon_journal(void);

/* ---- Scripts: scripts.c */

/* A script or a journal file that is read. */
struct source {
    int file;             /* a descriptor, or negative where there is none */
    const char *variable; /* the environment variable that names it */
    const char *path;
    bool is_journal;      /* a reply may be missing in it, and the end of the last line */
    bool is_case;         /* it has limits or a reply, as every journal has */
    bool has_calls;
    size_t number;        /* of the line that was last read */
    off_t length;         /* of all lines with their ends */
    uint8_t *bytes;       /* of the file, of which the first `used` stand in lines already */
    size_t count, used;
};

/* Opens a source for reading, or reports that it can't be opened. */
bool open_source(struct source *source);

/* Answers the lines of a source, or those of the journal file that is open. */
bool answer_lines(struct source *source);
bool answer_journal(const char *path);

/* Closes the sessions that they left open. */
bool close_sessions(const char *variable);

/* ---- Configuration: configuration.c */

/* Does what the environment variables say. Where it can't, a line on standard error says why. */
bool configure(void);

/* Writes a line to standard error. Answers false, so that what fails can return it. */
bool report(const char *variable, const char *format, ...) __attribute__((format(printf, 2, 3)));

/* ---- Random bytes: random.c */

bool random_bytes(uint8_t *out, size_t length);

/* Those of the system, which need no lock. */
bool system_bytes(uint8_t *out, size_t length);

/* ---- What the module says of itself: general.c */

#define MANUFACTURER "Ospreyrack"

extern const CK_VERSION module_version;

/* ---- Slots: slots.c */

/* The one slot. */
enum { SLOT = 0 };

/* Takes the lock for a function that names a slot. */
CK_RV enter_slot(CK_SLOT_ID slot);

/* Copies a text, and pads it with blanks. */
void copy_padded(CK_UTF8CHAR *out, size_t length, const char *text);

/* ---- The vendor interface: ospreyrack.h */

CK_RV C_SetKeyState(CK_SESSION_HANDLE session, CK_OBJECT_HANDLE key, CK_ULONG state);

#endif
