/*
 * The journal file: the calls of a run, each with its reply, in the form of case files.
 *
 * What is added to the journal is gathered as text, and written by one write(2), or more where the
 * file doesn't take it whole, before the application gets the answer. So a process that is killed
 * loses no call that was answered.
 */
#include "module.h"

#include <errno.h>
#include <fcntl.h>
#include <stdatomic.h>
#include <string.h>
#include <sys/file.h>
#include <sys/stat.h>
#include <unistd.h>

static const char header[] =
    "# The journal of an Ospreyrack token: its calls with their replies, in the order of answers.\n"
    "# The PINs and the values of keys stand in it as they are.\n"
    "limits largest\n";

enum { HEADER_LENGTH = sizeof header - 1 };

const char arrow[] = " -> ";
const char label_start[] = "# label ";

/* What a system call has answered that has failed. */
static bool report_error(const struct journal *journal, const char *path) {
    return report(journal->variable, "%s: %s", path, strerror(errno));
}

/* Whether the open file is a regular one that no other process has locked. */
static bool lock_file(struct journal *journal, const char *path) {
    struct stat status;
    if (fstat(journal->file, &status) != 0)
        return report_error(journal, path);
    journal->device = status.st_dev;
    journal->inode = status.st_ino;
    journal->has_name = status.st_nlink > 0;
    if (!S_ISREG(status.st_mode))
        return report(journal->variable, "%s: this is no regular file", path);
    if (flock(journal->file, LOCK_EX | LOCK_NB) != 0)
        return errno == EWOULDBLOCK
            ? report(journal->variable, "%s: another process has locked the file", path)
            : report_error(journal, path);
    /* Read again under the lock: before it another process may have added to the file. */
    if (fstat(journal->file, &status) != 0)
        return report_error(journal, path);
    journal->length = status.st_size;
    return true;
}

/* Where the application has closed its standard error, what is written there mustn't get into the
 * file, so the descriptor is another than those of the standard streams. */
static int open_file(const char *path) {
    int file;
    do
        file = open(path, O_RDWR | O_APPEND | O_CREAT | O_CLOEXEC | O_NOCTTY, S_IRUSR | S_IWUSR);
    while (file < 0 && errno == EINTR);
    if (file < 0 || file > STDERR_FILENO)
        return file;
    int moved = fcntl(file, F_DUPFD_CLOEXEC, STDERR_FILENO + 1);
    close(file);
    return moved;
}

bool open_journal(const char *variable, const char *path) {
    struct journal *journal = &library.journal;
    int file = open_file(path);
    if (file < 0)
        return report(variable, "%s: the file can't be opened: %s", path, strerror(errno));
    journal->file = file;
    journal->process = getpid();
    journal->variable = variable;
    /* The child of a fork in between keeps the descriptor. */
    atomic_signal_fence(memory_order_seq_cst);
    journal->is_open = true;
    return lock_file(journal, path);
}

bool is_new_file(void) {
    char start[HEADER_LENGTH];
    off_t length = library.journal.length;
    return length < HEADER_LENGTH
        && pread(library.journal.file, start, (size_t)length, 0) == length
        && memcmp(start, header, (size_t)length) == 0;
}

bool begin_file_text(void) {
    library.journal.length = 0;
    library.journal.is_kept = true;
    return buffer_add_text(&library.journal.text, header)
        || report(library.journal.variable, "there is no memory for the journal");
}

/* How long a label's line is: its start without the NUL, the label, and the end. */
enum { LABEL_LINE = sizeof label_start - 1 + 2 * LABEL_LENGTH + 1 };

bool reserve_entry(size_t length) {
    size_t line_with_end = length + 1;
    return !library.journal.is_kept
        || buffer_reserve(&library.journal.text, line_with_end + LABEL_LINE);
}

/* The line and its end fit into the room that was reserved; the reply may need more. */
void add_entry(const uint8_t *line, size_t length) {
    struct buffer *text = &library.journal.text;
    if (!library.journal.is_kept)
        return;
    buffer_add(text, line, length);
    size_t end = text->length;
    if (!buffer_add_text(text, arrow) || !add_reply(text) || !reserve_entry(0))
        text->length = end;
    buffer_add_text(text, "\n");
}

bool set_label(const CK_UTF8CHAR *label) {
    struct buffer *text = &library.journal.text;
    memmove(library.label, label, LABEL_LENGTH);
    return !library.journal.is_kept
        || (buffer_add_text(text, label_start)
            && buffer_add_hexadecimal(text, library.label, LABEL_LENGTH)
            && buffer_add_text(text, "\n"));
}

/* Shortens the file to the length that is kept. */
static bool truncate_file(const struct journal *journal) {
    struct stat status;
    if (fstat(journal->file, &status) != 0)
        return false;
    if (status.st_size == journal->length)
        return true;
    int result;
    do
        result = ftruncate(journal->file, journal->length);
    while (result != 0 && errno == EINTR);
    return result == 0;
}

/* One write takes all bytes, except where a file has no room for them, which only the next write
 * says, or where a signal comes while a reader is slow. */
int write_all(int file, const uint8_t *bytes, size_t length) {
    int error = 0;
    while (length > 0 && error == 0) {
        ssize_t written = write(file, bytes, length);
        if (written > 0) {
            bytes += written;
            length -= (size_t)written;
        } else if (written == 0) {
            error = ENOSPC;
        } else if (errno != EINTR) {
            error = errno;
        }
    }
    return error;
}

/* Whether the descriptor is still the file's. An application may close descriptors that it doesn't
 * know, as a daemon does. Then the number may be that of another file by now. */
static bool has_file(const struct journal *journal, struct stat *status) {
    if (fstat(journal->file, status) != 0)
        return errno != EBADF;
    return journal->inode == 0
        || (status->st_dev == journal->device && status->st_ino == journal->inode);
}

/* Why nothing may be written, or NULL. A child that wasn't made by fork(2) is as its parent was. In
 * a file that has lost calls, or its name, later ones would be lost as well. */
static const char *find_obstacle(struct journal *journal) {
    struct stat status = {.st_size = journal->length, .st_nlink = 1};
    if (journal->process != getpid())
        return "the file is another process's";
    if (!has_file(journal, &status))
        return "the file was closed";
    if (journal->has_name && status.st_nlink == 0)
        return "the file was deleted";
    if (status.st_size < journal->length)
        return "the file was cut short";
    /* Somebody else may have added a comment: what is written stands behind it. */
    journal->length = status.st_size;
    return NULL;
}

/* What was written in part is taken back, since the application gets no answer to it. */
static bool write_text(struct journal *journal, size_t length) {
    sigset_t before;
    const char *obstacle = find_obstacle(journal);
    if (obstacle != NULL) {
        journal->has_failed = true;
        return report(journal->variable, "a call can't be written: %s", obstacle);
    }
    block_write_signals(&before);
    int error = write_all(journal->file, journal->text.bytes, length);
    unblock_write_signals(&before, error);
    if (error == 0) {
        journal->length += (off_t)length;
        return true;
    }
    const char *rest = truncate_file(journal) ? "" : ", and a part of it stays in the file";
    journal->has_failed = true;
    return report(journal->variable, "a call can't be written: %s%s", strerror(error), rest);
}

bool write_journal(void) {
    struct journal *journal = &library.journal;
    size_t length = journal->text.length;
    journal->text.length = 0;
    if (length == 0)
        return true;
    int before = forbid_cancel();
    bool is_written = write_text(journal, length);
    allow_cancel(before);
    return is_written;
}

bool write_first_journal(void) {
    const struct journal *journal = &library.journal;
    if (journal->is_open && !truncate_file(journal))
        return report(journal->variable, "the file can't be cut off: %s", strerror(errno));
    return write_journal();
}

/* Marked as closed first: the child of a fork in between keeps the descriptor, and never closes one
 * that isn't the journal's. The process that has opened the file gives its lock back: a child may
 * still have the descriptor, such as one that is about to execute a program. */
int close_file(void) {
    struct journal *journal = &library.journal;
    struct stat status;
    bool was_open = journal->is_open;
    journal->is_open = false;
    if (!was_open || !has_file(journal, &status))
        return 0;
    if (journal->process == getpid())
        flock(journal->file, LOCK_UN);
    return close(journal->file) != 0 ? errno : 0;
}

/* Some file systems say only now that there was no room for what was written. */
void close_journal(void) {
    int error = close_file();
    if (error != 0)
        report(library.journal.variable, "calls at the end may be missing: %s", strerror(error));
    buffer_free(&library.journal.text);
}

void abandon_journal(void) {
    if (!library.journal.is_open)
        return;
    library.journal.has_failed = true;
    (void)close_file();
}
