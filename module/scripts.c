/*
 * The lines of scripts and of journal files, which are answered when the library is initialized.
 */
#include "module.h"

#include <errno.h>
#include <fcntl.h>
#include <stdio.h>
#include <stdlib.h>
#include <string.h>
#include <unistd.h>

/* How many bytes of a file are read at once. */
enum { MOST_READ = 4096 };

static const char too_long[] = "a line has at most 4194304 bytes";
_Static_assert(LONGEST_LINE == 4194304, "too_long says how long a line may be");

static bool report_line(const struct source *source, const char *reason) {
    return report(source->variable, "%s, line %zu: %s", source->path, source->number, reason);
}

static bool is_text(const uint8_t *line, size_t length, const char *text) {
    return length == strlen(text) && memcmp(line, text, length) == 0;
}

static bool is_comment(const uint8_t *line, size_t length) {
    return length == 0 || (line[0] == '#' && length <= LONGEST_LINE);
}

/* A digit's value, or 16 where it is none. */
static unsigned digit_value(uint8_t digit) {
    static const char digits[] = "0123456789abcdef";
    const char *at = memchr(digits, digit, 16);
    return at == NULL ? 16 : (unsigned)(at - digits);
}

static bool read_hexadecimal(const uint8_t *text, uint8_t *out, size_t length) {
    for (size_t i = 0; i < length; i++) {
        unsigned high = digit_value(text[2 * i]);
        unsigned low = digit_value(text[2 * i + 1]);
        if (high > 15 || low > 15)
            return false;
        out[i] = (uint8_t)(high << 4 | low);
    }
    return true;
}

/* Some comments have the token's label. */
static bool answer_comment(const struct source *source, const uint8_t *line, size_t length) {
    CK_UTF8CHAR label[LABEL_LENGTH];
    size_t start = strlen(label_start);
    if (length != start + 2 * LABEL_LENGTH || memcmp(line, label_start, start) != 0
        || !read_hexadecimal(line + start, label, LABEL_LENGTH))
        return true;
    return set_label(label) || report_line(source, "there is no memory for the label");
}

/* Of long replies the first bytes are shown. */
static bool report_reply(const struct source *source, const struct buffer *reply,
                         const uint8_t *given, size_t length) {
    enum { MOST_SHOWN = 40 };
    char reason[128];
    int shown = reply->length > MOST_SHOWN ? MOST_SHOWN : (int)reply->length;
    int given_shown = length > MOST_SHOWN ? MOST_SHOWN : (int)length;
    if (given == NULL)
        snprintf(reason, sizeof reason, "the reply is %.*s", shown, (const char *)reply->bytes);
    else
        snprintf(reason, sizeof reason, "the reply is %.*s, and not %.*s", shown,
                 (const char *)reply->bytes, given_shown, (const char *)given);
    return report_line(source, reason);
}

/* Whether the reply to the last call is the one that is given, or OK where none is. */
static bool check_reply(const struct source *source, const uint8_t *given, size_t length) {
    struct buffer *reply = &library.reply;
    if (given == NULL && (source->is_journal || ospreyrack_code(&library.token) == CKR_OK))
        return true;
    reply->length = 0;
    if (!add_reply(reply))
        return report_line(source, "there is no memory for the reply");
    if (given != NULL && length == reply->length && memcmp(given, reply->bytes, length) == 0)
        return true;
    return report_reply(source, reply, given, length);
}

/* What is told of a line that is no call. Why it is none, ck_cases tells of each line of a file. */
static const char *fault_of_line(const uint8_t *line, size_t length) {
    return length > 0 && line[length - 1] == '\r'
        ? "a carriage return stands at the end of the line"
        : "this is no call (ck_cases says why)";
}

static bool answer_call(struct source *source, const uint8_t *line, size_t length) {
    const uint8_t *at = memmem(line, length, arrow, strlen(arrow));
    size_t call_length = at == NULL ? length : (size_t)(at - line);
    if (call_length > LONGEST_LINE)
        return report_line(source, too_long);
    uint32_t outcome = answer_line(line, call_length);
    if (outcome == NO_MEMORY)
        return report_line(source, "there is no memory for the call");
    if (outcome != ANSWERED)
        return report_line(source, fault_of_line(line, length));
    source->has_calls = true;
    if (at == NULL)
        return check_reply(source, NULL, 0);
    source->is_case = true;
    at += strlen(arrow);
    return check_reply(source, at, length - (size_t)(at - line));
}

static bool is_limits(const uint8_t *line, size_t length) {
    static const char start[] = "limits ";
    return length >= strlen(start) && memcmp(line, start, strlen(start)) == 0;
}

/* A journal begins with the limits of its token. A new token has no others. */
static bool answer_limits(struct source *source, const uint8_t *line, size_t length) {
    if (!is_text(line, length, "limits largest"))
        return report_line(source, line[length - 1] == '\r'
                           ? fault_of_line(line, length)
                           : "the module's token has the largest limits, and no others");
    if (source->has_calls)
        return report_line(source, "limits stand in front of all calls");
    source->is_case = true;
    return true;
}

static bool answer_text(struct source *source, const uint8_t *line, size_t length) {
    if (is_comment(line, length))
        return answer_comment(source, line, length);
    if (is_limits(line, length))
        return answer_limits(source, line, length);
    bool is_good = answer_call(source, line, length);
    cut_journal();
    return is_good;
}

/* A file that nothing shows to be a journal is left as it is. It may be a script. */
static bool check_case(const struct source *source) {
    return source->is_case
        || report(source->variable, "%s: this is no journal: it has neither limits nor a reply",
                  source->path);
}

/* A journal's last line lacks its end where the process was killed while it was written: nobody got
 * its answer. One that was answered, in a file that was edited, can't be told from it. */
static bool drop_line(const struct source *source) {
    if (!check_case(source))
        return false;
    report_line(source, "the last line has no end, as a process that was killed leaves it: it is "
                "dropped");
    return true;
}

static bool answer_source_line(struct source *source, const uint8_t *line, size_t length) {
    bool is_whole = line[length - 1] == '\n';
    if (!is_whole && source->is_journal)
        return drop_line(source);
    source->length += (off_t)length;
    return answer_text(source, line, is_whole ? length - 1 : length);
}

/* Reads the next bytes of the file: none at its end. A script may be a pipe, which keeps the reader
 * waiting until a signal wakes it. */
static bool read_bytes(struct source *source) {
    ssize_t count;
    do
        count = read(source->file, source->bytes, MOST_READ);
    while (count < 0 && errno == EINTR);
    source->used = 0;
    source->count = count > 0 ? (size_t)count : 0;
    return count >= 0
        || report(source->variable, "%s: the file can't be read: %s", source->path,
                  strerror(errno));
}

/* Adds bytes of the file to the line, up to its end or as many as there are. */
static bool read_piece(struct source *source, struct buffer *line) {
    const uint8_t *start = source->bytes + source->used;
    size_t count = source->count - source->used;
    const uint8_t *end = memchr(start, '\n', count);
    if (end != NULL)
        count = (size_t)(end - start) + 1;
    source->used += count;
    return buffer_add(line, start, count)
        || report_line(source, "there is no memory for the line");
}

static bool has_end(const struct buffer *line) {
    return line->length > 0 && line->bytes[line->length - 1] == '\n';
}

/* Whether no call is as long as the line. A reply may have any length. */
static bool is_too_long(const struct buffer *line) {
    return line->length > LONGEST_LINE + strlen(arrow)
        && memmem(line->bytes, LONGEST_LINE + strlen(arrow), arrow, strlen(arrow)) == NULL;
}

/* Reads the next line with its end, where it has one: no bytes at the end of the file. What is too
 * long isn't read further: a file such as /dev/zero has a line that never ends. */
static bool read_line(struct source *source, struct buffer *line) {
    line->length = 0;
    source->number++;
    while (!has_end(line)) {
        if (source->used == source->count && !read_bytes(source))
            return false;
        if (source->count == 0)
            return true;
        if (!read_piece(source, line))
            return false;
        if (is_too_long(line))
            return report_line(source, too_long);
    }
    return true;
}

static bool answer_each_line(struct source *source) {
    struct buffer line = {0};
    bool is_good;
    do
        is_good = read_line(source, &line)
            && (line.length == 0 || answer_source_line(source, line.bytes, line.length));
    while (is_good && line.length > 0);
    buffer_free(&line);
    return is_good;
}

bool answer_lines(struct source *source) {
    source->bytes = malloc(MOST_READ);
    bool is_good = source->bytes != NULL
        ? answer_each_line(source)
        : report(source->variable, "%s: there is no memory to read the file", source->path);
    free(source->bytes);
    source->bytes = NULL;
    return is_good;
}

bool open_source(struct source *source) {
    do
        source->file = open(source->path, O_RDONLY | O_CLOEXEC | O_NOCTTY);
    while (source->file < 0 && errno == EINTR);
    return source->file >= 0
        || report(source->variable, "%s: the file can't be opened: %s", source->path,
                  strerror(errno));
}

/* The journal goes on behind the last line that has its end. */
bool answer_journal(const char *path) {
    struct source source = {
        .file = library.journal.file,
        .variable = library.journal.variable,
        .path = path,
        .is_journal = true,
    };
    bool is_good = answer_lines(&source) && check_case(&source);
    library.journal.length = source.length;
    library.journal.is_kept = is_good;
    return is_good;
}

bool close_sessions(const char *variable) {
    static const char line[] = "1 CloseAllSessions";
    return answer_line((const uint8_t *)line, strlen(line)) == ANSWERED
        || report(variable, "there is no memory for the last call");
}
