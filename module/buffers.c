/*
 * Bytes that grow.
 */
#include "module.h"

#include <stdlib.h>
#include <string.h>

enum { SMALLEST_ROOM = 256 };

bool buffer_reserve(struct buffer *buffer, size_t more) {
    if (buffer->bytes != NULL && more <= buffer->room - buffer->length)
        return true;
    if (more > SIZE_MAX / 4 - buffer->length)
        return false;
    size_t room = 2 * (buffer->length + more) + SMALLEST_ROOM;
    uint8_t *bytes = realloc(buffer->bytes, room);
    if (bytes == NULL)
        return false;
    buffer->bytes = bytes;
    buffer->room = room;
    return true;
}

bool buffer_add(struct buffer *buffer, const void *bytes, size_t length) {
    if (!buffer_reserve(buffer, length))
        return false;
    if (length > 0)
        memcpy(buffer->bytes + buffer->length, bytes, length);
    buffer->length += length;
    return true;
}

bool buffer_add_text(struct buffer *buffer, const char *text) {
    return buffer_add(buffer, text, strlen(text));
}

bool buffer_add_hexadecimal(struct buffer *buffer, const uint8_t *bytes, size_t length) {
    static const char digits[] = "0123456789abcdef";
    if (!buffer_reserve(buffer, 2 * length))
        return false;
    uint8_t *out = buffer->bytes + buffer->length;
    for (size_t i = 0; i < length; i++) {
        *out++ = (uint8_t)digits[bytes[i] >> 4];
        *out++ = (uint8_t)digits[bytes[i] & 15];
    }
    buffer->length += 2 * length;
    return true;
}

void buffer_free(struct buffer *buffer) {
    free(buffer->bytes);
    *buffer = (struct buffer){0};
}
