/* The host's calls, exported by libhost.a (tools/archive.sh host). A slice is two parameters: its start, which is never null, not even
   of an empty slice, and its count of bytes. The calls read the bytes and keep nothing; none asks more of its caller. */
#ifndef LC3_HOST_H
#define LC3_HOST_H

#include <stddef.h>
#include <stdint.h>

/* The number of the question that was answered no, or 0; and how many words the file's object has, 0 where it is refused. */
struct lc3_measured {
    uint8_t number;
    size_t len;
};

/* A line, counted from 0, and how many bytes from its start. */
struct lc3_position {
    uint64_t line;
    uint64_t column;
};

/* Does this read as binary? Of n bytes the object has at most (n - 7) / 2 words, rounded down. */
struct lc3_measured lc3_binary_length(const uint8_t *bytes, size_t bytes_len);

/* Does this read as text? Of n bytes the object has at most n words. */
struct lc3_measured lc3_text_length(const uint8_t *bytes, size_t bytes_len);

/* The line and the column of an index into the bytes of a source; past the end the line count and the index. */
struct lc3_position lc3_get_pos_pair(const uint8_t *source, size_t source_len, uint64_t index);

#endif
