/* test FILE..: what the calls answer of each file, and of the places of a source.
   test small CALL FILE: what one call answers in a thread of 128 KiB of stack. test.sh compares both. */
#include <inttypes.h>
#include <pthread.h>
#include <stdio.h>
#include <stdlib.h>
#include <string.h>
#include "lc3_host.h"

static uint8_t bytes[4096];

static size_t read_file(const char *name) {
    FILE *file = fopen(name, "rb");
    if (!file) {
        perror(name);
        exit(1);
    }
    size_t n = fread(bytes, 1, sizeof bytes, file);
    fclose(file);
    return n;
}

static void measure(const char *name) {
    size_t n = read_file(name);
    struct lc3_measured b = lc3_binary_length(bytes, n);
    struct lc3_measured t = lc3_text_length(bytes, n);
    printf("%zu bytes: binary %u, %zu words; text %u, %zu words\n", n, b.number, b.len, t.number, t.len);
}

static void place(const uint8_t *source, size_t len, uint64_t index) {
    struct lc3_position p = lc3_get_pos_pair(source, len, index);
    printf("place %" PRIu64 " of %zu: line %" PRIu64 ", column %" PRIu64 "\n", index, len, p.line, p.column);
}

/* A call of the bytes: its number and words, or the line and the column of their end. */
struct ask {
    const char *call;
    size_t len;
    uint64_t first, second;
};

static void *make(void *argument) {
    struct ask *ask = argument;
    if (strcmp(ask->call, "lc3_get_pos_pair") == 0) {
        struct lc3_position p = lc3_get_pos_pair(bytes, ask->len, ask->len);
        ask->first = p.line;
        ask->second = p.column;
    } else {
        int text = strcmp(ask->call, "lc3_text_length") == 0;
        struct lc3_measured m = text ? lc3_text_length(bytes, ask->len) : lc3_binary_length(bytes, ask->len);
        ask->first = m.number;
        ask->second = m.len;
    }
    return NULL;
}

static void small(const char *call, const char *name) {
    struct ask ask = {call, read_file(name), 0, 0};
    pthread_attr_t attributes;
    pthread_t thread;
    if (pthread_attr_init(&attributes) || pthread_attr_setstacksize(&attributes, 131072)
        || pthread_create(&thread, &attributes, make, &ask) || pthread_join(thread, NULL)) {
        fprintf(stderr, "no thread of 128 KiB\n");
        exit(1);
    }
    printf("%" PRIu64 ", %" PRIu64 "\n", ask.first, ask.second);
}

int main(int count, char **words) {
    const uint8_t source[] = {'a', '\n', 'b', '\n'};
    if (count == 4 && strcmp(words[1], "small") == 0) {
        small(words[2], words[3]);
        return 0;
    }
    for (int i = 1; i < count; i++)
        measure(words[i]);
    for (uint64_t index = 0; index < 7; index++)
        place(source, sizeof source, index);
    place(source, sizeof source, UINT64_MAX);
    place(source, 0, 0);
    place(source, 0, 1);
    return 0;
}
