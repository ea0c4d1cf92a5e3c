/* What the text of a script costs by hand: it is read, cut into tokens, its names are looked up, it is run and printed.
 * The program trusts its input, and knows the statements and the kernel of the works on text of bench/works. */
#include <stdlib.h>
#include <string.h>
#include <unistd.h>
#include "put.h"

enum { SLOTS = 1024, TOKENS = 64 };
struct array { const char *name; int len, rows, cols; int64_t *values; };
static struct array arrays[SLOTS];

// the array of a name, or the slot for it
static struct array *find(const char *name, int len) {
    unsigned slot = 0;
    for (int i = 0; i < len; i++) slot = slot * 31 + name[i];
    for (;; slot++) {
        struct array *a = &arrays[slot % SLOTS];
        if (!a->len || (a->len == len && !memcmp(a->name, name, len))) return a;
    }
}

static void print(struct array *a) {
    char line[64 * 21 + 1];
    for (int i = 0; i < a->rows; i++) {
        char *at = line;
        for (int j = 0; j < a->cols; j++) {
            if (j) *at++ = ' ';
            at = put(at, a->values[j * a->rows + i]);
        }
        *at++ = '\n';
        if (write(1, line, at - line) < 0) exit(5);
    }
}

// all of an array, or one of its elements: task neg InOut ( NAME ), or NAME [ ROW , COLUMN ]
static void negate(char **token, const int *len) {
    struct array *a = find(token[4], len[4]);
    int size = a->rows * a->cols;
    int64_t *x = a->values;
    if (*token[5] == '[') {
        x += (atoi(token[8]) - 1) * a->rows + atoi(token[6]) - 1;
        size = 1;
    }
    for (int i = 0; i < size; i++) x[i] = 0 - (uint64_t)x[i];
}

static void make(char **token, const int *len) {
    struct array *a = find(token[1], len[1]);
    a->name = token[1];
    a->len = len[1];
    a->rows = atoi(token[2]);
    a->cols = atoi(token[3]);
    a->values = malloc(8 * a->rows * a->cols);
    for (int i = 0; i < a->rows * a->cols; i++) a->values[i] = strtoll(token[7], 0, 10);
}

static int is_word(char c) {
    return c == '_' || (c >= 'a' && c <= 'z') || (c >= 'A' && c <= 'Z') || (c >= '0' && c <= '9');
}

static int is(const char *word, const char *token, int len) {
    return (int)strlen(word) == len && !memcmp(word, token, len);
}

static void line(char *s, char *end) {
    char *token[TOKENS];
    int len[TOKENS], n = 0;
    while (s < end && *s != '#') {
        if (*s == ' ' || *s == '\t' || *s == '\r') { s++; continue; }
        char *first = s++;
        if (is_word(*first) || *first == '-') while (s < end && is_word(*s)) s++;
        if (n == TOKENS) exit(9);
        token[n] = first;
        len[n++] = s - first;
    }
    if (!n || is("region", token[0], len[0]) || is("end", token[0], len[0])) return;
    if (is("array", token[0], len[0])) make(token, len);
    else if (is("task", token[0], len[0]) && is("neg", token[1], len[1])) negate(token, len);
    else if (is("print", token[0], len[0])) print(find(token[1], len[1]));
    else exit(9);
}

int main(void) {
    size_t size = 0, room = 8192;
    char *text = malloc(room);
    ssize_t got;
    while ((got = read(0, text + size, room - size)) > 0) {
        size += got;
        if (size == room) text = realloc(text, room *= 2);
    }
    for (char *at = text, *end = text + size; at < end;) {
        char *stop = memchr(at, '\n', end - at);
        if (!stop) stop = end;
        line(at, stop);
        at = stop + 1;
    }
    return 0;
}
