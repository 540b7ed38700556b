/* What the plain C checkers share: memory, lists, texts, and the parts of a circuit's text. PROGRAM is the program's name. */
#include <fcntl.h>
#include <stdint.h>
#include <stdio.h>
#include <stdlib.h>
#include <string.h>
#include <sys/stat.h>
#include <unistd.h>

typedef uint8_t u8;
typedef uint32_t u32;
typedef uint64_t u64;

enum { MOST = 4194303, TEXT_MOST = 67108864 };

static inline void fault(const char *words) {
    fprintf(stderr, PROGRAM ": %s\n", words);
    exit(3);
}
static inline void no(int number) {
    printf("no %d\n", number);
    exit(1);
}
static inline void *regrow(void *old, size_t size) {
    void *p = realloc(old, size ? size : 1);
    if (!p) fault("out of memory");
    return p;
}
/* No memory by a count that a text merely states: lists grow as lines come. */
static inline void *grown(void *at, size_t n, size_t *cap, size_t size) {
    if (n < *cap) return at;
    *cap = *cap ? 2 * *cap : 64;
    return regrow(at, *cap * size);
}

/* ---- lists of u32 ---- */
typedef struct { u32 *at; size_t len, cap; } List;
static inline void push(List *l, u32 x) {
    if (l->len == l->cap) l->at = grown(l->at, l->len, &l->cap, sizeof(u32));
    l->at[l->len++] = x;
}

/* ---- texts ---- */
typedef struct { const u8 *p, *end; u8 *start; } Text;

static inline Text slurp(const char *name) {
    int fd = open(name, O_RDONLY);
    if (fd < 0) fault("read or write failed");
    struct stat st;
    size_t cap = fstat(fd, &st) == 0 && st.st_size > 0 ? (size_t)st.st_size + 1 : 65536, len = 0;
    u8 *buf = regrow(NULL, cap);
    for (;;) {
        if (len == cap) buf = regrow(buf, cap *= 2);
        ssize_t n = read(fd, buf + len, cap - len);
        if (n < 0) fault("read or write failed");
        if (n == 0) break;
        len += (size_t)n;
    }
    close(fd);
    return (Text){buf, buf + len, buf};
}
/* The number at the text's place, at most `most`; `missing` where none is there or it has a leading zero. */
static inline u32 number(Text *t, u64 most, int missing, int over) {
    if (t->p == t->end) no(6);
    const u8 *p = t->p;
    unsigned d = *p - '0';
    if (d > 9) no(missing);
    u64 x = d;
    p++;
    if (d == 0) {
        if (p < t->end && (unsigned)(*p - '0') <= 9) no(missing);
    } else {
        while (p < t->end && (d = *p - '0') <= 9) {
            x = x * 10 + d;
            if (x > most) no(over);
            p++;
        }
    }
    if (x > most) no(over);
    t->p = p;
    return (u32)x;
}
static inline void byte(Text *t, u8 want, int wrong) {
    if (t->p == t->end) no(6);
    if (*t->p != want) no(wrong);
    t->p++;
}

/* ---- circuits ---- */
typedef struct { u32 lit, next, reset; } Latch;
typedef struct { u32 lhs, rhs0, rhs1; } Gate;

static inline u32 line_lit(Text *t, u32 most) {
    u32 x = number(t, 2 * (u64)most + 1, 3, 7);
    byte(t, '\n', 5);
    return x;
}
static inline u32 defining(Text *t, u32 most) {
    u32 x = number(t, 2 * (u64)most + 1, 3, 7);
    if (x < 2 || x & 1) no(8);
    return x;
}
static inline u32 *lits(Text *t, u32 most, u32 n) {
    List l = {0};
    for (u32 i = 0; i < n; i++) push(&l, line_lit(t, most));
    return l.at;
}
static inline u32 delta(Text *t) {
    u32 x = 0;
    for (int i = 0; i < 4; i++) {
        if (t->p == t->end) no(6);
        u8 b = *t->p++;
        if (i == 3 && b & 0x80) no(13);
        x |= (u32)(b & 0x7f) << (7 * i);
        if (!(b & 0x80)) {
            if (i && b == 0) no(13);
            return x;
        }
    }
    return x;
}
/* The counts of M, I, L, O, A, B, C, J and F, where the text is a binary one or not. */
static inline void header(Text *t, int binary, u32 *counts[9]) {
    const char *tag = binary ? "aig " : "aag ";
    for (int i = 0; i < 4; i++) byte(t, (u8)tag[i], 2);
    for (int i = 0; i < 9; i++) {
        *counts[i] = number(t, MOST, 3, 4);
        if (i < 4) { byte(t, ' ', 2); continue; }
        if (t->p == t->end) no(6);
        if (*t->p == '\n') break;
        if (i == 8 || *t->p != ' ') no(2);
        t->p++;
    }
    u64 sum = (u64)*counts[1] + *counts[2] + *counts[4];
    if (binary ? sum != *counts[0] : sum > *counts[0]) no(16);
    t->p++;
}
/* A latch's line; the literal is 0 where the line says it. */
static inline Latch read_latch(Text *t, u32 most, u32 lit) {
    Latch l = {lit, 0, 0};
    if (!lit) { l.lit = defining(t, most); byte(t, ' ', 5); }
    l.next = number(t, 2 * (u64)most + 1, 3, 7);
    if (t->p == t->end) no(6);
    if (*t->p == ' ') {
        t->p++;
        l.reset = number(t, UINT32_MAX, 3, 12);
        if (l.reset > 1 && l.reset != l.lit) no(12);
    }
    byte(t, '\n', 5);
    return l;
}
/* A gate, as two differences from its literal, or as a line where that is 0. */
static inline Gate read_gate(Text *t, u32 most, u32 lhs) {
    Gate g = {lhs, 0, 0};
    if (lhs) {
        u32 d = delta(t);
        if (d == 0 || d > lhs) no(13);
        g.rhs0 = lhs - d;
        d = delta(t);
        if (d > g.rhs0) no(13);
        g.rhs1 = g.rhs0 - d;
    } else {
        g.lhs = defining(t, most);
        byte(t, ' ', 5);
        g.rhs0 = number(t, 2 * (u64)most + 1, 3, 7);
        byte(t, ' ', 5);
        g.rhs1 = line_lit(t, most);
    }
    return g;
}
