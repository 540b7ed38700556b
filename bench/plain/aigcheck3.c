/* aigcheck3 safe FILE CERT: a plain C counterpart of aigcheck for certificates of version 3, to measure against.
 * Nothing is proved.
 *
 *   gcc -O2 -Wall -Wextra -o aigcheck3 aigcheck3.c
 *
 * It answers as aigcheck: `yes safe P` or `no NUMBER`; status 0, 1, 3. It reads both layouts of AIGER 1.9 (no symbols,
 * and gates behind those that they read; others it does not judge, status 3) and a certificate from one buffer each,
 * and checks while it parses. The first cause of the check waits until the whole text has been parsed, since a text's
 * fault goes first.
 *
 * Literals are AIGER-like: CNF variable v is 2v, its negation 2v + 1. A clause lies in the arena as its length and its
 * literals; place[id] says where, 0 for none. val[l] says that l is held true.
 */
#define PROGRAM "aigcheck3"
#include "circuits.h"
#include "derivations.h"

static inline u32 field(Text *t, u64 most, u8 end) {
    u32 x = number(t, most, 3, 3);
    byte(t, end, 5);
    return x;
}

typedef struct {
    u32 M, I, L, O, A, B, C, J, F;
    u32 *inputs, *outputs, *bad, *constraints, *sizes, *wanted, *fairness;
    u32 nwanted;
    Latch *latches;
    Gate *gates;
    size_t latches_cap, gates_cap;
    u8 *defined; /* by variable; null: all */
} Model;

static void define(u8 *defined, u32 lit) {
    if (defined[lit >> 1]) no(9);
    defined[lit >> 1] = 1;
}
static void use(const u8 *defined, const u32 *at, u32 n) {
    for (u32 i = 0; i < n; i++) if (!defined[at[i] >> 1]) no(10);
}
/* Each variable is defined once, and what is read is defined. */
static void settle(Model *m) {
    u8 *defined = regrow(NULL, (size_t)m->M + 1), *before = regrow(NULL, (size_t)m->M + 1);
    memset(defined, 0, (size_t)m->M + 1);
    for (u32 i = 0; i < m->I; i++) define(defined, m->inputs[i]);
    for (u32 i = 0; i < m->L; i++) define(defined, m->latches[i].lit);
    defined[0] = 1;
    memcpy(before, defined, (size_t)m->M + 1);
    for (u32 i = 0; i < m->A; i++) define(defined, m->gates[i].lhs);
    for (u32 i = 0; i < m->L; i++) use(defined, &m->latches[i].next, 1);
    use(defined, m->outputs, m->O), use(defined, m->bad, m->B), use(defined, m->constraints, m->C);
    use(defined, m->wanted, m->nwanted), use(defined, m->fairness, m->F);
    int ordered = 1;
    for (u32 i = 0; i < m->A; i++) {
        Gate g = m->gates[i];
        if (!defined[g.rhs0 >> 1] || !defined[g.rhs1 >> 1]) no(10);
        ordered &= before[g.rhs0 >> 1] & before[g.rhs1 >> 1];
        before[g.lhs >> 1] = 1;
    }
    if (!ordered) fault("gates before those that they read are not judged");
    free(before);
    if (m->I + m->L + m->A < m->M) m->defined = defined;
    else free(defined);
}
static Model read_model(Text *t) {
    Model m = {0};
    if (t->end - t->p > TEXT_MOST) no(1);
    int binary = t->end - t->p > 1 && t->p[1] == 'i';
    u32 *counts[9] = {&m.M, &m.I, &m.L, &m.O, &m.A, &m.B, &m.C, &m.J, &m.F};
    header(t, binary, counts);
    size_t cap = 0;
    for (u32 i = 0; i < m.I && !binary; i++) {
        m.inputs = grown(m.inputs, i, &cap, sizeof(u32));
        m.inputs[i] = defining(t, m.M);
        byte(t, '\n', 5);
    }
    for (u32 i = 0; i < m.L; i++) {
        Latch l = read_latch(t, m.M, binary ? 2 * (m.I + 1 + i) : 0);
        m.latches = grown(m.latches, i, &m.latches_cap, sizeof(Latch));
        m.latches[i] = l;
    }
    m.outputs = lits(t, m.M, m.O), m.bad = lits(t, m.M, m.B), m.constraints = lits(t, m.M, m.C);
    List sizes = {0};
    for (u32 i = 0; i < m.J; i++) {
        push(&sizes, number(t, MOST - m.nwanted, 3, 4));
        m.nwanted += sizes.at[i];
        byte(t, '\n', 5);
    }
    m.sizes = sizes.at;
    m.wanted = lits(t, m.M, m.nwanted), m.fairness = lits(t, m.M, m.F);
    for (u32 i = 0; i < m.A; i++) {
        Gate g = read_gate(t, m.M, binary ? 2 * (m.I + m.L + 1 + i) : 0);
        m.gates = grown(m.gates, i, &m.gates_cap, sizeof(Gate));
        m.gates[i] = g;
    }
    if (t->p < t->end) fault("symbols and comments are not judged");
    if (!binary) settle(&m);
    return m;
}
static void add_latch(Model *m, u32 lit, u32 next, u32 reset) {
    m->latches = grown(m->latches, m->L, &m->latches_cap, sizeof(Latch));
    m->latches[m->L++] = (Latch){lit, next, reset};
}
static u32 add_gate(Model *m, u32 variable, u32 a, u32 b) {
    m->gates = grown(m->gates, m->A, &m->gates_cap, sizeof(Gate));
    m->gates[m->A++] = (Gate){2 * variable, a, b};
    return 2 * variable;
}

/* ---- clauses ---- */
static u32 *arena, *place;
static size_t used, arena_cap, filled, place_cap; /* words; ids that place knows */
typedef struct { u32 id, at; } Far;               /* an id far above the others, as only a strange certificate has */
static Far *far_ids;
static size_t nfar, far_cap, count;
static u32 top;

/* Nothing, with room for a base of so many words and clauses. */
static void begin(size_t words, size_t clauses, u32 variables) {
    if (words + 1 > arena_cap) {
        free(arena);
        arena = regrow(NULL, (arena_cap = words + words / 8 + 1024) * sizeof(u32));
    }
    if (clauses + 1 > place_cap) {
        free(place);
        place = regrow(NULL, (place_cap = clauses + clauses / 8 + 1024) * sizeof(u32));
    }
    used = filled = 1, place[0] = 0, top = 0, nfar = 0, count = 0;
    vars = variables;
}
static inline void put1(u32 a) {
    u32 *w = arena + used;
    place[filled++] = (u32)used, used += 2;
    w[0] = 1, w[1] = a;
}
static inline void put2(u32 a, u32 b) {
    u32 *w = arena + used;
    place[filled++] = (u32)used, used += 3;
    w[0] = 2, w[1] = a, w[2] = b;
}
static inline void put3(u32 a, u32 b, u32 c) {
    u32 *w = arena + used;
    place[filled++] = (u32)used, used += 4;
    w[0] = 3, w[1] = a, w[2] = b, w[3] = c;
}
static void based(void) {
    top = (u32)(filled - 1), count = top;
    if (used > UINT32_MAX) fault("out of memory");
}
static u32 *far_place(u32 id) {
    size_t lo = 0, hi = nfar;
    while (lo < hi) {
        size_t mid = (lo + hi) / 2;
        if (far_ids[mid].id < id) lo = mid + 1; else hi = mid;
    }
    return lo < nfar && far_ids[lo].id == id ? &far_ids[lo].at : NULL;
}
static inline u32 where(u32 id) {
    if (id < filled && (place[id] || !nfar)) return place[id];
    u32 *at = nfar ? far_place(id) : NULL;
    return at ? *at : 0;
}
static void add(u32 id) {
    if (id < 4 * count + 65536) {
        if (id >= place_cap) place = regrow(place, (place_cap = 2 * (size_t)id) * sizeof(u32));
        if (id > filled) memset(place + filled, 0, (id - filled) * sizeof(u32));
        place[id] = (u32)used, filled = (size_t)id + 1;
    } else {
        far_ids = grown(far_ids, nfar, &far_cap, sizeof(Far));
        far_ids[nfar++] = (Far){id, (u32)used};
    }
    if (used + clause.len + 1 > arena_cap) {
        arena_cap = 2 * (used + clause.len + 1);
        arena = regrow(arena, arena_cap * sizeof(u32));
    }
    arena[used] = (u32)clause.len;
    memcpy(arena + used + 1, clause.at, clause.len * sizeof(u32));
    used += clause.len + 1;
    if (used > UINT32_MAX) fault("out of memory");
    top = id, count++;
}
static inline const u32 *clause_at(u32 id) {
    u32 at = where(id);
    return at ? arena + at : NULL;
}

/* ---- bases ---- */
static inline u32 cnf(const Model *m, u32 lit, u32 time) {
    return (lit > 1 ? lit : 2 * (m->M + 1) + (lit ^ 1)) + 2 * time;
}
static void put_frame(const Model *m, u32 time) {
    put1(cnf(m, 1, time));
    for (u32 i = 0; i < m->A; i++) {
        u32 x = m->gates[i].lhs + 2 * time, a = cnf(m, m->gates[i].rhs0, time), b = cnf(m, m->gates[i].rhs1, time);
        put2(x ^ 1, a);
        put2(x ^ 1, b);
        put3(x, a ^ 1, b ^ 1);
    }
    for (u32 i = 0; i < m->C; i++) put1(cnf(m, m->constraints[i], time));
}
/* The invariant's clauses, each as its length and its AIGER literals. */
static void put_invariant(const Model *m, const List *inv) {
    for (size_t at = 0; at < inv->len; at += inv->at[at] + 1) {
        u32 n = inv->at[at];
        place[filled++] = (u32)used;
        arena[used++] = n;
        for (u32 i = 1; i <= n; i++) arena[used++] = cnf(m, inv->at[at + i], 0);
    }
}
static void first_base(const Model *m) {
    begin(2 * (size_t)m->L + 10 * (size_t)m->A + 2 * (size_t)m->C + 2,
          (size_t)m->L + 3 * (size_t)m->A + m->C + 1, m->M + 1);
    for (u32 i = 0; i < m->L; i++) {
        Latch l = m->latches[i];
        if (l.reset < 2) put1(l.lit ^ (l.reset ^ 1));
    }
    put_frame(m, 0);
    based();
}
static void step_base(const Model *m, const List *inv, u32 clauses) {
    begin(2 * (10 * (size_t)m->A + 2 * (size_t)m->C + 2) + 6 * (size_t)m->L + inv->len,
          2 * (3 * (size_t)m->A + m->C + 1) + 2 * (size_t)m->L + clauses, 2 * (m->M + 1));
    put_frame(m, 0);
    for (u32 i = 0; i < m->L; i++) {
        u32 x = m->latches[i].lit + 2 * (m->M + 1), a = cnf(m, m->latches[i].next, 0);
        put2(x ^ 1, a);
        put2(x, a ^ 1);
    }
    put_frame(m, m->M + 1);
    put_invariant(m, inv);
    based();
}
static void last_base(const Model *m, const List *inv, u32 clauses, u32 bad) {
    begin(10 * (size_t)m->A + 2 * (size_t)m->C + 2 + inv->len + 2, 3 * (size_t)m->A + m->C + 1 + clauses + 1, m->M + 1);
    put_frame(m, 0);
    put_invariant(m, inv);
    put1(cnf(m, bad, 0));
    based();
}

/* ---- certificates ---- */
static int refusal;  /* the first cause of the check */
static int closed;

static void take_out(u32 id) {
    u32 *at = id < filled && place[id] ? &place[id] : nfar ? far_place(id) : NULL;
    if (!at || !*at) refusal = 40;
    else *at = 0;
}
static inline u32 magnitude(Text *t, u64 most, int *negative) {
    *negative = 0;
    if (t->p < t->end && *t->p == '-') {
        if (t->p + 1 == t->end) no(6);
        if (t->p[1] < '1' || t->p[1] > '9') no(3);
        t->p++;
        *negative = 1;
    }
    return number(t, most, 3, 3);
}
static void deletion(Text *t) {
    t->p++;
    byte(t, ' ', 5);
    if (!refusal && closed) refusal = 50;
    for (;;) {
        u32 x = number(t, UINT32_MAX, 3, 3);
        if (x == 0) break;
        byte(t, ' ', 5);
        if (!refusal) take_out(x);
    }
    byte(t, '\n', 5);
}
static void proof_line(Text *t) {
    u32 id = number(t, UINT32_MAX, 3, 3);
    if (id == 0) no(3);
    byte(t, ' ', 5);
    if (t->p < t->end && *t->p == 'd') { deletion(t); return; }
    int negative, any = 0;
    clause.len = hints.len = 0;
    for (;;) {
        u32 x = magnitude(t, INT32_MAX, &negative);
        byte(t, ' ', 5);
        if (x == 0) break;
        push(&clause, 2 * x + (u32)negative);
    }
    for (;;) {
        u32 x = magnitude(t, UINT32_MAX, &negative);
        if (x == 0) break;
        byte(t, ' ', 5);
        any |= negative;
        push(&hints, x);
    }
    byte(t, '\n', 5);
    if (refusal) return;
    refusal = closed ? 50 : id <= top ? 41 : any ? 47 : derive();
    if (refusal) return;
    add(id);
    closed = clause.len == 0;
}
static void section(Text *t, u8 letter) {
    byte(t, letter, 72);
    byte(t, '\n', 5);
    closed = 0;
    for (;;) {
        if (t->p == t->end) no(6);
        if (*t->p == '.') break;
        proof_line(t);
    }
    t->p++;
    byte(t, '\n', 5);
}
/* The hints of each clause, at the time. */
static void shown(Text *t, const Model *m, const List *inv, u32 clauses, u32 time) {
    size_t at = 0;
    for (u32 i = 0; i < clauses; i++, at += inv->at[at] + 1) {
        hints.len = 0;
        for (u32 n = number(t, MOST, 3, 3); n; n--) {
            byte(t, ' ', 5);
            push(&hints, number(t, UINT32_MAX, 3, 3));
        }
        byte(t, '\n', 5);
        if (refusal) continue;
        clause.len = 0;
        for (u32 k = 1; k <= inv->at[at]; k++) push(&clause, cnf(m, inv->at[at + k], time));
        refusal = derive();
    }
}
/* The latches and gates that count to K + 1 rounds of the property, and its literal (crates/extension). */
static u32 count_rounds(Model *m, u32 j, u32 k) {
    List wanted = {0};
    u32 from = 0;
    for (u32 i = 0; i < j; i++) from += m->sizes[i];
    for (u32 i = 0; i < m->sizes[j]; i++) push(&wanted, m->wanted[from + i]);
    for (u32 i = 0; i < m->F; i++) push(&wanted, m->fairness[i]);
    u64 most = m->M + 4 * (u64)wanted.len + 3 * ((u64)k + 1);
    if (most > MOST) { refusal = 4; return 0; }
    u32 w = (u32)wanted.len, seen = m->M + 1, counts = seen + w, missing = counts + k + 1, v = missing;
    u32 opened = missing + 2 * w, stage = opened + w, ends = 1, before = 1;
    for (u32 i = 0; i < w; i++) add_latch(m, 2 * (seen + i), 2 * (opened + i), 0);
    for (u32 i = 0; i <= k; i++) add_latch(m, 2 * (counts + i), 2 * (stage + 2 * i + 1) + 1, 0);
    for (u32 i = 0; i < w; i++) add_gate(m, v++, 2 * (seen + i) + 1, wanted.at[i] ^ 1);
    for (u32 i = 0; i < w; i++) ends = add_gate(m, v++, ends, 2 * (missing + i) + 1);
    for (u32 i = 0; i < w; i++) add_gate(m, v++, 2 * (missing + i) + 1, ends ^ 1);
    for (u32 i = 0; i <= k; i++) {
        u32 first = add_gate(m, v++, before, ends);
        add_gate(m, v++, 2 * (counts + i) + 1, first ^ 1);
        before = 2 * (counts + i);
    }
    free(wanted.at);
    m->M = (u32)most;
    return 2 * (v - 1) + 1;
}
/* The claim's line: its letter and number, and the literal that is to be excluded. */
static u32 claim(Text *t, Model *m, u8 *letter, u32 *n) {
    if (t->p == t->end) no(6);
    *letter = *t->p++;
    if (*letter != 'b' && *letter != 'j' && *letter != 'o') no(71);
    *n = number(t, UINT32_MAX, 71, 71);
    u32 k = 0;
    if (*letter == 'j') byte(t, ' ', 71), k = number(t, UINT32_MAX, 71, 71);
    byte(t, '\n', 71);
    int outputs = !m->B && !m->C && !m->J && !m->F;
    if (*letter == 'b' ? *n >= m->B : *letter == 'j' ? *n >= m->J : !outputs || *n >= m->O) refusal = 30;
    else if (*letter == 'b') return m->bad[*n];
    else if (*letter == 'o') return m->outputs[*n];
    else if (m->L < 32 && k > 1ull << m->L) refusal = 56;
    else return count_rounds(m, *n, k);
    return 0;
}
static int known(const Model *m, u32 lit, u32 most, u32 given) {
    u32 v = lit >> 1;
    return v <= most && (v > given || !m->defined || m->defined[v]);
}
/* The latches and gates, behind the circuit's own; GIVEN is the greatest variable of the file. */
static void extend(Text *t, Model *m, u32 given) {
    u32 latches = field(t, MOST, ' '), gates = field(t, MOST, '\n'), next = m->M + 1, old = m->L;
    if (!refusal && (u64)m->M + latches + gates > MOST) refusal = 4;
    u32 most = m->M + latches + gates, wrong = 0;
    for (u32 i = 0; i < latches; i++, next++) {
        u32 lit = field(t, UINT32_MAX, ' '), to = field(t, UINT32_MAX, ' '), reset = field(t, UINT32_MAX, '\n');
        wrong |= lit != 2 * next || (reset > 1 && reset != lit);
        if (!refusal) add_latch(m, lit, to, reset);
    }
    for (u32 i = 0; i < gates; i++, next++) {
        u32 lit = field(t, UINT32_MAX, ' '), a = field(t, UINT32_MAX, ' '), b = field(t, UINT32_MAX, '\n');
        wrong |= lit != 2 * next || !known(m, a, next - 1, given) || !known(m, b, next - 1, given);
        if (!refusal) add_gate(m, lit >> 1, a, b);
    }
    if (refusal) return;
    for (u32 i = old; i < m->L; i++) wrong |= !known(m, m->latches[i].next, most, given);
    if (wrong) refusal = 54;
    m->M = most;
}
static u32 invariant(Text *t, const Model *m, List *inv) {
    u32 clauses = field(t, MOST, '\n'), outside = 0;
    for (u32 i = 0; i < clauses; i++) {
        u32 n = number(t, MOST, 3, 3);
        push(inv, n);
        while (n--) {
            byte(t, ' ', 5);
            u32 lit = number(t, UINT32_MAX, 3, 3);
            outside |= lit >> 1 > m->M;
            push(inv, lit);
        }
        byte(t, '\n', 5);
    }
    if (!refusal && outside) refusal = 55;
    return clauses;
}
static void safe(const char *file, const char *cert) {
    Text ft = slurp(file);
    Model m = read_model(&ft);
    free(ft.start);
    Text t = slurp(cert);
    for (const char *tag = "aigcert "; *tag; tag++) byte(&t, (u8)*tag, 70);
    if (t.p < t.end && (*t.p == '1' || *t.p == '2')) fault("versions 1 and 2 are not judged");
    byte(&t, '3', 70);
    byte(&t, '\n', 70);
    u8 letter;
    u32 n, given = m.M, bad = claim(&t, &m, &letter, &n);
    List inv = {0};
    extend(&t, &m, given);
    u32 clauses = invariant(&t, &m, &inv);
    if (!refusal) {
        val = calloc(4 * ((size_t)m.M + 1) + 2, 1);
        if (!val) fault("out of memory");
        first_base(&m);
    }
    section(&t, 'i');
    shown(&t, &m, &inv, clauses, 0);
    if (!refusal) step_base(&m, &inv, clauses);
    section(&t, 's');
    shown(&t, &m, &inv, clauses, m.M + 1);
    if (!refusal) last_base(&m, &inv, clauses, bad);
    section(&t, 'b');
    if (!refusal && !closed) refusal = 49;
    if (t.p != t.end) no(72);
    if (refusal) no(refusal);
    printf("yes safe %c%u\n", letter, n);
}

int main(int argc, char **argv) {
    if (argc != 4 || strcmp(argv[1], "safe")) fault("safe FILE CERT");
    safe(argv[2], argv[3]);
    return 0;
}
