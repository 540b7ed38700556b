/* A plain C counterpart of aigcheck (and of aigmc sim and convert), to measure against. Nothing is proved.
 *
 *   gcc -O2 -Wall -Wextra -o aigcheck aigcheck.c
 *
 *   aigcheck safe FILE CERT | run FILE STIM | sim FILE STIM | convert FILE OUT (ordered models only)
 *
 * Answers as run_safe and run_stimulus: `yes safe P`, `yes run P` or `no NUMBER`; status 0, 1, 3.
 * AIGER 1.9 in both layouts with all refusals, certificate version 1, the strict LRAT rule, justice by the
 * shadow circuit. A certificate is checked while it is parsed, from one buffer; the first cause of the
 * check is kept until the whole text has been parsed, since a text's fault goes first. All initial sections share
 * one base, all step and bad sections another.
 *
 * Literals inside are AIGER-like: CNF variable v is 2v, its negation 2v+1. val[l] says that l is held true.
 */
#define PROGRAM "aigcheck"
#include "circuits.h"
#include "derivations.h"

static void *room(size_t n) {
    return regrow(NULL, n);
}
static void *zeros(size_t n, size_t size) {
    void *p = calloc(n ? n : 1, size);
    if (!p) fault("out of memory");
    return p;
}
typedef struct {
    u32 M, I, L, O, B, C, J, F, A;
    u32 *inputs, *outputs, *bad, *constraints, *sizes, *justice, *fairness;
    u32 njustice;
    Latch *latches;
    Gate *gates;
    u32 *order; /* null: as in the file */
    const u8 *tail, *tail_end; /* symbols and comment, as in the file */
} Model;

static void symbols(Text *t, Model *m) {
    static const char kinds[] = "ilobcjf";
    u32 counts[7] = {m->I, m->L, m->O, m->B, m->C, m->J, m->F};
    u8 *seen[7] = {0};
    m->tail = t->p;
    while (t->p < t->end) {
        const char *k = *t->p ? strchr(kinds, *t->p) : NULL;
        if (!k) no(14);
        if (*k == 'c' && (t->p + 1 == t->end || (unsigned)(t->p[1] - '0') > 9)) {
            t->p = t->end;
            break;
        }
        t->p++;
        int kind = (int)(k - kinds);
        u32 pos = number(t, UINT32_MAX, 14, 14);
        if (pos >= counts[kind]) no(14);
        if (!seen[kind]) seen[kind] = zeros(counts[kind], 1);
        if (seen[kind][pos]) no(14);
        seen[kind][pos] = 1;
        byte(t, ' ', 14);
        const u8 *e = memchr(t->p, '\n', (size_t)(t->end - t->p));
        if (!e) no(6);
        if (e == t->p) no(14);
        t->p = e + 1;
    }
    m->tail_end = t->end;
    for (int i = 0; i < 7; i++) free(seen[i]);
}
/* 9, 10, 11, and the order of the gates */
static void settle(Model *m) {
    size_t n = (size_t)m->M + 1;
    u8 *def = zeros(n, 1);
    u32 twice = UINT32_MAX;
#define DEFINE(l) do { u32 v_ = (l) >> 1; if (def[v_]) { if (v_ < twice) twice = v_; } def[v_] = 1; } while (0)
    for (u32 i = 0; i < m->I; i++) DEFINE(m->inputs[i]);
    for (u32 i = 0; i < m->L; i++) DEFINE(m->latches[i].lit);
    for (u32 i = 0; i < m->A; i++) DEFINE(m->gates[i].lhs);
    if (twice != UINT32_MAX) no(9);
    def[0] = 1;
#define USE(l) do { if (!def[(l) >> 1]) no(10); } while (0)
    for (u32 i = 0; i < m->L; i++) USE(m->latches[i].next);
    for (u32 i = 0; i < m->O; i++) USE(m->outputs[i]);
    for (u32 i = 0; i < m->B; i++) USE(m->bad[i]);
    for (u32 i = 0; i < m->C; i++) USE(m->constraints[i]);
    for (u32 i = 0; i < m->njustice; i++) USE(m->justice[i]);
    for (u32 i = 0; i < m->F; i++) USE(m->fairness[i]);
    for (u32 i = 0; i < m->A; i++) { USE(m->gates[i].rhs0); USE(m->gates[i].rhs1); }
    /* In the file's order already? */
    memset(def, 1, n);
    for (u32 i = 0; i < m->A; i++) def[m->gates[i].lhs >> 1] = 0;
    u32 i = 0;
    for (; i < m->A; i++) {
        Gate g = m->gates[i];
        if (!def[g.rhs0 >> 1] || !def[g.rhs1 >> 1]) break;
        def[g.lhs >> 1] = 1;
    }
    free(def);
    if (i == m->A) return;
    /* depth first, without recursion */
    u32 *at = room(n * sizeof(u32)), *stack = room(((size_t)m->A + 1) * sizeof(u32));
    memset(at, 0xff, n * sizeof(u32));
    for (u32 k = 0; k < m->A; k++) at[m->gates[k].lhs >> 1] = k;
    u8 *color = zeros(m->A, 1);
    m->order = room((size_t)m->A * sizeof(u32));
    u32 done = 0;
    for (u32 k = 0; k < m->A; k++) {
        if (color[k]) continue;
        u32 sp = 0;
        stack[sp++] = k;
        color[k] = 1;
        while (sp) {
            Gate g = m->gates[stack[sp - 1]];
            u32 a = at[g.rhs0 >> 1], b = at[g.rhs1 >> 1], next = UINT32_MAX;
            if (a != UINT32_MAX && color[a] != 2) next = a;
            else if (b != UINT32_MAX && color[b] != 2) next = b;
            if (next == UINT32_MAX) {
                color[stack[sp - 1]] = 2;
                m->order[done++] = stack[--sp];
            } else {
                if (color[next] == 1) no(11);
                color[next] = 1;
                stack[sp++] = next;
            }
        }
    }
    free(at), free(stack), free(color);
}
static Model read_model(Text *t) {
    Model m = {0};
    size_t size = (size_t)(t->end - t->p);
    if (size > TEXT_MOST) no(1);
    int binary = size > 1 && t->p[1] == 'i';
    u32 *counts[9] = {&m.M, &m.I, &m.L, &m.O, &m.A, &m.B, &m.C, &m.J, &m.F};
    header(t, binary, counts);
    size_t cap = 0;
    if (binary) {
        m.inputs = room((size_t)m.I * sizeof(u32));
        for (u32 i = 0; i < m.I; i++) m.inputs[i] = 2 * (i + 1);
    } else {
        for (u32 i = 0; i < m.I; i++) {
            m.inputs = grown(m.inputs, i, &cap, sizeof(u32));
            m.inputs[i] = defining(t, m.M);
            byte(t, '\n', 5);
        }
    }
    cap = 0;
    for (u32 i = 0; i < m.L; i++) {
        m.latches = grown(m.latches, i, &cap, sizeof(Latch));
        m.latches[i] = read_latch(t, m.M, binary ? 2 * (m.I + 1 + i) : 0);
    }
    m.outputs = lits(t, m.M, m.O);
    m.bad = lits(t, m.M, m.B);
    m.constraints = lits(t, m.M, m.C);
    List sizes = {0};
    for (u32 i = 0; i < m.J; i++) {
        u32 k = number(t, MOST - m.njustice, 3, 4);
        byte(t, '\n', 5);
        m.njustice += k;
        push(&sizes, k);
    }
    m.sizes = sizes.at;
    m.justice = lits(t, m.M, m.njustice);
    m.fairness = lits(t, m.M, m.F);
    cap = 0;
    for (u32 i = 0; i < m.A; i++) {
        m.gates = grown(m.gates, i, &cap, sizeof(Gate));
        m.gates[i] = read_gate(t, m.M, binary ? 2 * (m.I + m.L + 1 + i) : 0);
    }
    symbols(t, &m);
    if (!binary) settle(&m);
    return m;
}

/* ---- liveness to safety: the shadow circuit ---- */
static Model shadow(const Model *m, u32 j) {
    u32 first = 0;
    for (u32 i = 0; i < j; i++) first += m->sizes[i];
    u32 own = m->sizes[j], K = own + m->F, L = m->L, M = m->M;
    if ((u64)M + 4 + 8 * (u64)L + 4 * (u64)K > MOST) no(4);
    Model s = {0};
    s.M = M + 4 + 8 * L + 4 * K;
    s.I = m->I + 1, s.L = L + 1 + L + K, s.B = 1, s.C = m->C, s.A = m->A + 2 + 6 * L + 2 * K + L + K;
    s.inputs = room((size_t)s.I * sizeof(u32));
    memcpy(s.inputs, m->inputs, (size_t)m->I * sizeof(u32));
    u32 save = 2 * (M + 1), saved = 2 * (M + 2), sh = 2 * (M + 3), seen = 2 * (M + 3 + L), next = 2 * (M + 3 + L + K);
    s.inputs[m->I] = save;
    s.constraints = m->constraints;
    s.latches = room((size_t)s.L * sizeof(Latch));
    s.gates = room((size_t)s.A * sizeof(Gate));
    memcpy(s.latches, m->latches, (size_t)L * sizeof(Latch));
    memcpy(s.gates, m->gates, (size_t)m->A * sizeof(Gate));
    u32 nl = L, ng = m->A;
#define GATE(a, b) (s.gates[ng++] = (Gate){next, (a), (b)}, next += 2, next - 2)
    u32 *es = room(((size_t)L + 1) * sizeof(u32));
    u32 start = GATE(save, saved ^ 1), ns = GATE(save ^ 1, saved ^ 1);
    s.latches[nl++] = (Latch){saved, ns ^ 1, 0};
    for (u32 i = 0; i < L; i++) {
        u32 l = m->latches[i].lit, x = sh + 2 * i;
        u32 a = GATE(start, l), b = GATE(start ^ 1, x), n = GATE(a ^ 1, b ^ 1);
        u32 e1 = GATE(l, x ^ 1), e2 = GATE(l ^ 1, x);
        es[i] = GATE(e1 ^ 1, e2 ^ 1);
        s.latches[nl++] = (Latch){x, n ^ 1, 0};
    }
    for (u32 k = 0; k < K; k++) {
        u32 q = k < own ? m->justice[first + k] : m->fairness[k - own];
        u32 u = GATE((seen + 2 * k) ^ 1, q ^ 1), v = GATE(ns ^ 1, u ^ 1);
        s.latches[nl++] = (Latch){seen + 2 * k, v, 0};
    }
    u32 chain = saved;
    for (u32 i = 0; i < L; i++) chain = GATE(chain, es[i]);
    for (u32 k = 0; k < K; k++) chain = GATE(chain, seen + 2 * k);
    free(es);
    s.bad = room(sizeof(u32));
    s.bad[0] = chain;
    return s;
}

/* ---- clauses ---- */
/* A clause lies in the arena as its length and its literals. Ids up to DIRECT are looked up in a table of
 * places (0: absent); greater ones, which only a strange certificate has, by binary search. */
#define DIRECT (1u << 27)
static List arena;
static u32 *place;           /* by id */
static size_t places;
typedef struct { u32 id, at; } Far;
static Far *far_ids;
static size_t nfar, far_cap;
static u32 top, mark;        /* greatest id so far; greatest of the base */
static size_t arena_mark;
static Far *hidden;          /* base clauses that a section deleted */
static size_t nhidden, hidden_cap;

static inline u32 *where(u32 id) {
    if (id < places) return &place[id];
    if (id >= DIRECT) {
        size_t lo = 0, hi = nfar;
        while (lo < hi) {
            size_t mid = (lo + hi) / 2;
            if (far_ids[mid].id < id) lo = mid + 1; else hi = mid;
        }
        if (lo < nfar && far_ids[lo].id == id) return &far_ids[lo].at;
    }
    return NULL;
}
static void put_id(u32 id) {
    if (arena.len > UINT32_MAX) fault("out of memory");
    if (id < DIRECT) {
        if (id >= places) {
            size_t more = places ? 2 * places : 1024;
            while (more <= id) more *= 2;
            place = regrow(place, more * sizeof(u32));
            memset(place + places, 0, (more - places) * sizeof(u32));
            places = more;
        }
        place[id] = (u32)arena.len;
    } else {
        far_ids = grown(far_ids, nfar, &far_cap, sizeof(Far));
        far_ids[nfar++] = (Far){id, (u32)arena.len};
    }
    top = id;
}
static void add(u32 id, const u32 *l, size_t n) {
    put_id(id);
    push(&arena, (u32)n);
    for (size_t i = 0; i < n; i++) push(&arena, l[i]);
}
static void base_begin(const Model *m) {
    if (!arena.len) push(&arena, 0);
    arena.len = 1;
    if (places) memset(place, 0, places * sizeof(u32));
    nfar = 0, top = 0;
    vars = m->M + 1;
    if (!val) val = zeros(2 * ((size_t)vars + 1), 1);
}
static void base_end(void) { mark = top, arena_mark = arena.len; }
static inline u32 cnf(const Model *m, u32 l) { return l > 1 ? l : 2 * (m->M + 1) + (l ^ 1); }
static void unit(u32 l) { add(top + 1, &l, 1); }

/* one line of a section over; a section begins anew at the base */
static List own_ids; /* own ids in use */
static void rewind_section(void) {
    for (size_t i = 0; i < own_ids.len; i++) place[own_ids.at[i]] = 0;
    own_ids.len = 0;
    nfar = 0;
    while (nhidden) { nhidden--; *where(hidden[nhidden].id) = hidden[nhidden].at; }
    arena.len = arena_mark;
    top = mark;
}
static void own(u32 id, const u32 *l, size_t n) {
    add(id, l, n);
    if (id < DIRECT) push(&own_ids, id);
}

static inline const u32 *clause_at(u32 id) {
    u32 *w = where(id);
    return w && *w ? arena.at + *w : NULL;
}

/* ---- certificates ---- */
static int refusal;  /* the first cause of the check */
static int closed;

static void take_out(u32 id) {
    u32 *w = where(id);
    if (!w || !*w) { refusal = 40; return; }
    if (id <= mark) {
        hidden = grown(hidden, nhidden, &hidden_cap, sizeof(Far));
        hidden[nhidden++] = (Far){id, *w};
    }
    *w = 0;
}
static inline u32 magnitude(Text *t, u64 most, int *negative) {
    *negative = 0;
    if (t->p < t->end && *t->p == '-') {
        if (t->p + 1 == t->end) no(6);
        if (t->p[1] < '1' || t->p[1] > '9') no(3);
        t->p++;
        *negative = 1;
    }
    return number(t, most, 3, 3);
}
static void proof_line(Text *t) {
    u32 id = number(t, UINT32_MAX, 3, 3);
    if (id == 0) no(3);
    byte(t, ' ', 5);
    if (t->p < t->end && *t->p == 'd') {
        t->p++;
        byte(t, ' ', 5);
        if (!refusal && closed) refusal = 50;
        for (;;) {
            u32 x = number(t, UINT32_MAX, 3, 3);
            if (x == 0) break;
            byte(t, ' ', 5);
            if (!refusal) take_out(x);
        }
        byte(t, '\n', 5);
        return;
    }
    int negative, any = 0;
    clause.len = hints.len = 0;
    for (;;) {
        u32 x = magnitude(t, INT32_MAX, &negative);
        byte(t, ' ', 5);
        if (x == 0) break;
        push(&clause, 2 * x + (u32)negative);
    }
    for (;;) {
        u32 x = magnitude(t, UINT32_MAX, &negative);
        if (x == 0) break;
        byte(t, ' ', 5);
        any |= negative;
        push(&hints, x);
    }
    byte(t, '\n', 5);
    if (refusal) return;
    if (closed) refusal = 50;
    else if (id <= top) refusal = 41;
    else if (any) refusal = 47;
    else {
        refusal = derive();
        if (!refusal) {
            own(id, clause.at, clause.len);
            closed = clause.len == 0;
        }
    }
}
static void section(Text *t, u8 letter) {
    byte(t, letter, 72);
    byte(t, '\n', 5);
    closed = 0;
    for (;;) {
        if (t->p == t->end) no(6);
        if (*t->p == '.') break;
        proof_line(t);
    }
    t->p++;
    byte(t, '\n', 5);
    if (!refusal && !closed) refusal = 49;
    if (!refusal) rewind_section();
}
static void property(Text *t, u8 *letter, u32 *n, u8 end) {
    if (t->p == t->end) no(end ? 84 : 6);
    int wrong = end ? 81 : 71;
    *letter = *t->p++;
    if (*letter != 'b' && *letter != 'j') no(wrong);
    if (end && t->p == t->end) no(84);
    *n = number(t, UINT32_MAX, wrong, wrong);
    if (t->p == t->end) no(end ? 84 : 6);
    byte(t, '\n', wrong);
}
static void safe(const char *file, const char *cert) {
    Text ft = slurp(file);
    Model given = read_model(&ft), *m = &given, sh;
    free(ft.start);
    Text t = slurp(cert);
    for (const char *tag = "aigcert 1\n"; *tag; tag++) byte(&t, (u8)*tag, 70);
    u8 letter;
    u32 n;
    property(&t, &letter, &n, 0);
    u32 bad = 0;
    if (letter == 'b') {
        if (n >= m->B) refusal = 30; else bad = m->bad[n];
    } else {
        if (n >= m->J) refusal = 30;
        else if ((u64)m->M + 4 + 8 * (u64)m->L + 4 * ((u64)m->sizes[n] + m->F) > MOST) refusal = 4;
        else {
            sh = shadow(m, n);
            m = &sh;
            bad = m->bad[0];
        }
    }
    /* the invariant, as lengths and AIGER literals */
    List inv = {0};
    u32 count = number(&t, MOST, 3, 3);
    byte(&t, '\n', 5);
    for (u32 i = 0; i < count; i++) {
        u32 k = number(&t, MOST, 3, 3);
        push(&inv, k);
        while (k--) {
            byte(&t, ' ', 5);
            push(&inv, number(&t, UINT32_MAX, 3, 3));
        }
        byte(&t, '\n', 5);
    }
    u32 *next = NULL; /* of each latch's variable, else 1 << 31 */
    if (!refusal) {
        next = room(((size_t)m->M + 1) * sizeof(u32));
        for (size_t v = 0; v <= m->M; v++) next[v] = UINT32_MAX;
        for (u32 i = 0; i < m->L; i++) next[m->latches[i].lit >> 1] = m->latches[i].next;
        u8 *seen = zeros(2 * ((size_t)m->M + 1), 1);
        for (size_t at = 0; at < inv.len && !refusal; at += inv.at[at] + 1) {
            u32 k = inv.at[at], i = 1;
            for (; i <= k; i++) {
                u32 l = inv.at[at + i];
                if (l >> 1 > m->M || next[l >> 1] == UINT32_MAX) { refusal = 32; break; }
                if (seen[l] | seen[l ^ 1]) { refusal = 33; break; }
                seen[l] = 1;
            }
            while (--i) seen[inv.at[at + i]] = 0;
        }
        free(seen);
    }
    if (!refusal) {
        base_begin(m);
        unit(2 * (m->M + 1));
        for (u32 i = 0; i < m->L; i++)
            if (m->latches[i].reset < 2) unit(m->latches[i].lit ^ (m->latches[i].reset ^ 1));
        base_end();
    }
    size_t at = 0;
    for (u32 i = 0; i < count; i++, at += inv.at[at] + 1) {
        if (!refusal) for (u32 k = 1; k <= inv.at[at]; k++) { unit(inv.at[at + k] ^ 1); push(&own_ids, top); }
        section(&t, 'i');
    }
    if (!refusal) {
        base_begin(m);
        unit(2 * (m->M + 1));
        for (u32 i = 0; i < m->A; i++) {
            u32 x = m->gates[i].lhs, a = cnf(m, m->gates[i].rhs0), b = cnf(m, m->gates[i].rhs1);
            add(top + 1, (u32[]){x ^ 1, a}, 2);
            add(top + 1, (u32[]){x ^ 1, b}, 2);
            add(top + 1, (u32[]){x, a ^ 1, b ^ 1}, 3);
        }
        for (u32 i = 0; i < m->C; i++) unit(cnf(m, m->constraints[i]));
        for (at = 0; at < inv.len; at += inv.at[at] + 1) add(top + 1, inv.at + at + 1, inv.at[at]);
        base_end();
    }
    at = 0;
    for (u32 i = 0; i < count; i++, at += inv.at[at] + 1) {
        if (!refusal)
            for (u32 k = 1; k <= inv.at[at]; k++) {
                u32 l = inv.at[at + k];
                unit(cnf(m, next[l >> 1] ^ (l & 1)) ^ 1);
                push(&own_ids, top);
            }
        section(&t, 's');
    }
    if (!refusal) { unit(cnf(m, bad)); push(&own_ids, top); }
    section(&t, 'b');
    if (t.p != t.end) no(72);
    if (refusal) no(refusal);
    printf("yes safe %c%u\n", letter, n);
}

/* ---- stimuli ---- */
typedef struct { u8 status, letter; u32 property; const u8 *initial; size_t ninitial; List at; List len; const u8 *base; } Stim;

static Stim read_stim(Text *t) {
    Stim s = {0};
    s.base = t->p;
    if (t->p == t->end) no(84);
    s.status = *t->p++;
    if (s.status < '0' || s.status > '2') no(80);
    if (t->p == t->end) no(84);
    if (*t->p++ != '\n') no(80);
    property(t, &s.letter, &s.property, 84);
    int first = s.status == '1';
    for (;;) {
        if (t->p == t->end) no(84);
        if (!first && *t->p == '.') {
            t->p++;
            if (t->p == t->end) no(84);
            if (*t->p++ != '\n') no(83);
            break;
        }
        if (s.status != '1') no(83);
        const u8 *b = t->p;
        while (t->p < t->end && (*t->p == '0' || *t->p == '1')) t->p++;
        if (t->p == t->end) no(84);
        if (*t->p != '\n') no(83);
        if (first) s.initial = b, s.ninitial = (size_t)(t->p - b), first = 0;
        else push(&s.at, (u32)(b - s.base)), push(&s.len, (u32)(t->p - b));
        t->p++;
    }
    if (t->p != t->end) no(85);
    return s;
}
static u8 *value; /* of each variable */
static u8 *state;
static inline u8 of(u32 l) { return value[l >> 1] ^ (l & 1); }
static void evaluate(const Model *m, const u8 *in) {
    for (u32 i = 0; i < m->L; i++) value[m->latches[i].lit >> 1] = state[i];
    for (u32 i = 0; i < m->I; i++) value[m->inputs[i] >> 1] = in[i] & 1;
    u8 *v = value;
    const Gate *g = m->gates;
    for (u32 i = 0; i < m->A; i++) {
        const Gate *x = m->order ? &g[m->order[i]] : &g[i];
        v[x->lhs >> 1] = (v[x->rhs0 >> 1] ^ (x->rhs0 & 1)) & (v[x->rhs1 >> 1] ^ (x->rhs1 & 1));
    }
    for (u32 i = 0; i < m->L; i++) state[i] = of(m->latches[i].next);
}
static void start_replay(const Model *m, const Stim *s, int property_too) {
    if (s->status != '1') no(65);
    if (property_too && s->property >= (s->letter == 'b' ? m->B : m->J)) no(30);
    if (s->ninitial != m->L) no(66);
    for (size_t i = 0; i < s->len.len; i++) if (s->len.at[i] != m->I) no(66);
    if (!s->at.len) no(64);
    for (u32 i = 0; i < m->L; i++) if (m->latches[i].reset < 2 && m->latches[i].reset != (s->initial[i] & 1u)) no(60);
    value = zeros((size_t)m->M + 1, 1);
    state = room(m->L);
    for (u32 i = 0; i < m->L; i++) state[i] = s->initial[i] & 1;
}
static void run(const char *file, const char *stim) {
    Text ft = slurp(file);
    Model m = read_model(&ft);
    free(ft.start);
    Text t = slurp(stim);
    Stim s = read_stim(&t);
    start_replay(&m, &s, 1);
    size_t T = s.at.len, width = (m.L + 63) / 64;
    int lasso = s.letter == 'j';
    u64 *states = lasso ? zeros((T + 1) * width, 8) : NULL;
    u32 first = 0, own = 0;
    size_t *last = NULL;
    if (lasso) {
        for (u32 i = 0; i < s.property; i++) first += m.sizes[i];
        own = m.sizes[s.property];
        last = zeros(own + m.F, sizeof(size_t));
    }
    for (size_t i = 0; i < T; i++) {
        if (lasso) for (u32 k = 0; k < m.L; k++) states[i * width + k / 64] |= (u64)state[k] << (k % 64);
        evaluate(&m, s.base + s.at.at[i]);
        for (u32 k = 0; k < m.C; k++) if (!of(m.constraints[k])) no(61);
        if (lasso)
            for (u32 k = 0; k < own + m.F; k++)
                if (of(k < own ? m.justice[first + k] : m.fairness[k - own])) last[k] = i + 1;
    }
    if (!lasso) {
        if (!of(m.bad[s.property])) no(62);
    } else {
        size_t least = T;
        for (u32 k = 0; k < own + m.F; k++) if (last[k] < least) least = last[k];
        for (u32 k = 0; k < m.L; k++) states[T * width + k / 64] |= (u64)state[k] << (k % 64);
        size_t i = 0;
        while (i < least && memcmp(states + i * width, states + T * width, 8 * width)) i++;
        if (i == least) no(63);
    }
    printf("yes run %c%u\n", s.letter, s.property);
}
static void digits(char **p, u32 n) {
    if (!n) *(*p)++ = '-';
}
static void sim(const char *file, const char *stim) {
    Text ft = slurp(file);
    Model m = read_model(&ft);
    Text t = slurp(stim);
    Stim s = read_stim(&t);
    start_replay(&m, &s, 0);
    setvbuf(stdout, NULL, _IOFBF, 1 << 16);
    char *line = room((size_t)m.L + m.I + m.O + m.B + 64);
    for (size_t i = 0; i <= s.at.len; i++) {
        char *p = line + sprintf(line, "%zu ", i);
        for (u32 k = 0; k < m.L; k++) *p++ = '0' + state[k];
        digits(&p, m.L);
        if (i < s.at.len) {
            const u8 *in = s.base + s.at.at[i];
            *p++ = ' ';
            memcpy(p, in, m.I);
            p += m.I;
            digits(&p, m.I);
            evaluate(&m, in);
            *p++ = ' ';
            for (u32 k = 0; k < m.O; k++) *p++ = '0' + of(m.outputs[k]);
            digits(&p, m.O);
            *p++ = ' ';
            for (u32 k = 0; k < m.B; k++) *p++ = '0' + of(m.bad[k]);
            digits(&p, m.B);
        }
        *p++ = '\n';
        fwrite(line, 1, (size_t)(p - line), stdout);
    }
}

/* ---- writing ---- */
static FILE *out;
static u8 buffer[1 << 16];
static size_t used;
static void flush(void) { if (fwrite(buffer, 1, used, out) != used) fault("read or write failed"); used = 0; }
static inline void putb(u8 b) { if (used == sizeof buffer) flush(); buffer[used++] = b; }
static inline void putn(u32 x, u8 end) {
    u8 d[10];
    int n = 0;
    do d[n++] = '0' + x % 10; while (x /= 10);
    if (used + 11 > sizeof buffer) flush();
    while (n) buffer[used++] = d[--n];
    buffer[used++] = end;
}
static inline void putd(u32 x) { while (x > 127) putb((u8)(x | 0x80)), x >>= 7; putb((u8)x); }
static void convert(const char *file, const char *name) {
    Text t = slurp(file);
    Model m = read_model(&t);
    size_t len = strlen(name);
    int binary = len > 4 && !strcmp(name + len - 4, ".aig");
    if (binary) {
        for (u32 i = 0; i < m.I; i++) if (m.inputs[i] != 2 * (i + 1)) fault("not ordered");
        for (u32 i = 0; i < m.L; i++) if (m.latches[i].lit != 2 * (m.I + i + 1)) fault("not ordered");
        for (u32 i = 0; i < m.A; i++) {
            Gate g = m.gates[i];
            if (g.lhs != 2 * (m.I + m.L + i + 1) || g.rhs0 >= g.lhs || g.rhs1 > g.rhs0) fault("not ordered");
        }
        if (m.M != m.I + m.L + m.A) fault("not ordered");
    }
    out = fopen(name, "wb");
    if (!out) fault("read or write failed");
    u32 counts[9] = {m.M, m.I, m.L, m.O, m.A, m.B, m.C, m.J, m.F};
    int n = 9;
    while (n > 5 && !counts[n - 1]) n--;
    putb('a'), putb(binary ? 'i' : 'a'), putb('g'), putb(' ');
    for (int i = 0; i < n; i++) putn(counts[i], i + 1 < n ? ' ' : '\n');
    if (!binary) for (u32 i = 0; i < m.I; i++) putn(m.inputs[i], '\n');
    for (u32 i = 0; i < m.L; i++) {
        if (!binary) putn(m.latches[i].lit, ' ');
        putn(m.latches[i].next, m.latches[i].reset ? ' ' : '\n');
        if (m.latches[i].reset) putn(m.latches[i].reset, '\n');
    }
    for (u32 i = 0; i < m.O; i++) putn(m.outputs[i], '\n');
    for (u32 i = 0; i < m.B; i++) putn(m.bad[i], '\n');
    for (u32 i = 0; i < m.C; i++) putn(m.constraints[i], '\n');
    for (u32 i = 0; i < m.J; i++) putn(m.sizes[i], '\n');
    for (u32 i = 0; i < m.njustice; i++) putn(m.justice[i], '\n');
    for (u32 i = 0; i < m.F; i++) putn(m.fairness[i], '\n');
    for (u32 i = 0; i < m.A; i++) {
        Gate g = m.gates[i];
        if (binary) putd(g.lhs - g.rhs0), putd(g.rhs0 - g.rhs1);
        else putn(g.lhs, ' '), putn(g.rhs0, ' '), putn(g.rhs1, '\n');
    }
    for (const u8 *p = m.tail; p < m.tail_end; p++) putb(*p);
    flush();
    if (fclose(out)) fault("read or write failed");
}

int main(int argc, char **argv) {
    if (argc != 4) fault("safe FILE CERT | run FILE STIM | sim FILE STIM | convert FILE OUT");
    if (!strcmp(argv[1], "safe")) safe(argv[2], argv[3]);
    else if (!strcmp(argv[1], "run")) run(argv[2], argv[3]);
    else if (!strcmp(argv[1], "sim")) sim(argv[2], argv[3]);
    else if (!strcmp(argv[1], "convert")) convert(argv[2], argv[3]);
    else fault("no such command");
    return 0;
}
