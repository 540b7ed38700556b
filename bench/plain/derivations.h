/* What the plain C checkers share of a derivation: unit propagation along the hints of a line. */

static u32 vars;  /* the greatest variable of a clause */
static u8 *val;   /* by literal, whether it is held true */
static List trail, clause, hints;

/* The clause with the id, as its length and its literals, or nothing. The program has it. */
static inline const u32 *clause_at(u32 id);

static inline void hold(u32 l) {
    val[l] = 1;
    push(&trail, l);
}
/* What is left of a clause: 0 nothing, 1 several, else the one literal. */
static inline u32 look(const u32 *c) {
    u32 n = *c++, left = 0;
    for (u32 i = 0; i < n; i++) {
        u32 l = c[i];
        if (val[l ^ 1]) continue;
        if (left == 0) left = l;
        else if (left != l) return 1;
    }
    return left;
}
static inline int follow(void) {
    for (size_t i = 0; i < clause.len; i++) {
        u32 l = clause.at[i];
        if (l >> 1 > vars) return 51;
        if (val[l] | val[l ^ 1]) return 48;
        hold(l ^ 1);
    }
    if (!hints.len) return 46;
    for (size_t i = 0;; i++) {
        const u32 *c = clause_at(hints.at[i]);
        if (!c) return 40;
        u32 l = look(c);
        if (i + 1 == hints.len) return l == 0 ? 0 : 44;
        if (l == 0) return 45;
        if (l == 1) return 42;
        if (val[l]) return 43;
        hold(l);
    }
}
/* Whether the hints show the clause: 0, or the number of the refusal. Nothing is held behind it. */
static inline int derive(void) {
    int answer = follow();
    for (size_t i = 0; i < trail.len; i++) val[trail.at[i]] = 0;
    trail.len = 0;
    return answer;
}
