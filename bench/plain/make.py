#!/usr/bin/env python3
"""make.py KIND SIZE FOLDER: large inputs for measuring. It writes KIND-SIZE.aag/.aig and .cert/.stim.

clauses N   N latches, each keeps its value, N clauses `not latch`: 2N+1 sections of a line or two (short sections)
lines N     one latch; the b section has N lines `ID 2 0 1 0`-like lemmas before the empty clause
hints N     a gate chain; each line of the b section has a chain of N/.. hints: N lines of 3,000 hints
gates N     N gates over 100 inputs, a tiny certificate; binary and ASCII
justice N   N latches that keep their values, a justice property that is never set; clauses on the shadow circuit
stim N      N lines over a circuit of 100,000 gates, 64 inputs, 1,000 latches
wide N      N gates over 49 inputs: 4,000,000 stay below 64 MiB in ASCII
"""
import random, sys, os

kind, size, folder = sys.argv[1], int(sys.argv[2]), sys.argv[3]
base = os.path.join(folder, f"{kind}-{size}")


def delta(x):
    out = bytearray()
    while x > 127:
        out.append(x & 127 | 128)
        x >>= 7
    out.append(x)
    return out


def both(header, latches, singles, gates):
    """An ordered circuit in both layouts; the singles are the lists of literals between latches and gates."""
    M, I, L = header[0], header[1], header[2]
    words = " ".join(map(str, header))
    with open(base + ".aag", "w") as f:
        f.write(f"aag {words}\n")
        f.write("".join(f"{2*(i+1)}\n" for i in range(I)))
        f.write("".join(f"{2*(I+1+i)} {n}\n" for i, n in enumerate(latches)))
        f.write("".join(f"{x}\n" for x in singles))
        f.write("".join(f"{2*(I+L+1+i)} {a} {b}\n" for i, (a, b) in enumerate(gates)))
    with open(base + ".aig", "wb") as f:
        f.write(f"aig {words}\n".encode())
        f.write("".join(f"{n}\n" for n in latches).encode())
        f.write("".join(f"{x}\n" for x in singles).encode())
        out = bytearray()
        for i, (a, b) in enumerate(gates):
            lhs = 2 * (I + L + 1 + i)
            out += delta(lhs - a) + delta(a - b)
        f.write(out)


def random_gates(r, I, L, A, window):
    gates = []
    first = I + L + 1
    for i in range(A):
        v = first + i
        lo = max(1, v - window)
        a, b = r.randrange(lo, v), r.randrange(lo, v)
        while b == a:
            b = r.randrange(lo, v)
        a, b = 2 * max(a, b) + r.randrange(2), 2 * min(a, b) + r.randrange(2)
        gates.append((a, b))
    return gates


if kind == "clauses":
    n = size
    both([n, 0, n, 0, 0, 1], [2 * (i + 1) for i in range(n)], [2 * n], [])
    with open(base + ".cert", "w") as f:
        f.write(f"aigcert 1\nb0\n{n}\n")
        f.write("".join(f"1 {2*(i+1)+1}\n" for i in range(n)))
        # i: ids 1 truth, 2.. resets (n of them), then the unit n+2
        f.write("".join(f"i\n{n+3} 0 {i+2} {n+2} 0\n.\n" for i in range(n)))
        # s: 1 truth, 2..n+1 the clauses, unit n+2
        f.write("".join(f"s\n{n+3} 0 {i+2} {n+2} 0\n.\n" for i in range(n)))
        f.write(f"b\n{n+3} 0 {n+1} {n+2} 0\n.\n")
elif kind == "lines":
    # latch 2 keeps; another ten inputs; the base of b: 1 truth (M+1), 2 clause (-1), 3 unit (1)
    n = size
    both([12, 11, 1, 0, 0, 1], [24], [24], [])
    r = random.Random(1)
    with open(base + ".cert", "w") as f:
        f.write("aigcert 1\nb0\n1\n1 25\ni\n4 0 2 3 0\n.\ns\n4 0 2 3 0\n.\nb\n")
        # lemma (x y -12) is a consequence of clause 2 = (-12): hint 2 is false at once
        out = []
        for i in range(n - 1):
            x, y = r.randrange(1, 6) * r.choice((1, -1)), r.randrange(6, 12) * r.choice((1, -1))
            out.append(f"{4+i} {x} {y} -12 0 {2 if i < 10 else 2} 0\n")
        f.write("".join(out))
        f.write(f"{n+3} 0 2 3 0\n.\n")
elif kind == "hints":
    # a chain of K gates g_k = g_(k-1) and x: bad at its end, constraint not x. The line derives (-g_0.. ) by K hints
    K, n = 3000, size
    # latch l keeps; inputs K; gates g_k = g_(k-1) & in_k; g_0 = latch
    I, L = K, 1
    gates = []
    prev = 2 * (I + 1)
    for k in range(K):
        lhs = 2 * (I + L + 1 + k)
        gates.append((prev, 2 * (k + 1)))
        prev = lhs
    both([I + L + K, I, L, 0, K, 1], [2 * (I + 1)], [prev], gates)
    last = I + L + K
    with open(base + ".cert", "w") as f:
        f.write(f"aigcert 1\nb0\n1\n1 {2*(I+1)+1}\ni\n4 0 2 3 0\n.\n")
        u = 3 * K + 3
        f.write(f"s\n{u+1} 0 {3*K+2} {u} 0\n.\nb\n")
        # lemma: (-g_K  -x_r) for changing r ... supposed g_K true: clause (-g_k g_(k-1)) gives g_(k-1) down to the latch
        down = " ".join(str(2 + 3 * k) for k in range(K - 1, -1, -1)) + f" {3*K+2}"
        r = random.Random(2)
        for i in range(n):
            extra = r.randrange(1, K + 1)
            f.write(f"{u+1+i} -{last} -{extra} 0 {down} 0\n")
        f.write(f"{u+1+n} 0 {u} {down} 0\n.\n")
elif kind == "gates":
    r = random.Random(3)
    I, A = 100, size
    gates = random_gates(r, I, 0, A, 5000 if A <= 2500000 else 100)
    both([I + A, I, 0, 0, A, 1, 1], [], [2 * (I + A), 2 * (I + A) + 1], gates)
    with open(base + ".cert", "w") as f:
        n = 3 * A + 1  # truth and gates; then the constraint n+1 (-bad), the unit n+2
        f.write(f"aigcert 1\nb0\n0\nb\n{n+3} 0 {n+1} {n+2} 0\n.\n")
elif kind == "justice":
    n = size
    # latches keep; wanted: latch 0 (always 0). Invariant of the shadow circuit: not l0, not seen.
    M, L = n, n
    with open(base + ".aag", "w") as f:
        f.write(f"aag {n} 0 {n} 0 0 0 0 1\n")
        f.write("".join(f"{2*(i+1)} {2*(i+1)}\n" for i in range(n)))
        f.write("1\n2\n")
    seen = 2 * (M + 3 + L)
    G = 2 + 6 * L + 2 + L + 1
    first = M + 3 + L + 1  # first gate variable
    # clause ids: 1 truth; gate k (from 0) has 2+3k..4+3k
    u_gate, v_gate = 2 + 6 * L, 3 + 6 * L
    last = G - 1
    inv = 3 * G + 2
    with open(base + ".cert", "w") as f:
        f.write(f"aigcert 1\nj0\n{n+1}\n")
        f.write("".join(f"1 {2*(i+1)+1}\n" for i in range(n)))
        f.write(f"1 {seen+1}\n")
        lat = 2 * L + 2  # latches: n old, saved, n shadow, seen -> resets 2..(2n+3)
        unit = lat + 2
        for i in range(n):
            f.write(f"i\n{unit+1} 0 {i+2} {unit} 0\n.\n")
        f.write(f"i\n{unit+1} 0 {lat+1} {unit} 0\n.\n")
        unit = inv + n + 1
        for i in range(n):
            f.write(f"s\n{unit+1} 0 {inv+i} {unit} 0\n.\n")
        # next of seen is v = not ns and not u; u = not seen and not q
        f.write(f"s\n{unit+1} 0 {unit} {2+3*v_gate+1} {inv} {inv+n} {2+3*u_gate+2} 0\n.\n")
        f.write(f"b\n{unit+1} 0 {inv+n} {unit} {2+3*last+1} 0\n.\n")
elif kind in ("stim", "stimj"):
    r = random.Random(5)
    I, L, A = 64, 1000, int(sys.argv[4]) if len(sys.argv) > 4 else 100000
    gates = random_gates(r, I, L, A, 3000)
    nexts = [2 * r.randrange(1, I + L + A + 1) + r.randrange(2) for _ in range(L)]
    if kind == "stim":
        both([I + L + A, I, L, 2, A, 1], nexts, [2 * (I + L + A), 2 * (I + L + A) - 1, 1], gates)
    else:
        both([I + L + A, I, L, 2, A, 0, 0, 1], [0] * L, [2 * (I + L + A), 2 * (I + L + A) - 1, 1, 1], gates)
    with open(base + ".stim", "w") as f:
        f.write(f"1\n{'b0' if kind == 'stim' else 'j0'}\n" + "0" * L + "\n")
        for i in range(size):
            f.write(format(r.getrandbits(I), f"0{I}b") + "\n")
        f.write(".\n")
elif kind == "wide":
    # N gates over 49 inputs alone: 4,000,000 of them stay below 64 MiB in ASCII
    r = random.Random(7)
    I, A = 49, size
    gates = [tuple(sorted((2 * r.randrange(1, 50) + r.randrange(2), 2 * r.randrange(1, 50) + r.randrange(2)), reverse=True)) for _ in range(A)]
    both([I + A, I, 0, 0, A, 1, 1], [], [2 * (I + A), 2 * (I + A) + 1], gates)
    with open(base + ".cert", "w") as f:
        n = 3 * A + 1
        f.write(f"aigcert 1\nb0\n0\nb\n{n+3} 0 {n+1} {n+2} 0\n.\n")
