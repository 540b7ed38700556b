"""Generated circuits: families by size, some with a violation and some without."""


class Circuit:
    """A circuit in the making, in ASCII AIGER."""

    def __init__(self):
        self.variables = 0
        self.inputs, self.latches, self.gates = [], [], []

    def variable(self):
        self.variables += 1
        return 2 * self.variables

    def add_input(self):
        self.inputs.append(self.variable())
        return self.inputs[-1]

    def add_latch(self, reset=0):
        self.latches.append([self.variable(), 0, reset])
        return self.latches[-1][0]

    def set_next(self, latch, literal):
        for pair in self.latches:
            if pair[0] == latch:
                pair[1] = literal

    def conjunction(self, a, b):
        self.gates.append((self.variable(), a, b))
        return self.gates[-1][0]

    def exclusive_or(self, a, b):
        both, none = self.conjunction(a, b), self.conjunction(a ^ 1, b ^ 1)
        return self.conjunction(both ^ 1, none ^ 1)

    def choice(self, test, yes, no):
        return self.conjunction(self.conjunction(test, yes) ^ 1, self.conjunction(test ^ 1, no) ^ 1) ^ 1

    def all_of(self, literals):
        result = 1
        for literal in literals:
            result = literal if result == 1 else self.conjunction(result, literal)
        return result

    def text(self, *bad):
        lines = [f"aag {self.variables} {len(self.inputs)} {len(self.latches)} 0 {len(self.gates)} {len(bad)}"]
        lines += [str(literal) for literal in self.inputs]
        lines += [f"{latch} {following} {reset}" for latch, following, reset in self.latches]
        lines += [str(literal) for literal in bad]
        lines += [f"{left} {a} {b}" for left, a, b in self.gates]
        return "\n".join(lines) + "\n"

    def justice_text(self, wanted, fairness=()):
        """The circuit with one justice property, of these literals."""
        counts = (self.variables, len(self.inputs), len(self.latches), 0, len(self.gates), 0, 0, 1, len(fairness))
        lines = ["aag " + " ".join(map(str, counts))]
        lines += [str(literal) for literal in self.inputs]
        lines += [f"{latch} {following} {reset}" for latch, following, reset in self.latches]
        lines += [str(literal) for literal in (len(wanted), *wanted, *fairness)]
        lines += [f"{left} {a} {b}" for left, a, b in self.gates]
        return "\n".join(lines) + "\n"

    def waits(self, asked, served):
        """A literal that is set from a time on where it is asked then, and is never set again once it is served."""
        waiting, over = self.add_latch(), self.add_latch()
        self.set_next(waiting, self.conjunction(waiting ^ 1, asked ^ 1) ^ 1)
        self.set_next(over, self.conjunction(over ^ 1, self.conjunction(waiting, served) ^ 1) ^ 1)
        return self.conjunction(waiting, self.conjunction(over ^ 1, served ^ 1))


def shift(stages):
    circuit = Circuit()
    previous = circuit.add_input()
    for _ in range(stages):
        latch = circuit.add_latch()
        circuit.set_next(latch, previous)
        previous = latch
    return circuit.text(previous)


def counter(bits, target):
    circuit = Circuit()
    carry = circuit.add_input()
    latches = [circuit.add_latch() for _ in range(bits)]
    for latch in latches:
        circuit.set_next(latch, circuit.exclusive_or(latch, carry))
        carry = circuit.conjunction(carry, latch)
    return circuit.text(circuit.all_of(l if target >> k & 1 else l ^ 1 for k, l in enumerate(latches)))


def arbiter(clients):
    circuit = Circuit()
    asks = [circuit.add_input() for _ in range(clients)]
    held = [circuit.add_latch() for _ in range(clients)]  # latch k: the token is at client k + 1, none: at 0
    moved = [circuit.add_latch() for _ in range(clients)]
    nobody = circuit.all_of([h ^ 1 for h in held[1:]])
    token = [nobody] + held[1:]
    for k in range(clients):
        circuit.set_next(held[k], token[k - 1])
        grant = circuit.conjunction(asks[k], token[k])
        circuit.set_next(moved[k], circuit.conjunction(grant ^ 1, moved[k] ^ 1) ^ 1)
    return circuit.text(circuit.all_of(moved))


def is_number(circuit, latches, number):
    return circuit.all_of(l if number >> k & 1 else l ^ 1 for k, l in enumerate(latches))


def safe_shift(stages):
    """The input and its negation go through two registers; bad: both end with the same value."""
    circuit = Circuit()
    one = circuit.add_input()
    other = one ^ 1
    for _ in range(stages):
        latch, mirror = circuit.add_latch(0), circuit.add_latch(1)
        circuit.set_next(latch, one)
        circuit.set_next(mirror, other)
        one, other = latch, mirror
    return circuit.text(circuit.exclusive_or(one, other) ^ 1)


def safe_counter(bits, limit, bad):
    """It counts where the input allows it, and goes back to 0 after `limit`; bad: it is `bad`."""
    circuit = Circuit()
    carry = circuit.add_input()
    latches = [circuit.add_latch() for _ in range(bits)]
    wraps = circuit.conjunction(carry, is_number(circuit, latches, limit))
    for latch in latches:
        circuit.set_next(latch, circuit.conjunction(circuit.exclusive_or(latch, carry), wraps ^ 1))
        carry = circuit.conjunction(carry, latch)
    return circuit.text(is_number(circuit, latches, bad))


def ring(stations, properties=1):
    """One of the latches is 1, and it goes on where the input allows it; bad: the first and the middle one are 1, the
    second and the one behind the middle, and so on."""
    circuit = Circuit()
    moves = circuit.add_input()
    latches = [circuit.add_latch(int(k == 0)) for k in range(stations)]
    for k, latch in enumerate(latches):
        circuit.set_next(latch, circuit.choice(moves, latches[k - 1], latch))
    opposite = [latches[(k + stations // 2) % stations] for k in range(properties)]
    return circuit.text(*map(circuit.conjunction, latches, opposite))


def safe_arbiter(clients, properties=1):
    """A token goes round, and who asks and has it is granted in the next step; bad: the first and the last are granted,
    the second and the first, the third and the second, and so on."""
    circuit = Circuit()
    asks = [circuit.add_input() for _ in range(clients)]
    token = [circuit.add_latch(int(k == 0)) for k in range(clients)]
    granted = [circuit.add_latch() for _ in range(clients)]
    for k in range(clients):
        circuit.set_next(token[k], token[k - 1])
        circuit.set_next(granted[k], circuit.conjunction(asks[k], token[k]))
    return circuit.text(*[circuit.conjunction(granted[k], granted[k - 1]) for k in range(properties)])


def twins(bits, properties=1):
    """Two registers with the same feedback take the same input; bad: their last latches differ, those before these, and
    so on."""
    circuit = Circuit()
    fed = circuit.add_input()
    registers = []
    for _ in range(2):
        latches = [circuit.add_latch() for _ in range(bits)]
        following = circuit.exclusive_or(circuit.exclusive_or(latches[-1], latches[bits // 2]), fed)
        for latch in latches:
            circuit.set_next(latch, following)
            following = latch
        registers.append(latches[::-1])
    pairs = list(zip(*registers))
    return circuit.text(*[circuit.exclusive_or(*pair) for pair in pairs[:properties]])


def twins_beside(bits, gates):
    """Two registers take the same input, and a chain of gates reads them; bad: their last latches differ."""
    circuit = Circuit()
    fed, end = circuit.add_input(), circuit.add_input()
    registers = []
    for _ in range(2):
        latches = [circuit.add_latch() for _ in range(bits)]
        for latch, following in zip(latches, [fed] + latches):
            circuit.set_next(latch, following)
        registers.append(latches)
    for k in range(gates - 3):
        end = circuit.conjunction(end, registers[k % 2][k // 2 % bits] ^ (k // (2 * bits) % 2)) ^ (k % 3 == 0)
    circuit.set_next(circuit.add_latch(), end)
    return circuit.text(circuit.exclusive_or(registers[0][-1], registers[1][-1]))


def credits(places, properties=1):
    """A sender has as many credits as the buffer has places, both in unary; bad: the full buffer is sent to, then: there
    are more than k credits while all but k places are filled, for k from 0 on."""
    circuit = Circuit()
    asks, takes = circuit.add_input(), circuit.add_input()
    credit = [circuit.add_latch(1) for _ in range(places)]  # latch k: more than k credits
    filled = [circuit.add_latch(0) for _ in range(places)]  # latch k: more than k places are filled
    sends = circuit.conjunction(asks, credit[0])
    frees = circuit.conjunction(takes, filled[0])
    for row, up, down in ((credit, frees, sends), (filled, sends, frees)):
        more, less = circuit.conjunction(up, down ^ 1), circuit.conjunction(down, up ^ 1)
        for k, latch in enumerate(row):
            raised = circuit.choice(more, row[k - 1] if k else 1, latch)
            lowered = row[k + 1] if k + 1 < places else 0
            circuit.set_next(latch, circuit.choice(less, lowered, raised))
    over = [circuit.conjunction(credit[k], filled[places - 1 - k]) for k in range(properties - 1)]
    return circuit.text(circuit.conjunction(sends, filled[-1]), *over)


def waiting_ring(stations):
    """A token goes on where the input allows it, again and again; wanted: somebody waits for it at the last station."""
    circuit = Circuit()
    moves, asked = circuit.add_input(), circuit.add_input()
    token = [circuit.add_latch(int(k == 0)) for k in range(stations)]
    for k, latch in enumerate(token):
        circuit.set_next(latch, circuit.choice(moves, token[k - 1], latch))
    return circuit.justice_text([circuit.waits(asked, token[-1])], [moves])


def waiting_arbiter(clients):
    """A token goes round, and stays with who asks until the input lets go, again and again; wanted: the last client waits."""
    circuit = Circuit()
    asks = [circuit.add_input() for _ in range(clients)]
    busy, guessed = circuit.add_input(), circuit.add_input()
    token = [circuit.add_latch(int(k == 0)) for k in range(clients)]
    asking = [circuit.add_latch() for _ in range(clients)]
    here = [circuit.conjunction(token[k], asking[k]) for k in range(clients)]
    stays = circuit.conjunction(busy, circuit.all_of(literal ^ 1 for literal in here) ^ 1)
    for k in range(clients):
        circuit.set_next(token[k], circuit.choice(stays, token[k], token[k - 1]))
        asked = circuit.conjunction(asking[k] ^ 1, asks[k] ^ 1) ^ 1
        circuit.set_next(asking[k], circuit.conjunction(asked, circuit.conjunction(here[k], busy ^ 1) ^ 1))
    served = circuit.conjunction(here[-1], busy ^ 1)
    asked = circuit.conjunction(circuit.conjunction(guessed, asking[-1]), served ^ 1)
    return circuit.justice_text([circuit.waits(asked, served)], [busy ^ 1])


def waiting_counter(bits):
    """A counter counts where the input allows it, again and again; wanted: somebody waits for it to be 0."""
    circuit = Circuit()
    counts = carry = circuit.add_input()
    latches = [circuit.add_latch() for _ in range(bits)]
    for latch in latches:
        circuit.set_next(latch, circuit.exclusive_or(latch, carry))
        carry = circuit.conjunction(carry, latch)
    asked = circuit.add_input()
    return circuit.justice_text([circuit.waits(asked, is_number(circuit, latches, 0))], [counts])


def phases(count):
    """Latches are set one after the other, each where an input of its own allows it; wanted: one is set now."""
    circuit = Circuit()
    allows = [circuit.add_input() for _ in range(count)]
    latches = [circuit.add_latch() for _ in range(count)]
    before, sets = 1, []
    for allowed, latch in zip(allows, latches):
        sets.append(circuit.conjunction(circuit.conjunction(allowed, before), latch ^ 1))
        circuit.set_next(latch, circuit.conjunction(latch ^ 1, sets[-1] ^ 1) ^ 1)
        before = latch
    return circuit.justice_text([circuit.all_of(literal ^ 1 for literal in sets) ^ 1])


def closed_buffer(places):
    """A buffer is filled until it is closed, and emptied; wanted: it is closed, and something is taken."""
    circuit = Circuit()
    puts, takes, closes = circuit.add_input(), circuit.add_input(), circuit.add_input()
    filled = [circuit.add_latch() for _ in range(places)]  # latch k: more than k places are filled
    closed = circuit.add_latch()
    circuit.set_next(closed, circuit.conjunction(closed ^ 1, closes ^ 1) ^ 1)
    taken = circuit.conjunction(takes, filled[0])
    put = circuit.conjunction(puts, closed ^ 1)
    more, less = circuit.conjunction(put, taken ^ 1), circuit.conjunction(taken, put ^ 1)
    for k, latch in enumerate(filled):
        raised = circuit.choice(more, filled[k - 1] if k else 1, latch)
        circuit.set_next(latch, circuit.choice(less, filled[k + 1] if k + 1 < places else 0, raised))
    return circuit.justice_text([circuit.conjunction(closed, taken)])


def counted(circuit, latches, carry):
    """The next literals of latches that count where the carry is set."""
    following = []
    for latch in latches:
        following.append(circuit.exclusive_or(latch, carry))
        carry = circuit.conjunction(carry, latch)
    return following


def waiting_uart(divider):
    """A transmitter sends ten bits, each for 2^divider steps; wanted: somebody waits for it to be idle."""
    circuit = Circuit()
    sends, asked = circuit.add_input(), circuit.add_input()
    baud, place = [circuit.add_latch() for _ in range(divider)], [circuit.add_latch() for _ in range(4)]
    word = [(circuit.add_input(), circuit.add_latch()) for _ in range(8)]
    idle, ticks = is_number(circuit, place, 0), circuit.all_of(baud)
    starts, ends = circuit.conjunction(idle, sends), is_number(circuit, place, 10)
    for latch, following in zip(baud, counted(circuit, baud, idle ^ 1)):
        circuit.set_next(latch, following)
    for k, (latch, following) in enumerate(zip(place, counted(circuit, place, 1))):
        moved = circuit.choice(ticks, circuit.conjunction(following, ends ^ 1), latch)
        circuit.set_next(latch, circuit.choice(idle, starts if k == 0 else 0, moved))
    above = [latch for _, latch in word[1:]] + [1]
    for (bit, latch), following in zip(word, above):
        circuit.set_next(latch, circuit.choice(starts, bit, circuit.choice(ticks, following, latch)))
    return circuit.justice_text([circuit.waits(asked, idle)])


def waiting_handshake(steps):
    """A request stays until its acknowledgement, which comes so many steps later or sooner; wanted: somebody waits."""
    circuit = Circuit()
    asks, early, guessed = circuit.add_input(), circuit.add_input(), circuit.add_input()
    request, acknowledged = circuit.add_latch(), circuit.add_latch()
    waited = [circuit.add_latch() for _ in range(steps)]  # latch k: for more than k steps
    due = circuit.conjunction(early ^ 1, waited[-1] ^ 1) ^ 1
    circuit.set_next(request, circuit.conjunction(circuit.conjunction(request ^ 1, asks ^ 1) ^ 1, acknowledged ^ 1))
    circuit.set_next(acknowledged, circuit.conjunction(request, due))
    open_still = circuit.conjunction(request, acknowledged ^ 1)
    for latch, before in zip(waited, [1] + waited):
        circuit.set_next(latch, circuit.conjunction(open_still, before))
    return circuit.justice_text([circuit.waits(circuit.conjunction(open_still, guessed), acknowledged)])


def waiting_servers(servers):
    """A request goes from server to server, each of which lets it through again and again; wanted: somebody waits for
    the last one."""
    circuit = Circuit()
    asks, guessed = circuit.add_input(), circuit.add_input()
    lets, request = [circuit.add_input() for _ in range(servers)], circuit.add_latch()
    done = [circuit.add_latch() for _ in range(servers)]
    asked = circuit.conjunction(request ^ 1, asks ^ 1) ^ 1
    circuit.set_next(request, circuit.conjunction(asked, done[-1] ^ 1))
    for let, latch, before in zip(lets, done, [1] + done):
        passed = circuit.conjunction(latch ^ 1, circuit.conjunction(let, before) ^ 1) ^ 1
        circuit.set_next(latch, circuit.conjunction(request, passed))
    open_still = circuit.conjunction(request, done[-1] ^ 1)
    return circuit.justice_text([circuit.waits(circuit.conjunction(open_still, guessed), done[-1])], lets)


def ending_counter(values):
    """A counter counts where the input allows it, up to its last value; wanted: it has that."""
    circuit = Circuit()
    counts = circuit.add_input()
    latches = [circuit.add_latch() for _ in range((values - 1).bit_length())]
    last = is_number(circuit, latches, values - 1)
    for latch, following in zip(latches, counted(circuit, latches, circuit.conjunction(counts, last ^ 1))):
        circuit.set_next(latch, following)
    return circuit.justice_text([last], [counts])


# Circuits without a violation, by their names.
SAFE = [
    ("counter of 8 bits, back after 199", safe_counter(8, 199, 220)),
    ("counter of 12 bits, back after 2,000", safe_counter(12, 2000, 3000)),
    ("shift registers of 64 stages", safe_shift(64)),
    ("shift registers of 256 stages", safe_shift(256)),
    ("ring of 16 latches", ring(16)),
    ("ring of 64 latches", ring(64)),
    ("arbiter of 16 clients", safe_arbiter(16)),
    ("arbiter of 64 clients", safe_arbiter(64)),
    ("arbiter of 96 clients", safe_arbiter(96)),
    ("arbiter of 200 clients", safe_arbiter(200)),
    ("twins of 8 latches", twins(8)),
    ("twins of 16 latches", twins(16)),
    ("twins of 64 latches", twins(64)),
    ("twin registers of 100 latches beside 5,000 gates", twins_beside(100, 5000)),
    ("credits for 4 places", credits(4)),
    ("credits for 8 places", credits(8)),
    ("credits for 16 places", credits(16)),
    ("credits for 18 places", credits(18)),
    ("credits for 32 places", credits(32)),
    ("credits for 64 places", credits(64)),
]

# Circuits with a violation within 100 times, by their names.
UNSAFE = [
    ("shift register of 90 stages", shift(90)),
    ("counter of 8 bits up to 60", counter(8, 60)),
    ("counter of 8 bits up to 90", counter(8, 90)),
    ("counter of 16 bits up to 90", counter(16, 90)),
    ("counter of 32 bits up to 60", counter(32, 60)),
    ("arbiter of 8 clients with a violation", arbiter(8)),
    ("arbiter of 64 clients with a violation", arbiter(64)),
]

# Families with a justice property that holds, with their sizes.
JUST = [
    ("waiting for a token, stations", waiting_ring, (4, 8, 16, 32, 64)),
    ("waiting at an arbiter, clients", waiting_arbiter, (4, 8, 16, 24, 32)),
    ("waiting for a counter, bits", waiting_counter, (2, 3, 4, 5, 6)),
    ("phases, latches", phases, (4, 8, 16, 32, 64)),
    ("a closed buffer, places", closed_buffer, (4, 8, 16, 32, 64)),
    ("waiting for a UART, divider's bits", waiting_uart, (1, 2, 3, 4, 5)),
    ("waiting in a handshake, steps", waiting_handshake, (4, 8, 16, 32, 64)),
    ("waiting for servers", waiting_servers, (2, 4, 8, 16, 32)),
]

# Those of them whose wanted literal may be set and cleared again. Of the others it stays set, where it is so again and
# again.
PULSES = (phases, closed_buffer)

# Families with a justice property that is violated, with their sizes.
LASSOS = [("a counter that ends, values", ending_counter, (8, 16, 32, 64))]
