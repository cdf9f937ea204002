"""Random scripts for `bus replay`, of all kinds of bus: bench/replay and bench/pages play them."""

def senders_of(dice): # 1 to 8, and at times more
    return dice.randint(1, 8) if dice.random() < 0.85 else dice.choice((9, 16, 17, 33, 64))

def receivers_of(dice): # 1 to 8, and at times more
    return dice.randint(1, 8) if dice.random() < 0.9 else dice.choice((9, 16, 33, 64))

def seats_of(dice, m): # as many as receivers, a few more, or up to 64
    return dice.choice((m, m, min(64, m + dice.randint(1, 4)), dice.randint(m, 64)))

class Seats:
    """Who is there: the seats that have a receiver, as the lines of a script leave them."""

    def __init__(self, receivers, seats):
        self.here, self.seats = {*range(receivers)}, seats

    def any(self, dice): # one that is there, and now and then any number
        return dice.choice(sorted(self.here)) if self.here and dice.random() < 0.97 else dice.randint(0, self.seats)

    def gone(self, dice):
        r = self.any(dice)
        self.here.discard(r)
        return f"gone {r}"

    def fork(self, dice): # to a seat above it, which is free, was left, or is taken; now and then to any number
        i = self.any(dice)
        j = dice.randint(i + 1, max(i + 1, self.seats - 1)) if dice.random() < 0.97 else dice.randint(0, self.seats)
        if i in self.here and i < j < self.seats:
            self.here.add(j)
        return f"fork {i} {j}"

def shaped_script(dice):
    n, m = senders_of(dice), receivers_of(dice)
    lines, seats = [f"shape {n} {m} {dice.randint(1, 8)} {dice.randint(1, 12)} {dice.choice((16, 24, 64, 300))}"], Seats(m, m)
    forks = dice.choice((0, 0, 0.05))
    for _ in range(dice.randint(1, 120)):
        s = dice.randrange(n)
        if dice.random() < forks:
            lines.append(dice.choice((seats.gone, seats.fork))(dice))
        kind = dice.random()
        if kind < 0.25:
            lines.append(f"put {s} {bytes(dice.randrange(256) for _ in range(dice.randrange(20))).hex() or '-'}")
        elif kind < 0.27:
            lines.append(f"close {s}")
        elif kind < 0.28:
            lines.append(f"stop {s}")
        elif kind < 0.32:
            lines.append(f"leave {s}")
        elif kind < 0.85:
            lines.append(f"turn {s} {dice.getrandbits(32)} {dice.choice((1, 1, 2, 5, 20, 200))}")
        else:
            lines.append(f"recv {seats.any(dice)} {dice.choice((1, 2, 9, 99))}")
    if dice.random() < 0.4:
        lines += last_lines(dice, n, seats.here)
    return "\n".join(lines).encode() + b"\n"

def last_lines(dice, n, here): # what waits is sent, one sender closes, and all receivers hear what there is
    s = dice.randrange(n)
    lines = [f"turn {each} {dice.getrandbits(32)} 2000" for each in [*range(n)] * 4]
    return lines + [f"close {s}"] + [f"turn {s} 1 2000"] * 2 + [f"recv {each} 9999" for each in sorted(here)]

def cyclic_script(dice): # senders go through tenures one after another; some fall asleep in one, and wake up later or stop
    n, m, rows = senders_of(dice), receivers_of(dice), dice.randint(2, 8)
    lines = [f"cycle {n} {m} {dice.choice((1, 1, 2, 3, 8))} {rows} {dice.choice((16, 24, 64, 300, 3000, 65536))}"]
    naps, stops, closes = dice.choice((0.05, 0.1, 0.3, 0.9)), dice.choice((0, 0, 0.01)), dice.choice((0, 0, 0.005))
    leaves = dice.choice((0, 0.02, 0.1))
    busiest, asleep = dice.randrange(n), [0] * n
    for number in range(dice.choice((50, 150, 500))):
        awake = [s for s in range(n) if asleep[s] <= number] or [*range(n)]
        if busiest not in awake or dice.random() < 0.1:
            busiest = dice.choice(awake)
        s = busiest if dice.random() < 0.6 else dice.choice(awake)
        if dice.random() < 0.5:
            lines.append(f"put {s} {bytes(dice.randrange(256) for _ in range(dice.choice((0, 1, 8, 20)))).hex() or '-'}")
        if dice.random() < naps:
            lines.append(f"turn {s} {dice.getrandbits(32)} {dice.choice((1, 2, 3, 4, 5, 6, 7, 8, 10, 15, 30))}")
            asleep[s] = number + dice.choice((0, 3, 20, 60))
        else:
            lines += [f"turn {s} {dice.getrandbits(32)} 2000"] * dice.choice((1, 2))
        if dice.random() < 0.1:
            lines.append(f"recv {dice.randrange(m)} {dice.choice((1, 2, 9, 99))}")
        if dice.random() < stops:
            lines.append(f"stop {dice.randrange(n)}")
        if dice.random() < closes:
            lines.append(f"close {s}")
        if dice.random() < leaves:
            lines.append(f"leave {dice.choice(awake)}")
    if dice.random() < 0.4:
        lines += last_lines(dice, n, range(m))
    return "\n".join(lines).encode() + b"\n"

def ring_script(dice): # receivers hear often or seldom, leave and fork; senders fall asleep in a tenure; now and then of another kind of bus
    n, m, rows = dice.randint(1, 8), receivers_of(dice), dice.choice((2, 2, 2, 3, 5, 8))
    kind = dice.choice(8 * ["ring"] + ["shape", "cycle"])
    lines = [f"{kind} {n} {m} {dice.choice((1, 1, 2))} {rows} {dice.choice((16, 16, 17, 24, 64, 140, 300))}"]
    seats = Seats(m, seats_of(dice, m) if kind == "ring" else m)
    most = dice.choice((0, 0, 1, 2, 5, 15, 16, 17, 40, 64)) if kind == "ring" else 0 # (0: it is left out, and is 16)
    if seats.seats > m or most or (kind == "ring" and dice.random() < 0.2):
        lines[0] += f" {seats.seats}"
    if most:
        lines[0] += f" {most}"
    slow, naps = dice.choice((0, 0.2, 0.5, 0.9)), dice.choice((0, 0.1, 0.3))
    leaves, forks = dice.choice((0, 0.01, 0.05)), dice.choice((0, 0.05, 0.3, 0.9))
    closes, lengths = dice.choice((0, 0, 0.01)), dice.choice(((0, 1, 8), (20, 40, 56), (0, 8, 56)))
    hears, asleep = dice.choice(((1, 5, 9999), (9999,))), [0] * n
    for number in range(dice.choice((30, 100, 300)) if seats.seats <= 8 else 30): # (many receivers make long scripts)
        s = dice.choice([s for s in range(n) if asleep[s] <= number] or [*range(n)])
        many = 0 if dice.random() > 0.6 else 1 if dice.random() > 0.1 else dice.randint(2, (most or 16) + 1) # (now and then one too many)
        lines += [f"put {s} {bytes(dice.randrange(256) for _ in range(dice.choice(lengths))).hex() or '-'}" for _ in range(many)]
        if dice.random() < naps:
            lines += [f"turn {s} {dice.getrandbits(32)} {turns}" for turns in dice.choice(([], [2000])) + [dice.randint(1, 20)]]
            asleep[s] = number + dice.choice((0, 5, 20))
        else:
            lines += [f"turn {s} {dice.getrandbits(32)} 2000"] * 2
        if dice.random() > slow:
            lines += [f"recv {each} {dice.choice(hears)}" for each in sorted(seats.here)]
        if dice.random() < 0.3:
            lines.append(f"recv {seats.any(dice)} {dice.choice((1, 2, 9, 9999))}")
        if dice.random() < leaves:
            lines.append(seats.gone(dice) if dice.random() < 0.5 else dice.choice((f"leave {s}", f"stop {s}")))
        if dice.random() < forks:
            lines.append(seats.fork(dice))
        if dice.random() < forks / 2:
            lines.append(seats.gone(dice))
        if dice.random() < closes:
            lines.append(f"close {s}")
    if dice.random() < 0.4:
        lines += last_lines(dice, n, seats.here) + [seats.fork(dice)]
        lines += [f"recv {each} 2" for each in sorted(seats.here)]
    return "\n".join(lines).encode() + b"\n"
