"""What a run of bus.pml says of its steps, as scripts of `bus trace`, and what their traces have to say. For run and compare."""
import collections, re, subprocess

SAID = re.compile(r"STEP|ANSWER|PUT|CLOSE|LEAVE|GONE|STOP|REST|BASE|SITTING|<<<<<START OF CYCLE")
PAST_ALL = 255  # in the model; in the program 2^64 - 1


def shape_of(words):
    """The shape of 'SENDERS=2 CLOSE_ANY ..', by name."""
    return dict((word.split("=") + ["1"])[:2] for word in words.split())


def told(text):
    """The lines of SPIN's output that the model says."""
    return [line.strip() for line in text.splitlines() if SAID.match(line.strip())]


def row_word(place, senders, rounds):
    """The name of a word of the rows, as docs/FORMATS.md has it."""
    decision = 6 * rounds - 2
    row, rest = divmod(place, senders + max(0, (senders - 1).bit_length()) * decision)
    if rest < senders:
        return f"row {row} announcement {rest}"
    bit, rest = divmod(rest - senders, decision)
    if rest == decision - 1:
        return f"row {row} bit {bit} fallback"
    ratifier = ("input 0", "input 1", "proposal")
    if rest < 3:
        return f"row {row} bit {bit} round 1 {ratifier[rest]}"
    further, rest = divmod(rest - 3, 6)
    return f"row {row} bit {bit} round {further + 2} {(('mark 0', 'mark 1', 'counter') + ratifier)[rest]}"


class Plan:
    """The scripts that play a run of the model, one for each sitting: `lines`, and behind the first line of each what `bus trace`
    has to say of it: who, kind, word, found, after, answer. None stands for what a cycle's mark is."""

    def __init__(self, shape):
        self.senders, self.rounds = int(shape.get("SENDERS", 2)), int(shape.get("ROUNDS", 1))
        rows, receivers = shape.get("ROWS"), max(1, int(shape.get("RECEIVERS", 1)))
        last = f"{rows or shape.get('TENURES', 4)} {max(16, int(shape.get('LOG_WORDS', 16)))}"
        self.first = f"{'cycle' if rows else 'shape'} {self.senders} {receivers} {self.rounds} {last}"
        if "RING" in shape:  # the program cannot open one yet
            self.first = f"ring {self.senders} {receivers} {self.rounds} {rows or 2} {shape.get('LOG_WORDS', 16)}"
        self.heads, self.tag, self.owner = (65536, 1048576, 1024) if "WIDE" in shape else (16, 64, 16)
        self.sittings, self.bases = [], collections.Counter()
        self.begin()

    def begin(self):
        self.lines, self.wanted, self.put, self.stored_by = [self.first], [None], collections.Counter(), {}
        self.sittings.append((self.lines, self.wanted))

    def log_word(self, word, place):
        """A word of the model's log as the program has it, by docs/FORMATS.md. Numbers count from where the sitting began."""
        if word == 0:
            return 0
        if word < 2 * self.tag:
            return 1 << 62 | (word % self.tag // self.owner) << 54 | 1 << 40 | word % self.owner
        if word < 3 * self.tag:
            return 2 << 62 | word % self.tag - self.bases[self.stored_by.get(place, 0)]
        return 3 << 62 | word - 3 * self.tag

    def add(self, line, who, kind, word, found, after, answer):
        self.lines.append(line)
        self.wanted.append([who, kind, word, str(found), str(after), answer])

    def step(self, who, number, kind, place_of, place, found, after):
        random = 1 if kind == "Vote" and after - found == self.heads else 0
        word = place_of
        if place_of == "row":
            word = row_word(place, self.senders, self.rounds)
            if word.endswith("counter"):
                found, after = ((value // self.heads << 32) + value % self.heads for value in (found, after))
        elif place_of == "log":
            if who == "sender":
                self.stored_by[place] = number
            word, found, after = f"log {place}", self.log_word(found, place), self.log_word(after, place)
        elif place_of == "presence":
            word = f"presence {place}"
        elif place_of == "passed":
            word = f"passed {place}"
            found, after = ((1 << 64) - 1 if value == PAST_ALL else value for value in (found, after))
        line = f"recv {number} 1" if who == "receiver" else f"turn {number} {random} 1"
        self.add(line, f"{who} {number}", kind, word, found, after, "going")

    def answer(self, words):
        base = self.bases[int(words[1])] if words[0] == "item" else 0
        if words[0] == "item":
            words = ["item", words[1], str(int(words[2]) - base), "-"]
        if words[0] == "delivered":
            base = self.bases[int(self.wanted[-1][0].split()[1])]
            words = words[:2] + [str(int(number) - base) for number in words[2:]]
        self.wanted[-1][5] = " ".join(words)

    def take(self, line):
        """Takes one line that the model has said."""
        words = line.split()
        if words[0] == "STEP":
            self.step(words[1], int(words[2]), words[3], words[4], *map(int, words[5:8]))
        elif words[0] == "ANSWER":
            self.answer(words[1:])
        elif words[0] == "PUT":
            self.add(f"put {words[1]} -", f"sender {words[1]}", "put", "-", "-", "-", f"number {self.put[words[1]]}")
            self.put[words[1]] += 1
        elif words[0] in ("CLOSE", "LEAVE", "STOP"):
            kind = words[0].lower()
            said = {"close": "closing", "leave": "leaving", "stop": "stopped"}[kind]
            self.add(f"{kind} {words[1]}", f"sender {words[1]}", kind, "-", "-", "-", said)
        elif words[0] == "GONE":
            self.step("receiver", int(words[1]), "StorePassed", "passed", *map(int, words[1:]))
            self.lines[-1], self.wanted[-1][5] = f"gone {words[1]}", "gone"
        elif words[0] == "REST":
            self.add(f"turn {words[1]} 0 1", f"sender {words[1]}", "-", "-", "-", "-", "going")
        elif words[0] == "BASE":
            self.bases[int(words[1])] = int(words[2])
        elif words[0] == "SITTING":
            self.begin()
        else:
            self.lines.append("# From here on the steps come round again, without end.")
            self.wanted.append(None)


def plan_of(lines, shape):
    plan = Plan(shape)
    for line in lines:
        plan.take(line)
    return plan


def first_difference(program, lines, wanted):
    """Where the trace of a script first says something else than wanted: the place in the script and both rows. None: nowhere."""
    played = subprocess.run(program + ["trace"], input="\n".join(lines) + "\n", capture_output=True, text=True, check=False)
    rows = [line.split("\t") for line in played.stdout.splitlines()[1:]]
    got = iter([row[2:3] + row[4:] if len(row) == 9 else row for row in rows])
    for place, row in enumerate(wanted):
        if row is not None:
            said = next(got, ["nothing", played.stderr.strip()])
            if said != row:
                return place, row, said
    rest = next(got, None)
    return rest and (len(lines), ["nothing"], rest)
