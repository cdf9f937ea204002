"""The interpreter of scripts that a page for playing has, beside the program, for bench/pages."""

import concurrent.futures, json, queue, random, subprocess
from random_scripts import cyclic_script, ring_script, shaped_script

# Node is told expressions, a line each, and gives their values.
LOOP = """
require('readline').createInterface({input: process.stdin}).on('line', (line) => {
    const value = require('vm').runInThisContext(JSON.parse(line));
    process.stdout.write(JSON.stringify(value === undefined ? null : value) + '\\n');
});
"""

# Traces of scripts. Of most the lines that are refused are taken out first.
TRACES = """
function withoutRefused(script) {
    const game = newGame();
    const kept = linesOf(script).filter((line) => {
        playLine(game, line);
        if (!game.refusal) return true;
        game.refusal = '';
        game.line -= 1;
        return false;
    });
    return [kept.join('\\n') + '\\n', traceText(game)];
}
function tracesOf(list) {
    return list.map(([script, isKept]) => {
        try {
            return isKept ? [script, traceOf(script)] : withoutRefused(script);
        } catch (error) {
            return [script, String(error)];
        }
    });
}
0
"""

# Wrong interpreters: a text that stands there once, and what stands in its place.
MUTANTS = [
    ("if (found) s.value = found - 1;", ""),
    ("s.votes < 64", "s.votes < 63"),
    ("< 2 * bus.senders.length", "<= 2 * bus.senders.length"),
    ("if (s.round === bus.rounds) return goOn(s, 'Fallback');", "if (s.round > bus.rounds) return goOn(s, 'Fallback');"),
    ("s.looksAt >> (s.bit + 1) !== s.spelled", "s.looksAt >> s.bit !== s.spelled"),
    ("tenure < s.least) return 'waiting'", "tenure <= s.least - 2) return 'waiting'"),
    ("if (found === 1 + before)", "if (found && found <= 1 + before)"),
    ("if (s.cleared < rowWidth(bus))", "if (s.cleared + 1 < rowWidth(bus))"),
    ("s.page.words + s.frame.length <= bus.log", "s.page.words + s.frame.length < bus.log"),
    ("if (s.tenure !== null) return 'Busy';\n    if (s.batch", "if (s.batch"),
    ("s.value = total > 0 ? 1 : 0;", "s.value = total >= 0 ? 1 : 0;"),
    ("message.length > 2 * 56", "message.length > 2 * 57"),
    ("s.lowest = Math.min(s.lowest, Number(found));", "s.lowest = Number(found);"),
    ("process.place > process.passed", "process.place > process.passed + 2"),
    ("isOpen && s.loaded < bus.receivers.length", "isOpen && s.loaded + 1 < bus.receivers.length"),
    ("'log ' + r.place % bus.log", "'log ' + r.place"),
    ("found === PASSED_ALL ? r.passed : found", "found === PASSED_ALL ? r.place : found"),
    ("if (!isFree) return 'no seat';", ""),
    ("message: r.message && {...r.message}", ""),
    ("if (number <= r.number) return 'NotAbove';", "if (number === r.number) return 'NotAbove';"),
    ("new Map(freePlaces(receivers, seats))", "new Map()"),
    ("['Seats', sizes[1], 64]", "['Seats', 1, 64]"),
    ("['Batch', 1, 64]", "['Batch', 0, 64]"),
    ("['Batch', 1, 64]", "['Batch', 1, 65]"),
    ("s.batch.length === most", "s.batch.length === 16"),
    ("seats = receivers, most = 16", "seats = receivers, most = 64"),
    ("const least = form && (word === 'ring' ? 5 : form.length);", "const least = form && (word === 'ring' ? 6 : form.length);"),
]

# A sender sees tenure 0 open, falls asleep, and shows itself in it once tenure 2 is held: whoever clears a row then passes it by.
LATE_PRESENCE = """cycle 2 1 1 2 64
put 1 62
turn 1 0 1
put 0 61
turn 0 0 99
turn 0 0 99
put 0 61
turn 0 0 99
turn 0 0 99
put 0 61
turn 0 0 99
turn 1 0 1
turn 0 0 99
turn 1 0 99
"""

# A sender votes as many heads as tails, up to its last vote; and a message is too long by a byte.
TIED_COIN = "".join([
    "shape 2 1 2 1 64\nput 0 61\nput 1 62\nturn 0 0 4\nturn 1 0 4\nturn 0 0 3\nturn 1 0 4\n",
    32 * "turn 1 1 2\nturn 1 0 2\n",
    "turn 1 0 99\nturn 0 0 99\nput 1 " + 57 * "61" + "\n",
])

# A ring with fewer seats than receivers, and rings whose batches have too few messages and too many.
SIZES = ["ring 1 3 1 2 64 2\n", "ring 1 1 1 2 64 1 0\n", "ring 1 1 1 2 64 1 65\n"]


class Node:
    """A JavaScript engine without a browser."""

    def __init__(self, path):
        pipes = {"stdin": subprocess.PIPE, "stdout": subprocess.PIPE}
        self.process = subprocess.Popen([path, "-e", LOOP], text=True, **pipes)

    def do(self, text):
        self.process.stdin.write(json.dumps(text) + "\n")
        self.process.stdin.flush()
        return json.loads(self.process.stdout.readline())

    def end(self):
        self.process.stdin.close()
        self.process.wait(timeout=20)


def broken(script, dice):
    """A script with a byte that is another one, or is missing, or stands twice."""
    place = dice.randrange(len(script))
    other = dice.choice([b"", bytes([dice.choice(b"\n\r\t -#0123456789abcdefgprst")]), script[place : place + 1] * 2])
    return script[:place] + other + script[place + 1 :]


def batch_of(seed, count):
    """Scripts of all kinds, behind fixed ones; the fourth of five as it is, and the fifth broken; of the others refused lines go."""
    dice, batch = random.Random(seed), [[script, True] for script in (LATE_PRESENCE, TIED_COIN, *SIZES)]
    for number in range(count - len(batch)):
        script = (shaped_script, cyclic_script, ring_script)[number % 3](dice)
        if number % 5 == 4:
            script = broken(script, dice)
        batch.append([script.decode("latin1"), number % 5 > 2])
    return batch


def trace_of(program, script):
    return subprocess.run([program, "trace"], input=script.encode("latin1"), stdout=subprocess.PIPE, stderr=subprocess.DEVNULL).stdout.decode()


def differing(engine, program, batch):
    """The scripts of which the two give other traces; and how many are refused, and how many rows there are."""
    other, refused, rows = [], 0, 0
    for script, ours in engine.do(f"tracesOf({json.dumps(batch)})"):
        theirs = trace_of(program, script)
        refused += "\t" not in theirs.split("\n")[-2]
        rows += theirs.count("\n") - 1
        if ours != theirs:
            other.append(script)
    return other, refused, rows


def next_of(seeds):
    try:
        return seeds.get_nowait()
    except queue.Empty:
        return None


def compare(engines, text, program, count):
    """Random scripts by the interpreter and by the program, side by side; gives how many differ."""
    seeds, sums = queue.SimpleQueue(), [[], 0, 0]
    for seed in range(count // 100):
        seeds.put(seed)
    for engine in engines:
        engine.do(text + "0")
        engine.do(TRACES)

    def work(engine):
        mine = [[], 0, 0]
        while (seed := next_of(seeds)) is not None:
            more = differing(engine, program, batch_of(seed, 100))
            mine = [one + another for one, another in zip(mine, more)]
        return mine

    with concurrent.futures.ThreadPoolExecutor(len(engines)) as pool:
        for mine in pool.map(work, engines):
            sums = [one + more for one, more in zip(sums, mine)]
    print(f"{count} random scripts by the interpreter of the page and by the program: {sums[1]} refused, {sums[2]} lines, {len(sums[0])} differ")
    if sums[0]:
        print("FAILED  the first of them:\n" + sums[0][0])
    return len(sums[0])


def mutants(make_engine, text, program):
    """Wrong interpreters, each of which has to differ from the program; gives how many do not."""
    missed = 0
    for old, new in MUTANTS:
        if text.count(old) != 1:
            print(f"FAILED  {old!r} stands {text.count(old)} times in the interpreter")
            missed += 1
            continue
        engine = make_engine()
        engine.do(text.replace(old, new) + "0")
        engine.do(TRACES)
        if not any(differing(engine, program, batch_of(seed, 50))[0] for seed in range(20)):
            print(f"FAILED  nothing differs with {new!r} in the place of {old!r}")
            missed += 1
        engine.end()
    print(f"{len(MUTANTS)} wrong interpreters, {missed} not told")
    return missed
