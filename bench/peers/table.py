"""table.py RUNS [--busy] [--seconds S] [--figures FILE] [SENDERSxRECEIVERS,BYTES[,MESSAGES] ..] NAME=WORDS=COMMAND ..: lets the
entrants run the same jobs in turns, and prints a table of each group of jobs.

An entrant is a process. For each line that it reads, `SENDERS RECEIVERS MESSAGES BYTES` with WORDS behind, it runs a bus once,
checks what came, and prints the nanoseconds. Without jobs it has those of GROUPS. Ratios are to the peers of BASES, or else to the
first. With --busy a busy process goes on beside them on each core; the tables then have means in place of first quartiles. After S
seconds no more runs are begun. FILE is given all figures, of which picture.py draws some.
"""
import argparse, os, random, signal, subprocess, sys, time

MESSAGES = 400
BASES = ["mutex log", "lock log, free readers", "simulation"]
# A sitting of bus_bench has at most 4,080 messages, so 8 senders cannot send 1,280 each.
GROUPS = {
    "400 messages a sender": [(3, 2, 8, 400), (3, 2, 56, 400), (8, 8, 8, 400), (8, 8, 56, 400)],
    "1,280 messages a sender": [(3, 2, 8, 1280), (3, 2, 56, 1280)],
    "3,840 messages of all senders": [(senders, 2, 8, 3840 // senders) for senders in (1, 2, 3, 4, 8)],
}
# Beside busy processes bytes do not count, and a run takes longer.
BUSY_GROUPS = {
    "400 messages a sender": [(3, 2, 8, 400), (8, 8, 8, 400)],
    "1,280 messages a sender": [(3, 2, 8, 1280)],
}


def read_words():
    parser = argparse.ArgumentParser()
    parser.add_argument("runs", type=int)
    parser.add_argument("--busy", action="store_true")
    parser.add_argument("--seconds", type=float, default=float("inf"))
    parser.add_argument("--figures")
    parser.add_argument("words", nargs="*")
    given = parser.parse_intermixed_args()
    numbers = [[*map(int, word.replace("x", ",").split(",")), MESSAGES][:4] for word in given.words if "=" not in word]
    usual = BUSY_GROUPS if given.busy else GROUPS
    given.groups = {"as asked for": [tuple(job) for job in numbers]} if numbers else usual
    given.jobs = list(dict.fromkeys(job for jobs in given.groups.values() for job in jobs))
    given.entrants = [word for word in given.words if "=" in word]
    return given


class Entrant:
    def __init__(self, spec, jobs, busy):
        self.busy = busy
        self.name, self.words, command = spec.split("=", 2)
        pipes = {"stdin": subprocess.PIPE, "stdout": subprocess.PIPE}
        self.process = subprocess.Popen(command.split(" "), text=True, bufsize=1, **pipes)
        self.times = {job: [] for job in jobs}

    def run(self, job):
        """Nanoseconds a message."""
        senders, receivers, size, messages = job
        self.process.stdin.write(f"{senders} {receivers} {messages} {size} {self.words}".strip() + "\n")
        answer = self.process.stdout.readline()
        if not answer:
            sys.exit(f"{self.name} ended, at {job}")
        return int(answer) / (senders * messages)

    def figure(self, job):
        """The first quartile, since what else is at work adds to some runs. Beside busy processes the mean: there a run lasts some
        ticks of the scheduler, and that is what is asked for."""
        times = sorted(self.times[job])
        return sum(times) / len(times) if self.busy else times[(len(times) - 1) // 4]


def make_busy():
    """A busy process on each core. It ends with this one, if not before."""
    parent, made = os.getpid(), []
    for core in sorted(os.sched_getaffinity(0)):
        child = os.fork()
        if child == 0:
            os.sched_setaffinity(0, {core})
            while os.getppid() == parent:
                for _ in range(1_000_000):
                    pass
            os._exit(0)
        made.append(child)
    return made


def ticks(path, fields):
    text = open(path).read()
    numbers = text[text.rfind(")") + 1:].split("\n")[0].split()[1:]
    return sum(int(numbers[field]) for field in fields)


def others(own):
    """Seconds that all other processes have had of the processors so far."""
    used = ticks("/proc/stat", [0, 1, 2, 5, 6]) - sum(ticks(f"/proc/{one}/stat", [10, 11]) for one in own)
    return used / os.sysconf("SC_CLK_TCK")


def run_all(given, entrants):
    """Runs all jobs in turns, and gives how many runs each had."""
    turns, dice, began = list(entrants), random.Random(1), time.time()
    for round_no in range(-2, given.runs):
        if round_no > 0 and time.time() - began > given.seconds:
            return round_no
        for job in given.jobs:
            dice.shuffle(turns)  # lest one always come behind the same other
            for one in turns:
                took = one.run(job)
                if round_no >= 0:
                    one.times[job].append(took)
    return given.runs


def show(title, jobs, entrants, bases):
    print(f"\n{title}\n{'senders x receivers, bytes':26}" + "".join(f"{f'{s}x{r}, {b}':>24}" for s, r, b, _ in jobs))
    for one in entrants:
        line = f"{one.name:26}"
        for job in jobs:
            ratios = " ".join(f"{one.figure(job) / base.figure(job):.2f}" for base in bases)
            line += f"{f'{one.figure(job):.0f} [{ratios}]':>24}"
        print(line)


def write_figures(given, entrants, heads):
    with open(given.figures, "w") as file:
        file.writelines(f"# {key}: {value}\n" for key, value in heads.items())
        file.write("entrant\tsenders\treceivers\tbytes\tmessages a sender\tns a message\n")
        for one in entrants:
            for job in given.jobs:
                file.write("\t".join([one.name, *map(str, job), f"{one.figure(job):.1f}"]) + "\n")


def measure(given, busy):
    entrants = [Entrant(spec, given.jobs, given.busy) for spec in given.entrants]
    own = [os.getpid()] + busy + [one.process.pid for one in entrants]
    for one in entrants:  # the first job of each waits until it is up
        one.run(given.jobs[0])
    began, before = time.time(), others(own)
    runs = run_all(given, entrants)
    model = next((line.split(": ")[1].strip() for line in open("/proc/cpuinfo") if line.startswith("model name")), "?")
    heads = {
        "machine": f"{os.cpu_count()} x {model}",
        "day": time.strftime("%Y-%m-%d"),
        "beside": f"{len(busy)} busy processes" if busy else "nothing of its own",
        "others": f"{(others(own) - before) / (time.time() - began):.1f} cores",
        "figures": f"{'means' if busy else 'first quartiles'} of {runs} runs",
    }
    print(f"{heads['machine']}; {heads['day']}; meanwhile other processes took {heads['others']}")
    if busy:
        print(f"beside {len(busy)} busy processes, one on each core")
    bases = [one for base in BASES for one in entrants if one.name == base] or entrants[:1]
    print(f"{heads['figures']}, ns a message; batches of 16")
    print("in brackets: ratio to the " + " and to the ".join(one.name for one in bases))
    for title, jobs in given.groups.items():
        show(title, jobs, entrants, bases)
    if given.figures:
        write_figures(given, entrants, heads)


def main():
    given = read_words()
    busy = make_busy() if given.busy else []
    try:
        measure(given, busy)
    finally:
        for one in busy:
            os.kill(one, signal.SIGKILL)
            os.waitpid(one, 0)


main()
