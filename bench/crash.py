"""What bench/crash does: a reader of journals written from docs/FORMATS.md, the kills, the runs without room, and the changes.

usage: crash.py PROGRAM[,PROGRAM] FOLDER KILLS ROOMS CHANGES
"""
import bisect
import collections
import errno
import functools
import hashlib
import os
import random
import re
import resource
import shutil
import signal
import struct
import subprocess
import sys
import threading
import time

WORKERS = 4
HASH = 0xCBF29CE484222325
MAGIC = b"KIOSKLOG"
END, LEAVE = 0xC000000000000000, 0xC000000000000001
# What a run says whose file has failed: what of it, the system's number for that, and how many frames, words and bytes are safe.
SAFE = r"safe are (\d+) frames, up to place (\d+) and byte (\d+)"
FAILED = re.compile(r"crash: .+ is not (made|written|synced): .+ \(os error (\d+)\); " + SAFE + r"\n")


def with_other_words(words, dice):
    """The words of a record, of which some were changed, put in or left out; mostly with the count that they have then."""
    words, at, kind = list(words), dice.randrange(1, len(words)), dice.randrange(8)
    if kind == 0:
        words[at] ^= 1 << dice.randrange(64)
    elif kind == 1:
        words[0] ^= 1 << dice.randrange(64)
    elif kind == 2:
        words[dice.choice([1, at]) :] = [dice.choice([END, LEAVE, END + 2])]
    elif kind == 3:
        words.insert(at, dice.choice([0, END, LEAVE, 1 << 62, 1 << 63 | 7, 1 << 63 | 57 << 54, dice.getrandbits(64)]))
    elif kind == 4:
        del words[at]
    elif kind == 5:
        del words[1:]
    elif kind == 6:
        words.append(1 << 63 | dice.choice([8, 56]) << 54 | dice.getrandbits(20))
    else:
        words[1:] = [1 << 63 | 1 << 20 | number for number in range(dice.choice([15, 16, 17, 63, 64, 65, 128, 129, 512, 513]))]
    if dice.random() < 0.8:
        words[0] = words[0] & ~(0x3FFF << 40) | (len(words) - 1) << 40
    return words


def with_other_numbers(words, dice):
    """The words of a header, one of which was changed."""
    words, at = list(words), dice.randrange(len(words))
    words[at] = dice.choice([0, 1, 2, 16, 64, 65, (1 << 48) - 65536, (1 << 48) - 65537, (1 << 63) - 1, 1 << 63, dice.getrandbits(64)])
    return words


class Refused(Exception):
    """Why bytes are not read as a journal."""


def checksum(data):
    first = bytearray(hashlib.sha256(data).digest()[:8])
    first[7] |= 3
    return bytes(first)


def words_of(data):
    return struct.unpack(">%dQ" % (len(data) // 8), data)


def read_header(data):
    """The number of senders, the most messages of a batch, the place, and the first numbers."""
    if data[:8] != MAGIC[: len(data[:8])]:
        raise Refused("OtherMagic")
    if len(data) >= 16 and words_of(data[8:16]) != (1,):
        raise Refused("OtherVersion")
    if len(data) < 24:
        raise Refused("TornHeader")
    (senders,) = words_of(data[16:24])
    if not 1 <= senders <= 64:
        raise Refused("DamagedHeader")
    size = 48 + 8 * senders
    if len(data) < size:
        raise Refused("TornHeader")
    most, place, *first = words_of(data[24 : size - 8])
    if not 1 <= most <= 64 or place >= 1 << 63 or data[size - 8 : size] != checksum(data[: size - 8]):
        raise Refused("DamagedHeader")
    return senders, most, place, list(first)


def messages_of(words):
    """The numbers and bytes of the messages behind a head; None where they are bad."""
    items = []
    at = 0
    while at < len(words):
        word = words[at]
        length = word >> 54 & 0xFF
        data = words[at + 1 : at + 1 + (length + 7) // 8]
        if word >> 62 != 2 or length > 56 or word >> 48 & 0x3F or len(items) == 64:
            return None
        if len(data) != (length + 7) // 8:
            return None
        text = struct.pack(">%dQ" % len(data), *data)
        if any(text[length:]):
            return None
        items.append((word & (1 << 48) - 1, text[:length]))
        at += 1 + len(data)
    return items


@functools.lru_cache(1 << 14)
def frame_of(place, record):
    """The words of a record at a place, its owner, its mark and its messages; None where it has no frame."""
    words = words_of(record[:-8])
    if len(words) > 513 or record[-8:] != checksum(struct.pack(">Q", place) + record[:-8]):
        return None
    owner = words[0] >> 54 & 0xFF
    if words[1:] in ((END,), (LEAVE,)):
        return words, owner, words[1], ()
    items = messages_of(words[1:])
    return None if items is None else (words, owner, None, [(owner, *item) for item in items])


@functools.lru_cache(1 << 14)
def hash_behind(value, words):
    """A hash behind these words, before which it was this."""
    for word in words:
        value = (value ^ word) * 0x100000001B3 & (1 << 64) - 1
    return value


class Journal:
    """What the bytes of a journal say."""

    def __init__(self, data):
        self.senders, self.most, self.place, self.first = read_header(data)
        self.items, self.frames, self.ends = [], 0, [48 + 8 * self.senders]
        self.tenure, self.left, self.ended, self.hash = -1, set(), False, HASH
        self.next = list(self.first)
        self.starts = []
        while self.record(data):
            pass
        rest = data[self.ends[-1] :]
        written = rest.rstrip(b"\0")
        size = self.size_of(written)
        if not rest:
            self.end = "whole"
        elif len(written) < 8 or (size and len(written) < size):
            self.end = "torn"
        else:
            self.end = "damaged"
        # Nothing goes on from a file that looks torn where a whole record stands behind: the head before it was damaged.
        self.goes_on = self.end == "whole" or self.end == "torn" and not self.has_record_in(written)

    def size_of(self, data):
        """How many bytes the record has with whose head these begin."""
        if len(data) < 8:
            return None
        (head,) = words_of(data[:8])
        count = head >> 40 & 0x3FFF
        if head >> 62 != 1 or (head >> 54 & 0xFF) >= self.senders or not 1 <= count <= 8 * self.most:
            return None
        return 8 * (count + 2)

    def has_record_in(self, rest):
        """A whole record of a later place stands in what is left."""
        for at in range(8, len(rest), 8):
            size = self.size_of(rest[at : at + 8])
            record = rest[at : at + size] if size else b""
            if size and len(record) == size:
                fronts = (struct.pack(">Q", self.place + words) for words in range(1, at // 8))
                if any(record[-8:] == checksum(front + record[:-8]) for front in fronts):
                    return True
        return False

    def record(self, data):
        """Reads a record, if a whole one follows that the log goes on with."""
        at = self.ends[-1]
        size = self.size_of(data[at : at + 8])
        if size is None or at + size > len(data):
            return False
        frame = frame_of(self.place, data[at : at + size])
        if frame is None:
            return False
        words, owner, mark, items = frame
        tenure = words[0] & (1 << 40) - 1
        if self.ended or owner in self.left or tenure <= self.tenure:
            return False
        self.ended = mark == END
        if mark == LEAVE:
            self.left.add(owner)
        self.items += items
        for _, number, _ in items:
            self.next[owner] = max(self.next[owner], number + 1)
        self.tenure, self.hash = tenure, hash_behind(self.hash, words)
        self.place += len(words)
        self.frames += 1
        self.starts.append(len(self.items))
        self.ends.append(at + size)
        return True

    def said(self):
        """The line of the program for the same bytes."""
        state = State()
        for item in self.items:
            state.apply(item)
        page = "yes" if self.goes_on and max(self.next) < (1 << 48) - 65536 else "no"
        numbers = " ".join(map(str, self.next))
        end, frames = f"{self.end} {self.ends[-1]} page {page}", f"frames {self.frames} {self.hash:016x} place {self.place}"
        return f"{end} {frames} state {state} next {numbers}"


def said_of(data):
    try:
        return Journal(data).said()
    except Refused as why:
        return str(why)


@functools.lru_cache(1 << 16)
def state_behind(value, item):
    """The hash of a state behind a message."""
    sender, number, text = item
    return hash_behind(value, (sender, number, len(text), *text))


class State:
    def __init__(self):
        self.count, self.hash = 0, HASH

    def apply(self, item):
        self.count, self.hash = self.count + 1, state_behind(self.hash, item)

    def __str__(self):
        return f"{self.count} {self.hash:016x}"


class Chain:
    """Runs in one folder, each of which goes on from those before."""

    def __init__(self, folder):
        self.folder = folder
        os.mkdir(folder)
        self.files = 0
        self.next = [0] * WORKERS
        self.state = State()

    def path(self):
        return os.path.join(self.folder, f"journal.{self.files}")


def limit_files(size):
    """No file of this process grows longer, and a write that would have it do so fails."""
    signal.signal(signal.SIGXFSZ, signal.SIG_IGN)
    resource.setrlimit(resource.RLIMIT_FSIZE, (size, size))


def mount(folder, options):
    """Mounts a disk in memory, or another size of it; False where that is not allowed."""
    command = ["mount", "-t", "tmpfs", "-o", options, "tmpfs", folder]
    return shutil.which("mount") is not None and subprocess.run(command, stderr=subprocess.DEVNULL).returncode == 0


def told_of_bit(data, journal, bit):
    """What is to be told of a whole journal with this bit turned: a refusal, or the end, the frames, and whether a run may go on."""
    byte = bit // 8
    if byte < journal.ends[0]:
        return "OtherMagic" if byte < 8 else "OtherVersion" if byte < 16 else "DamagedHeader"
    frames = bisect.bisect_right(journal.ends, byte) - 1
    start = journal.ends[frames]
    (head,) = words_of(data[start : start + 8])
    place = 8 * (start + 7 - byte) + bit % 8
    # A head may look torn: where its count, of bits 40 to 53, is raised, and tells of more bytes than there are.
    count = (head ^ 1 << place) >> 40 & 0x3FFF if 40 <= place < 54 else 0
    if 1 <= count <= 8 * journal.most and 8 * (count + 2) > len(data) - start:
        return "torn", frames, frames == journal.frames - 1
    return "damaged", frames, False


def told_of_cut(journal, cut, zeros):
    """What is to be told of a whole journal that is cut at a byte, with so many zeros behind."""
    for end, fault in ((8, "OtherMagic"), (16, "OtherVersion"), (24, "DamagedHeader"), (journal.ends[0], "DamagedHeader")):
        if cut < end:
            return fault if cut + zeros >= end or (zeros and end == 8) else "TornHeader"
    frames = bisect.bisect_right(journal.ends, cut) - 1
    return "torn" if zeros or cut > journal.ends[frames] else "whole", frames, True


class Tests:
    def __init__(self, programs, folder, seed):
        self.programs, self.folder, self.seed = programs, folder, seed
        self.dice = random.Random(seed)
        self.passed = self.failed = self.said = self.cuts = self.files = 0
        self.frames = self.in_creation = 0
        self.ended = collections.Counter()

    def fault(self, text):
        self.failed += 1
        if self.failed <= 20:
            print("FAILED ", text)

    def count(self, text, fault):
        """Counts a test. Says whether it has passed."""
        if fault:
            self.fault(f"{text}: {fault}")
        else:
            self.passed += 1
        return not fault

    def by_turns(self, number):
        """The program of the run of this number, and the seed, so that each program has all seeds."""
        return self.programs[number % len(self.programs)], self.seed + number // len(self.programs)

    def start(self, chain, run, before=None):
        command = [run[0], "run", chain.folder, str(run[1])]
        return subprocess.Popen(command, bufsize=0, stdout=subprocess.PIPE, stderr=subprocess.PIPE, preexec_fn=before)

    def kill(self, chain, run):
        """Starts a program, kills it, and looks at what it has said and left."""
        process = self.start(chain, run)
        until = time.monotonic() + self.dice.choice([0, 10, 10])
        while time.monotonic() < until and process.poll() is None and not os.path.exists(chain.path()):
            time.sleep(0.0005)
        wait = self.dice.choice([0.01, 0.03, 0.1, 0.3]) * self.dice.random()
        try:
            out, errors = process.communicate(timeout=wait)
            return f"it ended by itself: {errors.decode()}"
        except subprocess.TimeoutExpired:
            process.kill()
            out, errors = process.communicate()
        return f"it said {errors.decode()}" if errors else self.see(chain, out)

    def kill_later(self, chain, run):
        """Starts a program, kills it once it has said what is on disk, and looks at that."""
        process = self.start(chain, run)
        hangs = threading.Timer(60, process.kill)
        hangs.start()
        said = process.stdout.readline() + process.stdout.readline()
        hangs.cancel()
        hangs.join()
        process.kill()
        out, errors = process.communicate()
        if errors or said.count(b"\n") < 2:
            return f"it does not go on: {said.decode()}{errors.decode()}"
        return self.see(chain, said + out)

    def run_out(self, chain, run, limit=None):
        """Runs a program until its file has no more room, and looks at how it ends, and at what it has said and left."""
        process = self.start(chain, run, None if limit is None else lambda: limit_files(limit))
        try:
            out, errors = process.communicate(timeout=60)
        except subprocess.TimeoutExpired:
            process.kill()
            process.communicate()
            return "it hangs"
        failed = FAILED.fullmatch(errors.decode())
        why = errno.ENOSPC if limit is None else errno.EFBIG
        if process.returncode != 1 or not failed or int(failed[2]) != why or not out:
            return f"it ended with {process.returncode}: {errors.decode()}"
        self.ended[failed[1]] += 1
        if os.path.exists(chain.path()) == (failed[1] == "made"):
            return f"it has {'a' if failed[1] == 'made' else 'no'} file, and said {errors.decode()}"
        return self.see(chain, out, tuple(map(int, failed.groups()[2:])))

    def see(self, chain, out, called_safe=None):
        """Looks at what a run has said and left: one that was killed, or that has ended with an error that calls so much safe."""
        lines = [line.split() for line in out.decode().splitlines()]
        if lines and lines[0] != ["recovered", *str(chain.state).split()]:
            return f"it recovered {lines[0]} for {chain.state}"
        try:
            with open(chain.path(), "rb") as file:
                data = file.read()
        except FileNotFoundError:
            self.in_creation += 1
            return "it said what is in no file" if lines[1:] else None
        return self.look(chain, data, lines[1:], called_safe)

    def look(self, chain, data, lines, called_safe):
        """Looks at the file that a run has left, by the lines that it has said."""
        try:
            journal = Journal(data)
        except Refused as why:
            return f"its file is refused: {why}"
        if journal.end == "damaged" or journal.first != chain.next or journal.place < 0:
            return f"its file is {journal.end}, from {journal.first} for {chain.next}"
        numbers, states, state = list(chain.next), {}, chain.state
        for item in journal.items:
            if item[1] != numbers[item[0]]:
                return f"message {item[1]} of sender {item[0]} in the place of {numbers[item[0]]}"
            numbers[item[0]] += 1
        behind = State()
        behind.count, behind.hash = state.count, state.hash
        last = 0
        for at, item in enumerate(journal.items):
            behind.apply(item)
            states[item[:2]] = (at, f"{behind.hash:016x}")
        for word, sender, number, said in lines:
            at, found = states.get((int(sender), int(number)), (0, None))
            if word != "durable" or found != said:
                return f"message {number} of sender {sender} was on disk, with {said}, and is {found}"
            last = max(last, at + 1)
        self.said += len(lines)
        self.files += 1
        self.frames += journal.frames
        safe = next((end for end, many in zip(journal.ends[1:], journal.starts) if many >= last), journal.ends[0])
        safe = safe if last else journal.ends[0]
        if called_safe:
            frames, place, byte = called_safe
            if journal.ends[frames : frames + 1] != [byte] or 8 * (place + frames) != byte - journal.ends[0]:
                return f"it calls {frames} frames safe, up to place {place} and byte {byte}"
            if safe > byte:
                return f"it calls {byte} bytes safe, and has said what stands up to {safe}"
        fault = self.write_again(chain.path(), data[: journal.ends[-1]]) or self.change(data, journal, safe, last)
        self.go_on(chain, data, safe, called_safe is None)
        return fault

    def write_again(self, path, wanted):
        """Has each program read a file and write its frames into a new one, of just these bytes."""
        copy = os.path.join(self.folder, "again")
        for program in self.programs:
            if os.path.exists(copy):
                os.remove(copy)
            status = subprocess.run([program, "again", path, copy]).returncode
            with open(copy, "rb") as file:
                if status or file.read() != wanted:
                    return f"written again by {program} it has other bytes"
        return None

    def go_on(self, chain, data, safe, may_cut):
        """Cuts the file, or leaves it, and notes what it says."""
        if may_cut and self.dice.random() < 0.4:
            self.cuts += 1
            data = data[: self.dice.randint(safe, len(data))] + bytes(self.dice.choice([0, 0, 7, 4096]))
            with open(chain.path(), "wb") as file:
                file.write(data)
        journal = Journal(data)
        for item in journal.items:
            chain.state.apply(item)
        chain.next = journal.next
        chain.files += 1

    def changed(self, data, journal, safe):
        """A changed copy of a file, with how it was changed."""
        dice = self.dice
        kind = dice.choice(["lost", "cut", "bit", "bit", "bytes", "left out", "doubled", "swapped"])
        ends = journal.ends
        record = dice.randrange(max(1, len(ends) - 1))
        start, end = (ends[record], ends[record + 1]) if len(ends) > 1 else (ends[0], ends[0])
        zeros = bytes(dice.choice([0, 0, 1, 8, 4096]))
        if kind == "lost":
            return kind, data[: dice.randint(safe, len(data))] + zeros
        if kind == "cut":
            return kind, data[: dice.randint(0, len(data))] + zeros
        if kind == "bit":
            # At times near the end, where a front looks torn.
            bit = dice.randrange(8 * len(data))
            if dice.random() < 0.3:
                bit = dice.randrange(8 * max(0, len(data) - 200), 8 * len(data))
            turned = bytearray(data)
            turned[bit // 8] ^= 1 << bit % 8
            return kind, bytes(turned)
        if kind == "bytes":
            at = dice.randrange(len(data))
            return kind, data[:at] + dice.randbytes(dice.randrange(1, 40)) + data[at + dice.randrange(60) :]
        if kind == "left out":
            return kind, data[:start] + data[end:]
        if kind == "doubled":
            return kind, data[:end] + data[start:]
        other = ends[min(record + 2, len(ends) - 1)]
        return kind, data[:start] + data[end:other] + data[start:end] + data[other:]

    def change(self, data, journal, safe, last):
        """Has all readers read changed copies of a file."""
        copies = [self.changed(data, journal, safe) for _ in range(20)]
        paths = []
        for number, (_, copy) in enumerate(copies):
            paths.append(os.path.join(self.folder, f"copy.{number}"))
            with open(paths[-1], "wb") as file:
                file.write(copy)
        reads = [subprocess.run([it, "read", *paths], stdout=subprocess.PIPE, check=True) for it in self.programs]
        for (kind, copy), *said in zip(copies, *(read.stdout.decode().splitlines() for read in reads)):
            faults = [self.judge(kind, data, copy, journal, line, last) for line in said]
            self.count(kind, next(filter(None, faults), None))
        return None

    def judge(self, kind, data, copy, journal, said, last):
        """What is wrong with what the program has said of a changed copy."""
        try:
            found = Journal(copy)
        except Refused as why:
            if kind == "lost":
                return f"refused: {why}"
            return None if said == str(why) else f"said {said!r}, for {why}"
        if said != found.said():
            return f"said {said!r}, for {found.said()!r}"
        if found.items != journal.items[: len(found.items)]:
            return "other messages"
        if kind == "bit" and found.end == "whole":
            return "nothing is told"
        if kind in ("lost", "cut") and not found.goes_on:
            return "a cut is damage"
        if kind == "lost" and len(found.items) < last:
            return "what was on disk is not there"
        if kind in ("left out", "doubled", "swapped") and copy != data:
            is_last = kind == "left out" and data.startswith(copy)
            if found.end == "whole" and not is_last:
                return "nothing is told"
        return None

    def kills(self, many):
        """Kills runs at random moments, up to twenty in a row."""
        chain = None
        for number in range(many):
            if number % 20 == 0 or chain is None:
                chain = Chain(os.path.join(self.folder, f"runs.{number}"))
            run = self.by_turns(number)
            if not self.count(f"kill {number} of {run}, file {chain.files}", self.kill(chain, run)):
                chain = None
        print(
            f"{many} kills: {self.files} journals of {self.frames} frames, of which {self.cuts} were cut; {self.in_creation} kills "
            f"before there was one; {self.said} messages said to be on disk"
        )

    def tell_ended(self, name):
        """Says how runs without room have ended since the last time."""
        told = ", ".join(f"{count} not {done}" for done, count in sorted(self.ended.items()))
        print(f"{name}: {sum(self.ended.values())} runs ended by them, {told}; {self.said} messages said to be on disk by now")
        self.ended.clear()

    def limits(self, many):
        """Has a limit of the size of a file end runs, up to ten in a row, each with a run without it behind."""
        chain = None
        for number in range(many):
            if number % 10 == 0 or chain is None:
                chain = Chain(os.path.join(self.folder, f"limits.{number}"))
            limit, run = self.dice.randrange(self.dice.choice([120, 3000, 40000])), self.by_turns(number)
            fault = self.run_out(chain, run, limit) or self.kill_later(chain, self.by_turns(number // 2))
            if not self.count(f"limit {limit} of {run}, file {chain.files}", fault):
                chain = None
        self.tell_ended(f"{many} limits of a file's size")

    def full_disks(self, many):
        """Has runs fill a disk, where one may be mounted, each with one behind that finds it full, and one once it has room."""
        disk, large = os.path.join(self.folder, "disk"), "remount,size=64m"
        os.mkdir(disk)
        if not mount(disk, "size=64m"):
            print("full disks are left out: to mount one is not allowed here")
            return
        try:
            for number in range(many):
                chain = Chain(os.path.join(disk, f"runs.{number}"))
                size, run = 4 * self.dice.randint(1, 16), self.by_turns(number)
                fault = None if mount(disk, f"remount,size={size}k") else "the disk is not made small"
                fault = fault or self.run_out(chain, run) or self.run_out(chain, self.by_turns(number + 2))
                fault = fault or (None if mount(disk, large) else "the disk is not made large")
                self.count(f"disk of {size} KiB of {run}", fault or self.kill_later(chain, self.by_turns(number // 2)))
                shutil.rmtree(chain.folder)
        finally:
            subprocess.run(["umount", disk], check=True)
        self.tell_ended(f"{many} full disks")

    def written(self, program):
        """A journal of a run, up to its last whole record: the second of two, so that the numbers of its header are above 0."""
        chain = Chain(os.path.join(self.folder, f"changes.{os.path.basename(program)}"))
        for run, limit in (((program, self.seed), 3000), ((program, self.seed + 1), 45000)):
            path, fault = chain.path(), self.run_out(chain, run, limit)
            if not self.count(f"limit {limit} of {run}", fault):
                return None
        with open(path, "rb") as file:
            data = file.read()
        return data[: Journal(data).ends[-1]]

    def turned(self, data, journal):
        """A copy with a random bit turned, at times of the header, or of a count near the end, which may look torn; and what is to be
        told of it.
        """
        bit = self.dice.randrange(8 * len(data))
        if self.dice.random() < 0.05:
            bit = 8 * (self.dice.choice(journal.ends[-6:-1]) + 2) + self.dice.randrange(7)
        elif self.dice.random() < 0.05:
            bit = self.dice.randrange(8 * journal.ends[0])
        copy = bytearray(data)
        copy[bit // 8] ^= 1 << bit % 8
        return f"bit {bit} turned", bytes(copy), told_of_bit(data, journal, bit)

    def cut(self, data, journal):
        """A copy cut at a random byte, at times in its header or behind a record; and what is to be told of it."""
        cut, zeros = self.dice.randrange(len(data)), self.dice.choice([0, 0, 1, 8, 4096])
        if self.dice.random() < 0.1:
            cut = self.dice.choice([*range(journal.ends[0]), *journal.ends])
        return f"cut at {cut}, {zeros} zeros", data[:cut] + bytes(zeros), told_of_cut(journal, cut, zeros)

    def made_anew(self, data, journal):
        """A copy with other words in a record, or in the header, and the right checksum behind them. All readers have to say the same."""
        ends, dice = journal.ends, self.dice
        if dice.random() < 0.2:
            words = with_other_numbers(words_of(data[: ends[0] - 8]), dice)
            text = struct.pack(">%dQ" % len(words), *words)
            return "words of the header", text + checksum(text) + data[ends[0] :], None
        at = dice.randrange(journal.frames)
        text, place = data[: ends[at]], (ends[at] - ends[0]) // 8 - at
        records = [words_of(data[start : end - 8]) for start, end in zip(ends[at:], ends[at + 1 :])]
        records[0] = with_other_words(records[0], dice)
        # Those behind it have the checksums of the places where they stand then, or the old ones.
        many = dice.choice([1, len(records)])
        for words in records[:many]:
            record = struct.pack(">%dQ" % len(words), *words)
            text += record + checksum(struct.pack(">Q", place) + record)
            place += len(words)
        return f"words of record {at}", text + data[ends[at + many] :], None

    def fault_of(self, copy, journal, said, wanted):
        """What is wrong with what a program and the reader here say of a copy of a journal."""
        if wanted is None:
            line = said_of(copy)
            return None if said == line else f"said {said!r}, for {line!r}"
        try:
            found = Journal(copy)
        except Refused as why:
            line = told = str(why)
        else:
            line, told = found.said(), (found.end, found.frames, found.goes_on)
            many = len(found.items)
            if (found.items, found.ends) != (journal.items[:many], journal.ends[: found.frames + 1]):
                return "other frames"
        if said != line:
            return f"said {said!r}, for {line!r}"
        return None if told == wanted else f"told {told}, for {wanted}"

    def lines_of(self, copies):
        """What each program says of these copies, program by program for each of them."""
        text = b"".join(struct.pack(">Q", len(copy)) + copy for _, copy, _ in copies)
        said = []
        for program in self.programs:
            read = subprocess.run([program, "copies"], input=text, stdout=subprocess.PIPE)
            said.append(read.stdout.decode().splitlines() + len(copies) * [f"nothing, and ended with {read.returncode}"])
        return zip(*said)

    def changes(self, many, program):
        """Has all readers read so many copies of a program's journal with a bit turned, as many that are cut, and with other words."""
        data, began = self.written(program), time.monotonic()
        if data is None:
            return
        journal = Journal(data)
        for name, change in (("bits turned", self.turned), ("tails cut", self.cut), ("records made anew", self.made_anew)):
            ends = collections.Counter()
            for first in range(0, many, 500):
                copies = [change(data, journal) for _ in range(min(500, many - first))]
                for (kind, copy, wanted), said in zip(copies, self.lines_of(copies)):
                    faults = [self.fault_of(copy, journal, line, wanted) for line in said]
                    self.count(f"{kind}, seed {self.seed}", next(filter(None, faults), None))
                    ends["refused" if len(said[0].split()) == 1 else said[0].split()[0]] += 1
            told = ", ".join(f"{count} {end}" for end, count in sorted(ends.items()))
            of = f"of {journal.frames} frames in {len(data)} bytes by {os.path.basename(program)}"
            print(f"{many} {name}, {of}: {told}; {time.monotonic() - began:.0f} s by now")


def main():
    folder, kills, rooms, changes = sys.argv[2], *map(int, sys.argv[3:])
    programs = sys.argv[1].split(",")
    tests = Tests(programs, folder, random.randrange(1 << 32))
    if kills:
        tests.kills(kills)
    if rooms:
        tests.limits(rooms)
        tests.full_disks(rooms)
    for number, program in enumerate(programs if changes else []):
        tests.changes((changes + number) // len(programs), program)
    print(f"{tests.passed} passed, {tests.failed} failed")
    sys.exit(1 if tests.failed or not tests.said else 0)


main()
