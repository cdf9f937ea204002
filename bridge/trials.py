"""An engine and nodes as processes, for examples/nodes/run and bridge/test: they start, are killed, stopped and compared.

What happens is placed by progress, and by no clock: each wait is for a condition, and where that does not come in BOUND seconds it
says which. On a busy machine all of it takes longer, and comes to the same.

`Reader` speaks the protocol of NATS by itself, and `audit` reads a whole stream by it. It says anew which entries count and what
they do to a map, by the text of bridge/entries.h and examples/nodes/node.c, and shares no line with them.
"""
import json
import os
import random
import re
import shutil
import signal
import socket
import struct
import subprocess
import threading
import time

HERE = os.path.dirname(os.path.abspath(__file__))
NODE = os.path.join(HERE, "out", "node")
SERVER = os.environ.get("NATS_SERVER", "nats-server")


BOUND = 120  # seconds that a wait may take


def wait_for(what, fact, seconds=BOUND):
    """Waits until fact() is true. Where it stays false: an error that says what() it waited for."""
    until = time.monotonic() + seconds
    while not fact():
        if time.monotonic() > until:
            raise TimeoutError(f"waited {seconds} s for {what()}")
        time.sleep(0.02)


def free_port():
    """A port that nobody has, below those that clients are given: so nobody takes it while the engine is down."""
    while True:
        port = random.SystemRandom().randrange(12000, 32000)
        with socket.socket() as found:
            found.setsockopt(socket.SOL_SOCKET, socket.SO_REUSEADDR, 1)
            try:
                found.bind(("127.0.0.1", port))
                return port
            except OSError:
                continue


class Engine:
    """A NATS server of its own, with its streams in a folder."""

    def __init__(self, folder, more=""):
        self.folder = folder
        self.port = free_port()
        self.address = f"nats://127.0.0.1:{self.port}"
        self.process = None
        os.makedirs(folder, exist_ok=True)
        with open(f"{folder}/engine.conf", "w", encoding="utf-8") as to:
            to.write(f'listen: 127.0.0.1:{self.port}\njetstream {{ store_dir: "{folder}/store" }}\n{more}')

    def start(self):
        with open(f"{self.folder}/engine.log", "a", encoding="utf-8") as log:
            self.process = subprocess.Popen([SERVER, "-c", f"{self.folder}/engine.conf"], stdout=log, stderr=log)
        wait_for(lambda: f"the engine to take connections: see {self.folder}/engine.log", lambda: self.fell() or self.answers())
        if self.fell():
            raise TimeoutError(f"the engine ends by itself: see {self.folder}/engine.log")

    def answers(self):
        try:
            with socket.create_connection(("127.0.0.1", self.port), 1):
                return True
        except OSError:
            return False

    def fell(self):
        """Whether it has ended, and nobody has killed it."""
        return self.process is not None and self.process.poll() not in (None, -signal.SIGKILL)

    def entries(self, stream):
        """How many entries the stream has; 0 where the engine does not tell."""
        try:
            with Reader(self.port) as reader:
                return reader.ask(f"STREAM.INFO.{stream}").get("state", {}).get("last_seq", 0)
        except OSError:
            return 0

    def wait_entries(self, stream, many):
        """Waits until the stream has so many entries."""
        wait_for(lambda: f"entry {many} of {stream}, which has {self.entries(stream)}", lambda: self.entries(stream) >= many)

    def signal(self, what):
        self.process.send_signal(what)

    def kill(self):
        if self.process and self.process.poll() is None:
            self.process.kill()
        if self.process:
            self.process.wait()

    def forget(self):
        """Removes all that it has stored."""
        shutil.rmtree(f"{self.folder}/store", ignore_errors=True)


class Cluster:
    """Three engines that keep each stream three times."""

    def __init__(self, folder):
        ports = [free_port() for _ in range(3)]
        routes = ", ".join(f"nats://127.0.0.1:{port}" for port in ports)
        self.engines = [Engine(f"{folder}/engine-{i}", f"server_name: engine-{i}\ncluster {{ name: trials, listen: 127.0.0.1:{ports[i]}, routes: [{routes}] }}\n")
                        for i in range(3)]
        self.address = ",".join(engine.address for engine in self.engines)
        self.port = self.engines[0].port

    def start(self):
        for engine in self.engines:
            engine.start()

    def told(self, stream):
        """What the first engine that answers tells of a stream."""
        for engine in self.engines:
            try:
                with Reader(engine.port, 1) as reader:
                    told = reader.ask(f"STREAM.INFO.{stream}")
                    if "state" in told:
                        return told
            except OSError:
                continue
        return {}

    def entries(self, stream):
        return self.told(stream).get("state", {}).get("last_seq", 0)

    def leader(self, stream):
        """The engine by which a stream goes now, or one of them where none is told."""
        name = self.told(stream).get("cluster", {}).get("leader", "engine-0")
        return self.engines[int(name[-1])]

    def kill(self):
        for engine in self.engines:
            engine.kill()


class Node:
    """A process of examples/nodes/node.c, whose lines go to files."""

    def __init__(self, folder, number, options, program=(NODE,)):
        self.number = number
        self.path = f"{folder}/node-{number}"
        self.command = [*program, "--node", str(number)]
        for name, value in options.items():
            self.command += [f"--{name}", str(value)]
        self.process = None

    def start(self):
        with open(self.path + ".err", "a", encoding="utf-8") as said, open(self.path + ".out", "w", encoding="utf-8") as out:
            self.process = subprocess.Popen(self.command, stdout=out, stderr=said)
        return self

    def runs(self):
        return self.process.poll() is None

    def kill(self):
        if self.process and self.runs():
            self.process.kill()
        if self.process:
            self.process.wait()

    def ends(self, seconds=BOUND):
        """Its status, or None where it does not end in time."""
        try:
            return self.process.wait(seconds)
        except subprocess.TimeoutExpired:
            return None

    def said(self):
        with open(self.path + ".err", encoding="utf-8", errors="replace") as text:
            return text.read()

    def printed(self):
        with open(self.path + ".out", encoding="utf-8", errors="replace") as text:
            return text.read().strip()

    def says(self, *words, seconds=BOUND):
        """Whether it says one of these in time. Once it has ended it says no more."""
        try:
            wait_for(str, lambda: not self.runs() or any(one in self.said() for one in words), seconds)
        except TimeoutError:
            return False
        return any(one in self.said() for one in words)

    def last_line(self):
        return (self.said().strip().splitlines() or ["nothing"])[-1]


class Reader:
    """A client of NATS, of what is wanted here."""

    def __init__(self, port, seconds=10):
        self.socket = socket.create_connection(("127.0.0.1", port), seconds)
        self.socket.setsockopt(socket.IPPROTO_TCP, socket.TCP_NODELAY, 1)
        self.file = self.socket.makefile("rb")
        self.file.readline()
        self.inbox = f"_INBOX.trials{os.getpid()}x{random.getrandbits(32)}"
        self.early = []
        self.socket.sendall(b'CONNECT {"verbose":false,"headers":true}\r\n' + f"SUB {self.inbox} 1\r\nSUB {self.inbox}.entries 2\r\n".encode())

    def __enter__(self):
        return self

    def __exit__(self, kind, what, trace):
        self.file.close()
        self.socket.close()

    def message(self):
        """The next message: whether it is an entry, where an answer goes, its headers, and its bytes."""
        while True:
            line = self.file.readline()
            if not line.endswith(b"\n"):
                raise ConnectionError("the engine has ended the connection")
            word = line.split() or [b""]
            if word[0] == b"PING":
                self.socket.sendall(b"PONG\r\n")
            if word[0] == b"MSG":
                return word[2] == b"2", word[3] if len(word) == 5 else b"", b"", self.whole(int(word[-1]) + 2)[:-2]
            if word[0] == b"HMSG":
                headers, whole = int(word[-2]), self.whole(int(word[-1]) + 2)
                return word[2] == b"2", word[3] if len(word) == 6 else b"", whole[:headers], whole[headers:-2]

    def whole(self, many):
        """So many bytes. The engine ends a connection within a message, too."""
        read = self.file.read(many)
        if len(read) < many:
            raise ConnectionError("the engine has ended the connection within a message")
        return read

    def ask(self, subject, given=None):
        """What JetStream's interface answers."""
        text = json.dumps(given).encode() if given else b""
        self.socket.sendall(f"PUB $JS.API.{subject} {self.inbox} {len(text)}\r\n".encode() + text + b"\r\n")
        while True:
            told = self.message()
            if not told[0]:
                return json.loads(told[3])
            self.early.append(told)  # an entry that comes before the answer

    def put(self, subject, text, headers=b""):
        """Puts a message on the stream, and waits until the engine has read it."""
        sizes = f"HPUB {subject} {len(headers)} {len(headers + text)}" if headers else f"PUB {subject} {len(text)}"
        self.socket.sendall(sizes.encode() + b"\r\n" + headers + text + b"\r\n")
        self.ask("INFO")

    def make(self, stream, **other):
        """Makes a stream as the bridge does, but for what is given."""
        given = {"name": stream, "subjects": [f"{stream}.*"], "storage": "file", "retention": "limits", "discard": "new", "num_replicas": 1,
                 "deny_delete": True, "deny_purge": True}
        return self.ask(f"STREAM.CREATE.{stream}", {**given, **other})

    def allow(self, stream, **other):
        config = self.ask(f"STREAM.INFO.{stream}")["config"]
        return self.ask(f"STREAM.UPDATE.{stream}", {**config, **other})

    def entries(self, stream, place=1):
        """All entries of a stream from this place on, in their order."""
        last = self.ask(f"STREAM.INFO.{stream}")["state"]["last_seq"]
        given = {"deliver_subject": self.inbox + ".entries", "deliver_policy": "by_start_sequence", "opt_start_seq": place,
                 "ack_policy": "none", "replay_policy": "instant", "flow_control": True, "idle_heartbeat": 1_000_000_000}
        self.ask(f"CONSUMER.CREATE.{stream}", {"stream_name": stream, "config": given})
        while place <= last:
            _, reply, headers, entry = self.early.pop(0) if self.early else self.message()
            if not reply.startswith(b"$JS.ACK."):
                if reply:
                    self.socket.sendall(b"PUB " + reply + b" 0\r\n\r\n")
                continue
            assert int(reply.split(b".")[-4]) == place, f"entry {reply} came in place of {place}"
            yield place, entry
            place += 1


class Way:
    """A way to an engine on which entries are damaged, each by one bit: one of twelve that a node reads, or these of those that it sends."""

    def __init__(self, port, sent=None):
        self.to, self.dice, self.sent, self.many, self.damaged, self.begins = port, random.Random(port), sent, 0, 0, 0
        self.server = socket.create_server(("127.0.0.1", 0))
        self.port = self.server.getsockname()[1]
        threading.Thread(target=self.listen, daemon=True).start()

    def listen(self):
        while True:
            near, _ = self.server.accept()
            try:
                far = socket.create_connection(("127.0.0.1", self.to), 5)
            except OSError:
                near.close()
                continue
            far.settimeout(None)
            for one in (near, far):
                one.setsockopt(socket.IPPROTO_TCP, socket.TCP_NODELAY, 1)
            threading.Thread(target=self.go, args=(near, far, self.sent is not None), daemon=True).start()
            threading.Thread(target=self.go, args=(far, near, self.sent is None), daemon=True).start()

    def go(self, source, to, damages):
        try:
            while data := source.recv(65536):
                to.sendall(self.changed(bytearray(data)) if damages else data)
        except OSError:
            pass
        self.end(source, to)

    @staticmethod
    def end(*sockets):
        for one in sockets:
            try:
                one.shutdown(socket.SHUT_RDWR)
            except OSError:
                pass

    def changed(self, data):
        at = data.find(MAGIC)
        while at >= 0:
            self.many += 1
            if at + HEAD <= len(data) and (self.dice.random() < 1 / 12 if self.sent is None else self.many in self.sent):
                self.begins += data[at + 17] == ord("b")
                data[at + self.dice.randrange(entry_length(data, at))] ^= 1 << self.dice.randrange(8)
                self.damaged += 1
            at = data.find(MAGIC, at + 1)
        return data


class Loss(Way):
    """A way on which entries of these places are lost as wholes, so many times, or are damaged until both forms were in which they are read."""

    def __init__(self, port, lost, spoilt=()):
        self.lost, self.spoilt = dict(lost), set(spoilt)
        super().__init__(port)

    def go(self, source, to, damages):
        try:
            file = source.makefile("rb")
            while line := file.readline():
                word = line.split()
                if damages and word[:1] in ([b"MSG"], [b"HMSG"]):
                    line = self.passed(word[3], line + file.read(int(word[-1]) + 2))
                to.sendall(line)
        except OSError:
            pass
        self.end(source, to)

    def passed(self, reply, frame):
        """What passes of a message."""
        read, text = reply.startswith(b"$JS.ACK."), frame.find(b'"data":"')
        place = int(reply.split(b".")[5]) if read else int(frame.split(b'"seq":')[1].split(b",")[0]) if text >= 0 else 0
        if read and self.lost.get(place):
            self.lost[place] -= 1
            return b""
        if place not in self.spoilt:
            return frame
        # A bit of its last byte; or a letter of the text that stands for its checksum.
        at = len(frame) - 3 if read else text + 24
        other = frame[at] ^ 1 if read else ord("B" if frame[at] == ord("A") else "A")
        if not read:
            self.spoilt.discard(place)
        return frame[:at] + bytes([other]) + frame[at + 1:]


def all_entries(port, stream):
    """All entries of a stream. The engine ends the connection of who reads too slowly for it, as on a busy machine: it reads on then."""
    place, until = 1, time.monotonic() + BOUND
    while True:
        try:
            with Reader(port) as reader:
                for place, entry in reader.entries(stream, place):
                    yield place, entry
                    place, until = place + 1, time.monotonic() + BOUND
            return
        except OSError as fault:
            if time.monotonic() > until:
                raise TimeoutError(f"waited {BOUND} s for entry {place} of {stream}: {fault}") from fault


KEYS, MOST_NODES, MOST_WORKERS, WORD = 256, 64, 8, (1 << 64) - 1


MAGIC, HEAD = b"KBridge\xf5", 37


def entry_length(data, at):
    """How many bytes of the entry that begins here there are, of what goes over a link: it ends where a line of the protocol follows."""
    end = re.compile(rb"\r\n(?:[A-Z+-]|$)").search(data, at + HEAD)
    return (end.start() if end else len(data)) - at


def checksum(data):
    check = 14695981039346656037
    for word in (*struct.unpack(f"<{(len(data) + 7) // 8}Q", data + bytes(-len(data) % 8)), len(data)):
        check = (check ^ word) * 1099511628211 & WORD
        check ^= check >> 32
    return check


def sealed(rest):
    """An entry whose bytes behind the checksum are these."""
    return MAGIC + struct.pack("<Q", checksum(rest)) + rest


def is_entry(entry):
    """Whether these bytes are an entry."""
    if len(entry) < HEAD or entry != sealed(entry[16:]) or entry[16] != 2 or entry[18] >= MOST_NODES:
        return False
    kind, count = entry[17:18], int.from_bytes(entry[35:37], "little")
    if kind == b"b":
        return len(entry) == HEAD and 1 <= count <= MOST_WORKERS
    at, many = HEAD, 0
    while at + 8 <= len(entry) and entry[at] < MOST_WORKERS and entry[at + 1] <= 48:
        at, many = at + 8 + entry[at + 1], many + 1
    return kind == b"i" and at == len(entry) and many == count and 1 <= count <= 256


def audit(port, stream):
    """Reads the stream: the checksum that each map has to have, how many items count, and how many entries do not."""
    epoch, entries, values = {}, {}, [0] * KEYS
    following = [[0] * MOST_WORKERS for _ in range(MOST_NODES)]
    items = passed = 0
    for place, entry in all_entries(port, stream):
        if not is_entry(entry):
            passed += 1
            continue
        kind, node, of, number, count = entry[17:18], entry[18], *struct.unpack_from("<QQH", entry, 19)
        if kind == b"b":
            epoch[node], entries[node] = place, 0
            continue
        if epoch.get(node) != of or entries[node] != number:
            passed += 1
            continue
        entries[node] += 1
        at = HEAD
        for _ in range(count):
            sender, length, own = entry[at], entry[at + 1], int.from_bytes(entry[at + 2:at + 8], "little")
            assert own == following[node][sender], f"number {own} of worker {sender} of node {node} at entry {place}"
            following[node][sender] += 1
            message = entry[at + 8:at + 8 + length]
            value = int.from_bytes(message[2:10], "little")
            values[message[1]] = value if message[:1] == b"s" else (values[message[1]] * 31 + value) & WORD
            items += 1
            at += 8 + length
    words = [*values, *(number for node in following for number in node), items]
    return checksum(struct.pack(f"<{len(words)}Q", *words)), items, passed


class Kills:
    """Three nodes and an engine, which are killed and started again. The next kill comes at an entry of the stream that is drawn at
    random; or, for three of ten, while what was killed last comes back."""

    def __init__(self, folder, seed, kills, seconds, program=NODE, patience=BOUND, pace=20, engine=None, more=()):
        self.folder, self.seed, self.dice, self.wanted, self.patience = folder, seed, random.Random(seed), kills, patience
        self.engine = engine or Engine(folder)
        # A worker sends 8 messages in `pace` milliseconds, so it has work for `seconds` at least.
        self.messages = int(seconds * 1.1 * 8000 / pace)
        self.options = {"engine": self.engine.address, "stream": "nodes", "nodes": 3, "messages": self.messages, "burst": 8, "batch": 8,
                        "pace": pace, "checkpoint": 500 // pace, "wait": 2000, "pause": 1000, "report": 5, **dict(more)}
        self.nodes = [Node(folder, i, {**self.options, "file": f"{folder}/state-{i}"}, (program,)) for i in range(3)]
        self.killed = {"engine": 0, "node": 0}
        self.falls = 0

    def victims(self):
        """Who is killed next: mostly one node, else the engine, both, or all nodes at once."""
        running = [node for node in self.nodes if node.runs()]
        chance = self.dice.random()
        if chance < 0.30 or not running:
            return [self.engine]
        if chance < 0.40:
            return [self.engine, self.dice.choice(running)]
        if chance < 0.45:
            return running
        return [self.dice.choice(running)]

    def kill_some(self):
        victims = self.victims()
        self.dice.shuffle(victims)
        for victim in victims:
            victim.kill()
            self.killed["node" if isinstance(victim, Node) else "engine"] += 1
        time.sleep(self.dice.random() ** 2 * 2)
        for victim in victims:
            victim.start()

    def many(self):
        return sum(self.killed.values())

    def engines(self):
        return [self.engine]

    def lift(self):
        """Starts an engine again that has ended by a fault of its own."""
        for engine in self.engines():
            if engine.fell():
                self.falls += 1
                shutil.copy(f"{engine.folder}/engine.log", f"{self.folder}/fall-{self.falls}.log")
                engine.start()

    def at_entry(self, entry):
        """Whether the stream is so far, or a node has ended, so that it may never be."""
        self.lift()
        return self.engine.entries("nodes") >= entry or not all(node.runs() for node in self.nodes)

    def wait_for_kill(self):
        """All items fill 12 * messages / 8 entries at least, since each has 8 of them at most: so all kills come before the end."""
        if self.dice.random() < 0.3:
            time.sleep(self.dice.random() / 2)
            return
        entry = int(1.2 * self.messages * (self.many() + self.dice.random()) / self.wanted)
        wait_for(lambda: f"entry {entry} of the stream, which has {self.engine.entries('nodes')}", lambda: self.at_entry(entry))
        time.sleep(self.dice.random() / 50)

    def has_ended(self, node):
        self.lift()
        return not node.runs()

    def go(self):
        """Kills, and waits for the end of all nodes."""
        self.engine.start()
        for node in self.nodes:
            node.start()
        while self.many() < self.wanted and all(node.runs() for node in self.nodes):
            self.wait_for_kill()
            self.kill_some()
        self.wait_for_end()

    def wait_for_end(self):
        """As long as the stream grows within `patience`, and for ten times that at most."""
        began = since = time.monotonic()
        had = 0
        while not all(self.has_ended(node) for node in self.nodes):
            entries, now = self.engine.entries("nodes"), time.monotonic()
            had, since = (entries, now) if entries > had else (had, since)
            if now - since > self.patience or now - began > 10 * self.patience:
                raise TimeoutError(f"waited {now - began:.0f} s for the end of all nodes, which say: {'; '.join(node.last_line() for node in self.nodes)}")
            time.sleep(0.2)

    def run(self):
        """Whether all is right; it prints what came of it."""
        began = time.monotonic()
        good = True
        try:
            self.go()
        except TimeoutError as fault:
            good = False
            print(f"seed {self.seed}, after {self.many()} kills: {fault}")
        return self.compare([node.ends(0.1) for node in self.nodes], time.monotonic() - began) and good

    def compare(self, statuses, took):
        """Says what came of it; whether all is right."""
        for node in self.nodes:
            node.kill()
        sums = [node.printed().split(": ", 1)[-1] for node in self.nodes]
        check, items, passed = audit(self.engine.port, "nodes")
        said = "".join(node.said() for node in self.nodes)
        wanted = f"4 equal maps {check:016x}, {12 * self.messages} items applied"
        differ = sum(one != wanted for one in sums) + said.count("DIFFER")
        lost, twice, changed = said.count("LOST"), said.count("TWICE"), said.count("CHANGED")
        lost += abs(12 * self.messages - items)
        print(f"{self.many()} kills in {took:.0f} s by seed {self.seed}: {self.killed['node']} of nodes, {self.killed['engine']} of the engine")
        if self.falls:
            print(f"the engine ended by a fault of its own {self.falls} times, and was started again")
        print(f"{items} items in the stream, {passed} entries passed over, {said.count('begun as')} nodes taken over")
        for node, status in zip(self.nodes, statuses):
            print(f"  {node.printed() or 'nothing printed'} (status {status})")
        print(f"{differ} differ, {lost} lost, {twice} twice, {changed} changed")
        return statuses == [0, 0, 0] and self.many() >= self.wanted and not differ + lost + twice + changed

    def close(self):
        for one in [*self.nodes, self.engine]:
            one.kill()


class ClusterKills(Kills):
    """The same over three engines. An engine that is killed is often the one by which the stream goes, sometimes two or all are."""

    def __init__(self, folder, seed, kills, seconds):
        super().__init__(folder, seed, kills, seconds, engine=Cluster(folder), more={"replicas": 3, "wait": 3000}, patience=2 * BOUND)

    def engines(self):
        return self.engine.engines

    def victims(self):
        running = [node for node in self.nodes if node.runs()]
        chance = self.dice.random()
        if chance < 0.30 or not running:
            return [self.engine.leader("nodes")]
        if chance < 0.45:
            return [self.dice.choice(self.engines())]
        if chance < 0.50:
            return self.dice.sample(self.engines(), 2)
        if chance < 0.55:
            return list(self.engines())
        if chance < 0.60:
            return [self.engine.leader("nodes"), self.dice.choice(running)]
        return running if chance < 0.65 else [self.dice.choice(running)]

    def compare(self, statuses, took):
        wait_for(lambda: "the cluster to tell of the stream", lambda: self.engine.entries("nodes"))
        return super().compare(statuses, took)
