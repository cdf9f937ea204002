"""The page on which one plays, in browsers without a window, for bench/pages."""

import collections, concurrent.futures, glob, json, re, subprocess
from interpreter import trace_of

# What a click does is seen in the page: which button it was, what that had said, and what came.
DRIVE = """
function pick(random, list) { return list[Math.floor(random() * list.length)]; }
// A generator of numbers by a seed (mulberry32).
function dice(seed) {
    return () => {
        seed = (seed + 0x6D2B79F5) | 0;
        let t = Math.imul(seed ^ (seed >>> 15), 1 | seed);
        t = (t + Math.imul(t ^ (t >>> 7), 61 | t)) ^ t;
        return ((t ^ (t >>> 14)) >>> 0) / 4294967296;
    };
}
function press(id) { at(id).click(); }
function choose(id, value) { at(id).value = value; }
function turnsShown() {
    return [...document.querySelectorAll('#turns button')].filter((one) => !one.hidden);
}
function begin_bus(sizes, kind) {
    choose('rows-kind', kind);
    choose('size-5', '');
    choose('size-6', '');
    sizes.forEach((size, place) => choose('size-' + place, size));
    press('new');
}
const wrong = [];
// A click on a turn, and whether the row that came is the one that the button had said.
function clickTurn(button) {
    const [kind, on] = [...button.querySelectorAll('span:not(.badge)')].map((one) => one.textContent);
    const from = view.step;
    button.click();
    if (kind === 'stopped' || kind === 'nobody') return;
    const row = rowAt(from + 1);
    const isSame = saidKind(row) === kind.replace(/^(tails|heads)$/, 'Vote') &&
        on === (row.word === '-' ? row.answer : named(page, placeOf(row.word)));
    const vote = /^(tails|heads)$/.exec(kind);
    const isVote = !vote || BigInt(row.after) - BigInt(row.found) === BigInt(vote[1] === 'heads' ? 2 ** 32 : 1);
    if (!isSame || !isVote) wrong.push([kind, on, row]);
}
function clickAny(random) {
    const what = random();
    if (what < .72) {
        choose('times', pick(random, [1, 1, 1, 1, 2, 5, 99]));
        choose('votes', pick(random, ['0', '1']));
        clickTurn(pick(random, turnsShown()));
    } else if (what < .9) {
        choose('whom', Math.floor(random() * page.shape.senders));
        choose('which', Math.floor(random() * page.shape.seats));
        choose('free', Math.floor(random() * page.shape.seats));
        choose('message', pick(random, ['', 'a', 'hello', 'eight or more', 'x'.repeat(57), '\\u00e4']));
        press(pick(random, ['put', 'put', 'put', 'put', 'put', 'put', 'close', 'leave', 'stop', 'gone', 'fork', 'fork']));
    } else {
        go(Math.floor(random() * (total + 1)));
    }
}
function sequence(seed) {
    const random = dice(seed);
    const kind = pick(random, ['shape', 'cycle', 'ring']);
    const receivers = 1 + Math.floor(random() * 2);
    begin_bus([1 + Math.floor(random() * 4), receivers, 1 + Math.floor(random() * 3), 2 + Math.floor(random() * 4), 64,
        pick(random, ['', receivers + 1, receivers + 2]), pick(random, ['', '', 1, 2, 64])], kind);
    const [clicks, busy] = [3 + Math.floor(random() * 20), random() < .5];
    for (let s = 0; busy && s < page.shape.senders; s += 1) { choose('whom', s); choose('message', 's' + s); press('put'); }
    for (let click = 0; click < clicks; click += 1) clickAny(random);
    const cells = [...document.querySelectorAll('[data-word]')].map((one) => [one.dataset.word, one.dataset.value || '0']);
    return {script: page.lines.join('\\n') + '\\n', rows: traceText(page), step: view.step, cells, clicks};
}
document.querySelectorAll('details').forEach((part) => { part.open = true; });
0
"""

# Scripts that are refused, and some that are odd.
BAD = [
    "", "\n\n", "# a comment alone\n", "shape 0 1 1 1 16\n", "shape 65 1 1 1 16\n", "shape 1 65 1 1 16\n", "shape 1 1 9 1 16\n",
    "shape 1 1 1 257 16\n", "cycle 1 1 1 1 16\n", "cycle 1 1 1 9 16\n", "shape 1 1 1 1 15\n", "shape 1 1 1 1 65537\n",
    "shape 1 1 1 1\n", " shape 1 1 1 1 16\n", "shape 01 1 1 1 16\n", "shape 1 1 1 1 16\r\nput 0 -\r\n", "inputs 0 1\nsteps 0\n",
    "shape 1 1 1 1 16\nshape 1 1 1 1 16\n", "shape 1 1 1 1 16\nput 0 6\n", "shape 1 1 1 1 16\nput 0 6A\n",
    "shape 1 1 1 1 16\nput 0 61\nput 1 61\n", "shape 1 1 1 1 16\nput 0 61\nturn 0 0 0\n", "shape 1 1 1 1 16\nturn 0 0 10001\n",
    "shape 1 1 1 1 16\nturn 0 4294967296 1\n", "shape 1 1 1 1 16\nrecv 1 1\n", "shape 1 1 1 1 16\nrecv 0  1\n",
    "shape 1 1 1 1 16\nput 0 " + 57 * "61" + "\n", "shape 1 1 1 1 16\n" + 17 * "put 0 -\n", "shape 1 1 1 1 16\nput 0 -\nclose 0\n",
    "shape 1 1 1 1 16\nput 0 -\nturn 0 0 1\nput 0 -\n", "shape 1 1 1 1 16\nstop 0\nturn 0 0 1\n", "shape 1 1 1 1 16\nstop 0\nstop 0\n",
    "shape 1 1 1 1 16\nleave 0\nput 0 -\n", "shape 1 1 1 1 16\nput 18446744073709551616 -\n", "shape 1 1 1 1 16\nconstructor 0\n",
    "ring 1 3 1 2 16 2\n", "ring 1 1 1 2 16 65\n", "ring 1 1 1 2 15 0\n", "ring 1 1 1 2 16 2 2 2\n", "shape 1 1 1 2 16 1\n", "fork 0 1\n",
    "ring 1 1 1 2 16 1 0\n", "ring 1 1 1 2 16 1 65\n", "ring 1 1 1 2 16 0 0\n", "ring 1 1 1 2 16 1 2\n" + 3 * "put 0 -\n",
    "ring 1 1 1 2 16 1 64\n" + 65 * "put 0 -\n", "ring 1 1 1 2 16 1\n" + 17 * "put 0 -\n", "cycle 1 1 1 2 16 1 16\n",
    "ring 1 1 1 2 16 3\nrecv 1 1\n", "ring 1 1 1 2 16 3\ngone 2\n", "ring 1 1 1 2 16 3\nrecv 3 1\n", "ring 1 1 1 2 16 3\nfork 0 3\n",
    "ring 1 1 1 2 16 3\nfork 1 1\n", "ring 1 1 1 2 16 3\nfork 1 2\n", "ring 1 1 1 2 16 3\nfork 0 1 2\n", "ring 1 1 1 2 16 3\nfork 0\n",
    "shape 1 2 1 1 16\nfork 0 1\ngone 1\nfork 0 1\n", "shape 1 2 1 1 16\ngone 0\nfork 0 1\n",
    "shape 1 1 1 1 16\nput 0 -", "shape 1 1 1 1 16\n# </script><b>\u00e4\nput 0 3c2f7363726970743e\nturn 0 0 99\n", "shape 1 1 1 1 16\nturn 0 0\tx\n",
]


def free_places(script):
    """The passed places of a ring's seats that nobody has at first, as they begin."""
    first = next((line.split(" ") for line in script.split("\n") if line and not line.startswith("#")), [""])
    if first[0] != "ring" or len(first) not in (7, 8) or not all(word.isdigit() for word in first[1:]):
        return {}
    return {f"passed {seat}": str(2**64 - 1) for seat in range(int(first[2]), min(64, int(first[6])))}


class Play:
    """The tests, over a page that the program has printed."""

    def __init__(self, root, program, folder, fail):
        self.root, self.program, self.folder, self.fail = root, program, folder, fail
        self.path = f"{folder}/play.html"
        printed = subprocess.run([program, "trace", "--play"], stdin=subprocess.DEVNULL, stdout=subprocess.PIPE, stderr=subprocess.PIPE)
        self.text = printed.stdout.decode()
        with open(self.path, "w", encoding="utf-8") as file:
            file.write(self.text)
        if printed.returncode or printed.stderr:
            fail(f"the page of no script: status {printed.returncode}, {printed.stderr.decode()}")

    def interpreter(self):
        return re.search(r'<script id="interpreter">\n(.*?)</script>', self.text, re.S)[1]

    def names_once(self):
        """All parts of the page's script share their names."""
        scripts = re.findall(r"<script(?: id=\"interpreter\")?>\n(.*?)</script>", self.text, re.S)
        names = collections.Counter(re.findall(r"^(?:function|const|let) (\w+)", "\n".join(scripts), re.M))
        for name in [name for name, count in names.items() if count > 1]:
            self.fail(f"the page has two of {name}")

    def open(self, tab, path=None, fragment=""):
        tab.open((path or self.path) + fragment)
        tab.do(DRIVE)

    def same(self, name, script, rows):
        theirs = trace_of(self.program, script)
        if rows != theirs:
            self.fail(f"{name}: other rows than the program's of\n{script}")

    # ---- Each tour by clicks.
    def tours(self, tab):
        self.open(tab)
        paths = sorted(path for name in ("tour", "stops", "leaving") for path in glob.glob(f"{self.root}/examples/{name}/*.script"))
        count = 0
        for path in paths:
            with open(path, encoding="utf-8") as file:
                lines = [line for line in file.read().split("\n") if line and not line.startswith("#")]
            if "\t" not in trace_of(self.program, "\n".join(lines)).split("\n")[-2]:
                continue  # (a call that is refused is no line)
            first = lines[0].split(" ")
            tab.do(f"begin_bus({json.dumps(first[1:])}, {json.dumps(first[0])}); 0")
            for line in lines[1:]:
                tab.do(self.click_of(line) + "; 0")
            clicked = tab.do("page.lines")
            if clicked != lines:
                other = next((pair for pair in zip(clicked + [""], lines + [""]) if pair[0] != pair[1]), None)
                self.fail(f"{path} by clicks: {other}")
            self.same(path, "\n".join(lines) + "\n", tab.do("traceText(page)"))
            count += 1
        self.complain(tab, "tours")
        print(f"{count} example scripts by clicks: each gives the lines of its file, and the rows of the program")

    @staticmethod
    def click_of(line):
        part = line.split(" ")
        if part[0] == "turn":
            vote = f"choose('votes', {int(part[2]) % 2})"
            return f"choose('times', {part[3]}); {vote}; clickTurn(turnsShown().filter((one) => one.dataset.who === 'sender {part[1]}')[{part[2]} % 2] || turnsShown().find((one) => one.dataset.who === 'sender {part[1]}'))"
        if part[0] == "recv":
            return f"choose('times', {part[2]}); clickTurn(document.querySelector(\"#turns [data-who='receiver {part[1]}']\"))"
        more = ""
        if part[0] == "put":
            more = f"choose('message', {json.dumps(bytes.fromhex(part[2].replace('-', '')).decode())}); "
        if part[0] == "fork":
            more = f"choose('free', {part[2]}); "
        return f"choose('{'which' if part[0] in ('gone', 'fork') else 'whom'}', {part[1]}); {more}press('{part[0]}')"

    # ---- Sequences of clicks at random.
    def sequences(self, tabs, count):
        seeds, sums = list(range(count)), [0, 0, 0]

        def work(place):
            tab, mine = tabs[place], [0, 0, 0]
            self.open(tab)
            for seed in seeds[place :: len(tabs)]:
                mine = [one + more for one, more in zip(mine, self.sequence(tab, seed))]
            for one in tab.do("wrong"):
                self.fail(f"a button said another step than came: {one}")
            self.complain(tab, "sequences")
            return mine

        with concurrent.futures.ThreadPoolExecutor(len(tabs)) as pool:
            for mine in pool.map(work, range(len(tabs))):
                sums = [one + more for one, more in zip(sums, mine)]
        print(f"{count} sequences of {sums[0]} clicks at random: {sums[1]} rows, {sums[2]} words shown, as the program has them")

    def sequence(self, tab, seed):
        made = tab.do(f"sequence({seed})")
        self.same(f"sequence {seed}", made["script"], made["rows"])
        words = free_places(made["script"])
        for line in made["rows"].split("\n")[1 : made["step"] + 1]:
            part = line.split("\t")
            if part[5] != "-":
                words[part[5]] = part[7]
        for word, value in made["cells"]:
            if words.get(word, "0") != value:
                self.fail(f"sequence {seed}: {word} shows {value} and is {words.get(word, '0')}, at step {made['step']} of\n{made['script']}")
        return made["clicks"], made["rows"].count("\n") - 1, len(made["cells"])

    # ---- Scripts that are pasted, good or bad.
    def pasted(self, tab):
        self.open(tab)
        for script in BAD:
            tab.do(f"choose('text', {json.dumps(script)}); press('read'); 0")
            # (a browser makes a line feed of CRLF)
            script, rows, refusal = tab.do("[at('text').value, traceText(page), page.refusal]")
            theirs = trace_of(self.program, script.encode().decode("latin1"))
            if rows != theirs:
                self.fail(f"pasted {script!r}: {rows!r}, and not {theirs!r}")
            if refusal and refusal not in tab.do("at('refused').textContent"):
                self.fail(f"pasted {script!r}: the page does not say {refusal}")
            if refusal and refusal.split(": ")[1] not in tab.do("at('says').textContent"):
                self.fail(f"pasted {script!r}: nothing says why")
            if tab.do("turnsShown().length"):
                tab.do("clickTurn(turnsShown()[turnsShown().length - 1]); 0")
                self.same("behind a refusal", tab.do("page.lines.join('\\n') + '\\n'").encode().decode("latin1"), tab.do("traceText(page)"))
        tab.do(f"choose('text', 'shape 1 1 1 1 16\\n# ' + 'x'.repeat(1048576)); press('read'); 0")
        if "too long" not in tab.do("at('says').textContent"):
            self.fail("a script that is too long is not refused")
        self.complain(tab, "pasted")
        print(f"{len(BAD)} scripts pasted, most of them refused: the rows and the refusal are the program's")

    # ---- Links, the browser's back, and keys.
    def addresses(self, tab):
        self.open(tab)
        tab.do("clickTurn(turnsShown()[0]); press('link'); 0")
        lines, link = tab.do("page.lines"), tab.do("at('text').value")
        self.open(tab, link.replace("file://", ""))
        if tab.do("page.lines") != lines or "," not in link:
            self.fail(f"the link {link} opens {tab.do('page.lines')}, and not {lines}")
        tab.do("begin_bus([2, 1, 1, 4, 64], 'shape'); choose('message', 'a.b~c'); press('put'); 0")
        tab.do("clickTurn(turnsShown()[0]); clickTurn(turnsShown()[0]); press('link'); 0")
        lines, link = tab.do("page.lines"), tab.do("at('text').value")
        self.open(tab, link.replace("file://", ""))
        if tab.do("page.lines") != lines or tab.do("view.step") != 3:
            self.fail(f"the link {link} opens {tab.do('page.lines')} at {tab.do('view.step')}")
        tab.do("go(1); clickTurn(turnsShown()[2]); 0")
        other = tab.do("page.lines")
        if other == lines or other[:2] != lines[:2]:
            self.fail(f"another way from step 1: {other}")
        for way, wanted in (("back", lines), ("forward", other)):
            tab.do(f"new Promise((done) => {{ addEventListener('popstate', () => setTimeout(done, 50), {{once: true}}); history.{way}(); }}).then(() => 0)")
            if tab.do("page.lines") != wanted:
                self.fail(f"{way} in the browser finds {tab.do('page.lines')}, and not {wanted}")
        self.opening_of_an_address(tab)
        for odd in ("#3,%ff", "#99,shape.1.1.1.1.16", "#nothing", "#0,", "#2,turn.0.0.1"):
            self.open(tab, fragment=odd)
            self.same(odd, tab.do("page.lines.join('\\n') + '\\n'"), tab.do("traceText(page)"))
        self.complain(tab, "addresses")
        print("links, the browser's back and forward, and odd addresses")

    def keys(self, tab):
        self.open(tab)
        tab.do("begin_bus([2, 2, 2, 4, 64], 'shape'); document.activeElement.blur(); 0")
        tab.key("p")
        tab.call("Input.insertText", text="by keys")
        tab.key("Enter")
        tab.do("document.activeElement.blur(); 0")
        for key in "0 0 1 r 0".split():
            tab.key(key)
        wanted = ["shape 2 2 2 4 64", "put 0 6279206b657973", "turn 0 0 1", "turn 0 0 1", "turn 1 0 1", "recv 0 1", "turn 0 0 1"]
        if tab.do("page.lines") != wanted:
            self.fail(f"by keys: {tab.do('page.lines')}")
        # By Tab alone from the top to each control, and a press of Enter on a turn.
        tab.do("at('first').focus(); at('times').value = 1; 0")
        reached, turn = set(), False
        for _ in range(120):
            tab.key("Tab")
            reached.add(tab.do("document.activeElement.id || document.activeElement.dataset.who || document.activeElement.tagName"))
            if tab.do("document.activeElement.dataset.who") == "receiver 1" and not turn:
                turn = True
                tab.do("document.activeElement.click(); 0")
        missed = {"sender 0", "sender 1", "receiver 0", "receiver 1", "times", "votes", "opening", "anew", "whom", "message", "put",
                  "close", "leave", "stop", "gone", "fork", "free", "rows-kind", "size-0", "size-5", "size-6", "new", "text", "copy", "read",
                  "link"} - reached
        if missed:
            self.fail(f"Tab does not go to {sorted(missed)}")
        tab.do("at('place').focus; document.activeElement.blur(); 0")
        self.complain(tab, "keys")
        print("keys alone: turns, votes, a message, and Tab to each control")

    # ---- On a phone, light and dark.
    def looks(self, tab):
        self.open(tab)
        tab.do("document.querySelectorAll('details').forEach((part) => { part.open = false; })")
        for width, height in ((390, 844), (360, 640), (1600, 900), (1024, 600)):
            tab.size(width, height)
            wide = tab.do("document.documentElement.scrollWidth")
            if wide > width:
                self.fail(f"{width} wide, the page has {wide}")
            box = tab.do("(() => { const box = document.querySelector('#turns button').getBoundingClientRect(); return [box.left, box.top, box.right, box.bottom]; })()")
            if box[0] < 0 or box[1] < 0 or box[2] > width or box[3] > height:
                self.fail(f"{width} by {height}: the first turn is at {box}")
        for bus, kind in (("2 1 1 4 64", "shape"), ("8 8 2 4 64", "ring")):
            tab.do(f"begin_bus('{bus}'.split(' '), '{kind}'); 0")
            for height in (800, 667):
                tab.size(400, height)
                for wrong in tab.crowding():
                    self.fail(f"400 by {height}, {kind} {bus}: {wrong}")
        tab.size(1600, 900)
        print("on a phone and on a screen: nothing is too wide, the turns are in sight, and the controls take a fifth and hide nothing")

    # A link, and the browser's back, show the opening that their script went on from, and none of a script of one's own.
    def opening_of_an_address(self, tab):
        def shows(where, opening):
            shown = tab.do("[at('opening').value, at('question').hidden, at('question').textContent]")
            question = tab.do(f"OPENINGS[{opening}].question") if opening else ""
            if shown != [opening, not opening, question]:
                self.fail(f"{where} shows the opening {shown}, and not {opening or 'none'}")

        self.open(tab)
        tab.do("choose('opening', '3'); at('opening').dispatchEvent(new Event('change')); clickTurn(turnsShown()[0]); press('link'); 0")
        lines, link = tab.do("page.lines"), tab.do("at('text').value")
        self.open(tab, link.replace("file://", ""))
        if tab.do("page.lines") != lines:
            self.fail(f"the link {link} opens {tab.do('page.lines')}, and not {lines}")
        shows("a link", "3")
        tab.do("choose('opening', '5'); at('opening').dispatchEvent(new Event('change')); clickTurn(turnsShown()[0]); 0")
        tab.do("new Promise((done) => { addEventListener('popstate', () => setTimeout(done, 50), {once: true}); history.back(); }).then(() => 0)")
        shows("back in the browser", "3")
        self.open(tab, fragment="#2,shape.1.1.1.1.16~put.0.61~turn.0.0.1")
        shows("a script of one's own", "")

    # ---- What the openings say can be done.
    def openings(self, tab):
        self.open(tab)
        ways = {
            1: ["turn 0 0 1", "turn 0 1 1", "turn 0 0 1", "turn 0 1 1", "turn 0 0 1", "turn 0 1 1", "turn 0 0 1", "turn 0 1 1", "turn 0 0 1"]
            + ["turn 1 0 1"] + ["turn 1 0 1", "turn 1 0 1"] * 8 + ["turn 0 0 1", "turn 1 0 1"],
            2: (["turn 0 0 99", "turn 0 0 99", "turn 1 0 99", "put 0 61", "turn 1 0 1"] * 20),
            3: ["turn 0 0 99", "stop 0", "turn 1 0 99", "turn 1 0 99", "turn 1 0 1", "recv 0 1"],
            4: ["turn 0 0 99", "turn 1 0 99"],
            5: ["turn 0 0 99", "turn 0 0 1", "turn 0 0 99", "turn 1 0 99", "turn 0 0 99"],
            6: ["turn 0 0 99", "recv 1 99", "turn 0 0 99", "turn 0 0 99", "put 0 61", "gone 1", "turn 0 0 99", "turn 0 0 99"],
        }
        ends = {1: "WriteFirst\trow 0 bit 0 round 2 input 0", 2: None, 3: "waiting", 4: "lost 0 0", 5: "delivered 1 1 1", 6: "delivered 3 2 2"}
        for place, way in ways.items():
            tab.do(f"choose('opening', '{place}'); at('opening').dispatchEvent(new Event('change')); 0")
            for line in way:
                tab.do(self.click_of(line) + "; 0")
            rows = tab.do("traceText(page)")
            self.same(f"opening {place}", tab.do("page.lines.join('\\n') + '\\n'"), rows)
            if ends[place] and ends[place] not in rows:
                self.fail(f"opening {place} does not come to {ends[place]}:\n{rows}")
            if place == 1 and "row 0 bit 0 round 2 input 1" not in rows:
                self.fail(f"the coins do not differ:\n{rows}")
            if place == 2 and ("sender 1" not in rows or re.search(r"sender 1\t.*\town ", rows)):
                self.fail("sender 1 is not starved")
        self.complain(tab, "openings")
        print(f"{len(ways)} openings: what is said to be possible is, and the rows are the program's")

    def complain(self, tab, where):
        for text in tab.complaints():
            self.fail(f"{where}: {text}")

    # ---- What a click takes.
    def times(self, tab, spent, judges):
        self.open(tab)
        tab.do("document.querySelectorAll('details').forEach((part) => { part.open = false; })")
        tab.call("Performance.enable", timeDomain="threadTicks")
        for sizes, kind in (("2 1 4 200 4096", "shape"), ("3 2 4 8 4096", "cycle"), ("64 8 4 8 65536", "cycle"), ("64 64 4 8 65536", "ring")):
            tab.do(f"begin_bus('{sizes}'.split(' '), '{kind}'); 0")
            tab.do("(() => { const random = dice(1); for (let s = 0; s < page.shape.senders; s += 1) { choose('whom', s); press('put'); } choose('times', 1);"
                   " const lines = page.lines.slice(); while (lines.length < 1001) lines.push(random() < .9 ? 'turn ' + Math.floor(random() * page.shape.senders) + ' 0 1' : 'recv 0 1');"
                   " loadText(lines.join('\\n') + '\\n'); })(); 0")
            steps = tab.do("total")
            took, other = [], []
            for number in range(40):
                choose = f"turnsShown()[{number} % 2]"
                for list_, way in ((took, "0"), (other, f"go(total - {number % 20 + 1})")):
                    tab.do(f"{way}; document.body.getBoundingClientRect(); 0")
                    before = spent(tab)
                    tab.do(f"{choose}.click(); document.body.getBoundingClientRect(); 0")
                    list_.append(spent(tab) - before)
            took.sort()
            other.sort()
            if judges and took[20] > 60 and not sizes.startswith("64"):
                self.fail(f"a click takes {took[20]:.1f} ms with {sizes}")
            print(f"{kind} {sizes}, {steps} steps: a click takes {took[20]:.1f} ms, at most {took[-1]:.1f}; one from an earlier step {other[20]:.1f}, at most {other[-1]:.1f}")
        self.complain(tab, "times")
