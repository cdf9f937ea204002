"""replicas_picture.py: draws docs/pictures/replicas.svg of what `bench/replicas` prints, which it reads from standard input: nanoseconds a
call by how many calls of 1,000 write, of 4 workers.

usage: bench/replicas ... | python3 bench/replicas_picture.py MACHINE_AND_DAY
"""
import pathlib, re, sys

from curves import Picture

LOOKS = {  # the colour, the dashes and the thickness of each line
    "state+submit": ("#000", "", 4),
    "state+execute": ("#000", "6 4", 2),
    "latest+submit": ("#a50", "", 2),
    "latest+execute": ("#a50", "6 4", 2),
    "mutex": ("#06c", "6 4", 2),
    "rwlock": ("#06c", "", 2),
    "parking_lot": ("#06c", "2 4", 2),
    "dashmap": ("#080", "", 2),
    "left-right": ("#080", "6 4", 2),
    "node-replication": ("#080", "2 4", 2),
}
WRITES = [0, 1, 10, 100, 500]


def read_lines(text):
    """Of each entrant with 4 workers its points: writes in 1,000 calls and nanoseconds."""
    part = re.search(r"^4 workers.*?(?=^8 workers|\Z)", text, re.M | re.S)
    lines = {}
    for name in LOOKS:
        row = re.search(rf"^\|? *{re.escape(name)} *((?:\|? *[0-9,]+ *)+)", part[0], re.M) if part else None
        if row:
            times = [int(word.replace(",", "")) for word in re.findall(r"[0-9][0-9,]*", row[1])]
            lines[name] = list(zip(WRITES, times))
    return lines


def main(words):
    if len(words) != 1:
        sys.exit("usage: bench/replicas ... | python3 bench/replicas_picture.py MACHINE_AND_DAY")
    lines = read_lines(sys.stdin.read())
    what = "4 workers, a map of 65,536 keys of 8 bytes; medians of one run; logarithmic"
    places = {number: place for place, number in enumerate(WRITES)}
    title = "Nanoseconds a call, by how many of 1,000 write"
    drawn = Picture(title, [what, words[0] + ", without proof"], "writes in 1,000 calls", LOOKS, lines, places).drawn()
    (pathlib.Path(__file__).resolve().parent.parent / "docs/pictures/replicas.svg").write_text(drawn)


main(sys.argv[1:])
