"""picture.py: draws docs/pictures/peers.svg of the figures in figures.tsv, which `run --figures` writes: nanoseconds a message by
the number of senders, of the bus and of its peers.
"""
import pathlib, sys

HERE = pathlib.Path(__file__).resolve().parent
sys.path.insert(0, str(HERE.parent))
from curves import Picture

LOOKS = {  # the colour, the dashes and the thickness of each line
    "the bus": ("#000", "", 4),
    "mutex log": ("#06c", "", 2),
    "lock log, free readers": ("#06c", "6 4", 2),
    "ticket log": ("#06c", "2 4", 2),
    "Disruptor": ("#a50", "", 2),
    "channels of batches": ("#080", "", 2),
    "tokio broadcast": ("#080", "6 4", 2),
}
RECEIVERS, BYTES, MESSAGES = 2, 8, 3840


def read_figures():
    """What the heads say, and of each name its points: senders and nanoseconds."""
    heads, points = {}, {name: [] for name in LOOKS}
    for line in (HERE / "figures.tsv").read_text().splitlines():
        if line.startswith("# "):
            key, value = line[2:].split(": ", 1)
            heads[key] = value
            continue
        name, *numbers = line.split("\t")
        if name in points:
            senders, receivers, size, messages, time = map(float, numbers)
            if (receivers, size, senders * messages) == (RECEIVERS, BYTES, MESSAGES):
                points[name].append((int(senders), time))
    return heads, {name: sorted(line) for name, line in points.items() if line}


def main():
    heads, lines = read_figures()
    what = f"{RECEIVERS} receivers, {BYTES} bytes, {MESSAGES:,} messages in all; {heads['figures']}; logarithmic"
    where = f"{heads['machine']}, {heads['day']}, without proof"
    title = "Nanoseconds a message, by the number of senders"
    drawn = Picture(title, [what, where], "senders", LOOKS, lines).drawn()
    (HERE.parent.parent / "docs/pictures/peers.svg").write_text(drawn)


main()
