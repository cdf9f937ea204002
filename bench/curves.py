"""curves.py: draws curves of nanoseconds by some number, as a picture. bench/peers/picture.py and bench/replicas_picture.py do."""
import math

WIDTH, HEIGHT, LEFT, RIGHT, TOP, BOTTOM = 780, 430, 60, 200, 64, 50
STYLE = (
    "text{fill:#000}.grid{stroke:#ddd}.small{font-size:12px;fill:#444}"
    "@media(prefers-color-scheme:dark){svg{filter:invert(1) hue-rotate(180deg)}}"
)


class Picture:
    """What is drawn: curves by name, each a list of a number and a time, and what stands around them. `looks` has the colour, the dashes
    and the thickness of each. The numbers stand at `places`, or where these are left out at lengths as they are.
    """

    def __init__(self, title, heads, axis, looks, lines, places=None):
        self.title, self.heads, self.axis, self.looks, self.lines = title, heads, axis, looks, lines
        times = [time for line in lines.values() for _, time in line]
        self.ticks = [unit * 10**power for power in range(6) for unit in (1, 2, 5)]
        self.least = max(tick for tick in self.ticks if tick <= min(times))
        self.most = min(tick for tick in self.ticks if tick >= max(times))
        self.numbers = sorted({number for line in lines.values() for number, _ in line})
        self.places = places or {number: number for number in self.numbers}

    def across(self, number):
        first, last = self.places[self.numbers[0]], self.places[self.numbers[-1]]
        return LEFT + 12 + (self.places[number] - first) * (WIDTH - LEFT - RIGHT - 24) / (last - first)

    def down(self, time):
        """Times double by equal lengths."""
        share = math.log(time / self.least) / math.log(self.most / self.least)
        return HEIGHT - BOTTOM - share * (HEIGHT - TOP - BOTTOM)

    def axes(self):
        for tick in self.ticks:
            if self.least <= tick <= self.most:
                y = self.down(tick)
                yield f"<path class='grid' d='M{LEFT} {y:.1f}H{WIDTH - RIGHT}'/>"
                yield f"<text x='{LEFT - 8}' y='{y + 4:.1f}' text-anchor='end'>{tick:,}</text>"
        for number in self.numbers:
            yield f"<text x='{self.across(number):.1f}' y='{HEIGHT - BOTTOM + 20}' text-anchor='middle'>{number}</text>"
        yield f"<text x='{(LEFT + WIDTH - RIGHT) / 2}' y='{HEIGHT - 10}' text-anchor='middle'>{self.axis}</text>"

    def curves(self):
        ends = [self.down(line[-1][1]) for line in self.lines.values()]
        for (name, line), label in zip(self.lines.items(), apart(ends)):
            colour, dashes, thick = self.looks[name]
            weight = "bold" if thick > 2 else "normal"
            points = [f"{self.across(number):.1f} {self.down(time):.1f}" for number, time in line]
            dashed = f" stroke-dasharray='{dashes}'" if dashes else ""
            yield f"<path d='M{'L'.join(points)}' fill='none' stroke='{colour}' stroke-width='{thick}'{dashed}/>"
            for number, time in line:
                x, y = self.across(number), self.down(time)
                yield f"<circle cx='{x:.1f}' cy='{y:.1f}' r='{thick}' fill='{colour}'><title>{name}: {time:.0f} ns</title></circle>"
            text = f"{name}, {line[-1][1]:.0f}"
            yield f"<text x='{WIDTH - RIGHT + 4}' y='{label + 4:.1f}' style='fill:{colour}' font-weight='{weight}'>{text}</text>"

    def drawn(self):
        return "\n".join(self.parts()) + "\n"

    def parts(self):
        size = f"width='{WIDTH}' height='{HEIGHT}' viewBox='0 0 {WIDTH} {HEIGHT}'"
        yield f"<svg xmlns='http://www.w3.org/2000/svg' font-family='sans-serif' font-size='13' {size}>"
        yield f"<title>{self.title}</title>"
        yield f"<style>{STYLE}</style><rect width='100%' height='100%' fill='#fff'/>"
        yield f"<text x='8' y='20' font-size='15' font-weight='bold'>{self.title}</text>"
        yield "".join(f"<text class='small' x='8' y='{38 + 16 * row}'>{head}</text>" for row, head in enumerate(self.heads))
        yield from self.axes()
        yield from self.curves()
        yield "</svg>"


def apart(places, least=15):
    """The places, pushed apart to the least distance, as near to where they were as goes."""
    groups = []
    for index in sorted(range(len(places)), key=lambda index: places[index]):
        groups.append([[index], places[index]])
        while len(groups) > 1:
            (upper, above), (lower, below) = groups[-2:]
            if below - above >= least * (len(upper) + len(lower)) / 2:
                break
            both = upper + lower
            groups[-2:] = [[both, (above * len(upper) + below * len(lower)) / len(both)]]
    moved = list(places)
    for group, middle in groups:
        for place, index in enumerate(group):
            moved[index] = middle + (place - (len(group) - 1) / 2) * least
    return moved
