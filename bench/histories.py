"""Whether a history of calls on registers is linearizable, by the search of Wing and Gong (1993) with the states that were tried
remembered (Lowe 2017). A history is linearizable exactly where the calls of each key alone are (Herlihy and Wing 1990).

usage: histories.py < HISTORY      with a line a call: worker begin end key swap VALUE ANSWER, or worker begin end key read ANSWER
       histories.py --self         histories worked out by hand, of which each has to be told right

Prints `linearizable` or the key, the call that no order has a place for, and what stood before it; ends with 1 then.
"""
import sys


def calls_of(lines):
    """The calls, by key: (begin, end, put or None, answer)."""
    keys = {}
    for line in lines:
        words = line.split()
        if not words:
            continue
        begin, end, key = int(words[1]), int(words[2]), int(words[3])
        if words[4] == "swap":
            call = (begin, end, int(words[5]), int(words[6]))
        elif words[4] == "read":
            call = (begin, end, None, int(words[5]))
        else:
            raise ValueError(line)
        keys.setdefault(key, []).append(call)
    return keys


def order_of(calls):
    """An order of the calls that a register's sequential rule allows, and that keeps real time; None where there is none. With it
    goes the largest number of calls that any try placed, and the calls that were due then."""
    calls = sorted(calls)
    many = len(calls)
    # the calls that have begun before the first end among those that are left may be next
    following = list(range(1, many)) + [-1]
    preceding = [-1] + list(range(many - 1))
    head = 0 if many else -1
    value, placed, stack, tried = 0, 0, [], set()
    best, due = -1, []
    taken = 0

    def open_calls():
        """The calls left that began before each that is left has ended, by their begin."""
        found, least, at = [], None, head
        while at != -1 and (least is None or calls[at][0] <= least):
            found.append(at)
            least = calls[at][1] if least is None else min(least, calls[at][1])
            at = following[at]
        return found

    options = open_calls()
    while True:
        if placed == many:
            return [calls[it] for it, _, _ in stack], placed, []
        if placed > best:
            best, due = placed, [calls[it] for it in options]
        step = None
        while options:
            at = options.pop()
            _, _, put, answer = calls[at]
            if answer != value:
                continue
            state = (taken | 1 << at, value if put is None else put)
            if state in tried:
                continue
            tried.add(state)
            step = at
            break
        if step is None:
            if not stack:
                return None, best, due
            at, options, value = stack.pop()
            # put it back where it was
            before, after = preceding[at], following[at]
            if before == -1:
                head = at
            else:
                following[before] = at
            if after != -1:
                preceding[after] = at
            taken ^= 1 << at
            placed -= 1
            continue
        stack.append((step, options, value))
        before, after = preceding[step], following[step]
        if before == -1:
            head = after
        else:
            following[before] = after
        if after != -1:
            preceding[after] = before
        taken |= 1 << step
        placed += 1
        if calls[step][2] is not None:
            value = calls[step][2]
        options = open_calls()


def judge(lines):
    """The fault of a history, or None."""
    for key, calls in sorted(calls_of(lines).items()):
        order, most, due = order_of(calls)
        if order is None:
            return f"key {key}: no order has all {len(calls)} calls; {most} were placed, and none of these is next: {due}"
    return None


# Histories by hand, each with whether an order has it.
BY_HAND = [
    ("nothing", [], True),
    ("one after another", ["0 0 1 0 swap 5 0", "1 2 3 0 read 5", "1 4 5 0 swap 6 5", "0 6 7 0 read 6"], True),
    ("two at once, the later begin first", ["0 0 9 0 swap 5 6", "1 1 8 0 swap 6 0", "2 10 11 0 read 5"], True),
    ("a read beside a swap sees it or not", ["0 0 9 0 swap 5 0", "1 1 2 0 read 5", "2 3 4 0 read 5"], True),
    ("a read that is stale", ["0 0 1 0 swap 5 0", "1 2 3 0 read 0"], False),
    ("a read sees it, and a later one does not", ["0 0 9 0 swap 5 0", "1 1 2 0 read 5", "2 3 4 0 read 0"], False),
    ("an answer of another place", ["0 0 1 0 swap 5 0", "1 2 3 0 swap 6 0"], False),
    ("an operation is lost", ["0 0 1 0 swap 5 0", "1 2 3 0 swap 6 5", "0 4 5 0 swap 7 5"], False),
    ("an operation twice", ["0 0 1 0 swap 5 0", "1 2 3 0 swap 6 5", "0 4 5 0 read 5"], False),
    ("keys are apart", ["0 0 1 0 swap 5 0", "1 2 3 1 read 0", "1 4 5 1 swap 6 0", "0 6 7 0 read 5"], True),
    ("a value from nowhere", ["0 0 1 0 read 9"], False),
    ("it has to go back on its first try", ["0 0 9 0 swap 1 0", "1 0 9 0 swap 2 1", "2 0 9 0 swap 3 2", "0 10 11 0 read 3"], True),
]


def main():
    if sys.argv[1:] == ["--self"]:
        failed = 0
        for name, lines, is_right in BY_HAND:
            if (judge(lines) is None) != is_right:
                print(f"{name}: judged wrongly")
                failed += 1
        print(f"{len(BY_HAND) - failed} passed, {failed} failed")
        return 1 if failed else 0
    if sys.argv[1:]:
        print(__doc__, file=sys.stderr)
        return 2
    fault = judge(sys.stdin)
    print(fault or "linearizable")
    return 1 if fault else 0


sys.exit(main())
