#!/usr/bin/env python3
"""What is answered to a script of pieces, worked out from the words of docs/RULE.md and not by the program: tools/play_by_rule.py < NAME.script
With folders named, whether each NAME.script in them has for its answer what NAME.report holds: tools/play_by_rule.py examples"""

import pathlib
import sys


class Refused(Exception):
    pass


def judge(passes, refusal):
    if not passes:
        raise Refused(refusal)


class Reader:
    def __init__(self, data):
        self.data, self.at = data, 0

    def number(self):
        groups = []
        for byte in self.data[self.at : self.at + 5]:
            judge(groups or byte != 0x80, 3)
            groups.append(byte % 128)
            if byte < 128:
                break
        else:
            judge(len(groups) < 5, 2)
            raise Refused(1)
        self.at += len(groups)
        value = sum(group << 7 * i for i, group in enumerate(reversed(groups)))
        judge(value < 2**32, 2)
        return value


def read(data):
    """n, t, the pieces, and of each box that falls its round and lost set."""
    reader = Reader(data)
    n, t = reader.number(), reader.number()
    judge(2 <= n <= 32 and 1 <= t < n, 11)
    pieces = []
    for _ in range(n):
        pieces.append(reader.number())
        judge(pieces[-1] <= 16383, 9)
    count, falls = reader.number(), {}
    judge(count <= t, 21)
    for _ in range(count):
        fallen = reader.number()
        judge(1 <= fallen <= t + 1, 21)
        q = reader.number()
        judge(q < n, 5)
        judge(q not in falls, 21)
        mask = reader.number()
        judge(mask < 2**n and not mask >> q & 1, 8)
        falls[q] = fallen, {p for p in range(n) if mask >> p & 1}
    judge(reader.at == len(data), 4)
    return n, t, pieces, falls


def play(n, t, pieces, falls):
    """The report, by the values that the rule gives each box in each round."""
    boxes = range(n)

    def closes(p, r):
        return p not in falls or falls[p][0] > r

    def heard(p, r):
        return [q for q in boxes if q == p or closes(q, r) or falls[q][0] == r and p not in falls[q][1]]

    def found_missing(r):
        return [q for q in falls if falls[q][0] < r or falls[q][0] == r and any(closes(p, r) for p in falls[q][1])]

    due = t + 1 - max([0] + [len(found_missing(r)) - r for r in range(1, t + 2)])
    missed, best, estimate = [set() for _ in boxes], [t + 1] * n, pieces
    for r in range(1, due + 1):
        heard_by = [heard(p, r) for p in boxes]
        known = [set().union(*(missed[q] for q in heard_by[p])) for p in boxes]
        missed = [set(boxes) - set(heard_by[p]) for p in boxes]
        best = [min(best[p], r + t - len(known[p])) for p in boxes]
        estimate = [min(estimate[q] for q in heard_by[p]) for p in boxes]
        ringing = {p for p in boxes if closes(p, r) and best[p] == r}
        # What is proved: nobody rings before that round, and in it each that closes it, on one piece.
        assert ringing == ({p for p in boxes if closes(p, r)} if r == due else set())
    assert len({estimate[p] for p in ringing}) == 1
    told = [f"rings {due} {estimate[p]}" if p in ringing else f"down {falls[p][0]}" for p in boxes]
    return "".join(f"{p} {words}\n" for p, words in enumerate(told))


def answer(data):
    try:
        return play(*read(data))
    except Refused as refusal:
        return f"refused {refusal}\n"


def main(folders):
    if not folders:
        sys.stdout.write(answer(sys.stdin.buffer.read()))
        return 0
    scripts = sorted(it for folder in folders for it in pathlib.Path(folder).glob("*.script"))
    wrong = [it for it in scripts if answer(it.read_bytes()) != it.with_suffix(".report").read_text()]
    for it in wrong:
        print(f"{it}: the rule has another report")
    print(f"{len(scripts)} scripts, {len(wrong)} wrong")
    return 1 if wrong else 0


sys.exit(main(sys.argv[1:]))
