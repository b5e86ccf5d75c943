#!/usr/bin/env python3
"""The account of rust/account: reads callgrind's counts from a folder and prints where the instructions went.

The folder has fine.out and tight.out (short replays of these lists on ours), ours.out and chip-rust.out (each call by itself), for each of the two PEER
also PEER-64.out and PEER-4096.out (calls with a full pool of so many pages), PEER-level-2.out, PEER-level-255.out, PEER-falling-2.out and
PEER-falling-255.out (rollbacks with so many tags in use), block.out (the writes of the list block, in blocks and singly), runner.out (the runner on the
first lines of the long session), and beside each a .txt with the calls or lines made.
"""
import re
import sys
from collections import Counter
from pathlib import Path


def counts(path):
    """For each function its own instructions; for each pair of functions those of the second as called from the first, and how often."""
    own, called, times = Counter(), Counter(), Counter()
    names = {}

    def name_of(text):
        number, name = re.fullmatch(r"\((\d+)\)(?: (.*))?", text).groups()
        return names.setdefault(number, name)

    here = callee = None
    for line in path.read_text().splitlines():
        key, equals, text = line.partition("=")
        if equals and key in ("fn", "cfn"):
            name = name_of(text)
            if key == "fn":
                here = name
            else:
                callee = name
        elif equals and key == "calls":
            times[here, callee] += int(text.split()[0])
        elif re.match(r"[+\-*\d]", line):
            cost = int(line.split()[1]) if len(line.split()) > 1 else 0
            if callee is None:
                own[here] += cost
            else:
                called[here, callee] += cost
                callee = None
    return own, called, times


def short(name):
    if re.match(r"_*mem(cpy|move)", name):
        return "memcpy"
    if re.match(r"_*memset", name):
        return "memset"
    return re.sub(r"'\d+$", "", name)


def numbers(path):
    return {words[0]: int(words[1]) for words in map(str.split, path.read_text().splitlines())}


def shares(folder, workload):
    """Prints the shares of a replay; the instructions of one call of its list."""
    own, called, times = counts(folder / f"{workload}.out")
    calls = numbers(folder / f"{workload}.txt")["calls"]
    rows, often = Counter(), Counter()
    for name, cost in own.items():
        if short(name) not in ("memcpy", "memset"):
            rows[short(name)] += cost
    for (caller, callee), cost in called.items():
        if short(callee) in ("memcpy", "memset"):
            name = f"{short(callee)} from {short(caller)}"
            rows[name] += cost
            often[name] += times[caller, callee]
    total = sum(rows.values())
    print(f"{workload} on ours: {total / calls:.0f} instructions a call of the list, {calls} calls")
    print(f"{'share':>7} {'a call':>8}  function")
    for name, cost in rows.most_common():
        if cost * 1000 >= total:
            more = f", {often[name] / calls:.1f} times" if often[name] else ""
            print(f"{100 * cost / total:6.1f}% {cost / calls:8.1f}  {name}{more}")
    return total / calls


CASES = {
    "read_hit": "READ, line in the cache",
    "read_miss": "READ, not in the cache, searched to the archive",
    "write": "WRITE, line written in the frame and in the cache",
    "first_write": "WRITE, first of its page",
    "mark": "MARK",
    "rollback": "ROLLBACK(1) without sweep",
    "sweep": "ROLLBACK(1) that sweeps",
    "advance": "ADVANCE(4)",
}
FULL = {
    "counts": "COUNTS",
    "refused_write": "WRITE refused with 13",
    "write_again": "WRITE, first after ROLLBACK(1) and MARK",
    "rollback": "ROLLBACK(1) without sweep",
}
TAGS = {
    "level": "MARK and ROLLBACK(1) repeated at one level: two entries are compared",
    "falling": "the same, then ROLLBACK(1) without a mark between: every entry is compared",
}


def costs(folder, name):
    """For each case of a run the instructions of one call."""
    _, called, _ = counts(folder / f"{name}.out")

    def cost(case):
        # what its callers count of the loop that makes the calls, the loop's own few instructions included
        return sum(c for (_, callee), c in called.items() if callee.endswith(f"::call_{case}"))

    return {case: cost(case) / made for case, made in numbers(folder / f"{name}.txt").items()}


def cases(folder):
    ours, chip = (costs(folder, peer) for peer in ("ours", "chip-rust"))
    print("instructions for one call (L 4096, F 64, P 512, 32 live frames)")
    print(f"{'ours':>10} {'chip-rust':>10} {'ratio':>7}  call")
    for case, words in CASES.items():
        print(f"{ours[case]:10.0f} {chip[case]:10.0f} {ours[case] / chip[case]:7.1f}  {words}")


def full(folder):
    print("the same with all pages needed, P 64 and P 4096; ratio: the second over the first")
    print(f"{'ours 64':>10} {'4096':>10} {'ratio':>7} {'chip 64':>10} {'4096':>10} {'ratio':>7}  call")
    runs = [(costs(folder, f"{peer}-64"), costs(folder, f"{peer}-4096")) for peer in ("ours", "chip-rust")]
    for case, words in FULL.items():
        parts = [f"{few[case]:10.0f} {many[case]:10.0f} {many[case] / few[case]:7.2f}" for few, many in runs]
        print(f"{' '.join(parts)}  {words}")


def tags(folder):
    print("ROLLBACK(1) without sweep with 2 and with 255 tags in use; more: the second less the first")
    print(f"{'ours 2':>10} {'255':>10} {'more':>7} {'chip 2':>10} {'255':>10} {'more':>7}  call")
    for case, words in TAGS.items():
        parts = []
        for peer in ("ours", "chip-rust"):
            few, many = (costs(folder, f"{peer}-{case}-{number}")["rollback"] for number in (2, 255))
            parts.append(f"{few:10.0f} {many:10.0f} {many - few:7.0f}")
        print(f"{' '.join(parts)}  {words}")


def block(folder):
    cost = costs(folder, "block")
    print("instructions for one write of the list `block`, ours, the same writes in blocks of 64 and singly (L 4096, F 64, P 2048)")
    print(f"{'in a block':>10} {'single':>10} {'fewer':>10}")
    print(f"{cost['block']:10.1f} {cost['single']:10.1f} {cost['single'] - cost['block']:10.1f}")


def runner(folder):
    own, _, _ = counts(folder / "runner.out")
    lines = numbers(folder / "runner.txt")["lines"]
    print(f"runner: {sum(own.values()) / lines:.0f} instructions a line of the long session, {lines} lines")


def main():
    folder = Path(sys.argv[1])
    fine = shares(folder, "fine")
    print()
    tight = shares(folder, "tight")
    print(f"tight over fine: {tight / fine:.2f}")
    print()
    cases(folder)
    print()
    full(folder)
    print()
    tags(folder)
    print()
    block(folder)
    print()
    runner(folder)


if __name__ == "__main__":
    main()
