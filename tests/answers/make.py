#!/usr/bin/env python3
"""Writes the oracle's answers to questions about totals, edges, ranks, samples, shuffles, compromised sets, terms,
groups, routes and leaders, a question and its answer on a line.

    make.py ORACLE [CRATES]

ORACLE is a program that runs the Rust module and answers questions about it. The questions on totals, edges and
ranks go to replay/stdin in the folder CRATES, the others to replay_rigs/stdin; CRATES is the repository's own unless
another folder is given. The questions do not depend on anything but this script, so two runs write the same files.
"""
import os
import subprocess
import sys

SLOTS = 2000        # how many entries a plan's counts may take
WIDE_SLOTS = 40_000 # what the count memory of the program that replays the file holds: for a few plans of many
WORD = 1 << 64      # totals and multiplicities stay below
LISTED = 200_000    # states with more edges are not asked of the oracle
COUNTED = 3_000     # states with as many edges are not asked for their number of edges
SETS = 20_000       # cells with more compromised sets are not asked of the oracle
LONGEST = (1 << 32) - 1     # the longest term
NAMES = 1 << 16     # names are numbers below
SIZES = [0, 1, 2, 3, 5, 13, 40, 63, 64]     # how many names there are


class Words:
    """SplitMix64, so that the questions do not hang on the library's generator."""

    def __init__(self, seed):
        self.state = seed

    def word(self):
        self.state = (self.state + 0x9E3779B97F4A7C15) % WORD
        z = self.state
        z = (z ^ (z >> 30)) * 0xBF58476D1CE4E5B9 % WORD
        z = (z ^ (z >> 27)) * 0x94D049BB133111EB % WORD
        return z ^ (z >> 31)

    def below(self, bound):
        return self.word() % bound


class Oracle:
    def __init__(self, path):
        self.run = subprocess.Popen([path], stdin=subprocess.PIPE, stdout=subprocess.PIPE, text=True)
        self.known = {}

    def ask(self, question):
        """The lines of the answer."""
        if question not in self.known:
            self.run.stdin.write(question + "\n")
            self.run.stdin.flush()
            lines = []
            while (line := self.run.stdout.readline().rstrip("\n")) != ".":
                if self.run.poll() is not None:
                    raise SystemExit(f"the oracle ended at: {question}")
                lines.append(line)
            self.known[question] = lines
        return self.known[question]

    def number(self, question):
        (line,) = self.ask(question)
        return int(line.split()[0])


# ---- states and their edges ------------------------------------------------------------------------------------------


def state_of(cells):
    """The mask with a bit after the last member of each cell but the last."""
    state, end = 0, 0
    for size in cells[:-1]:
        end += size
        state |= 1 << (end - 1)
    return state


def cells_of(n, state):
    cells, size = [], 0
    for i in range(n):
        size += 1
        if i == n - 1 or state >> i & 1:
            cells.append(size)
            size = 0
    return cells


def choose(n, k):
    out = 1
    for i in range(k):
        out = out * (n - i) // (i + 1)
    return out


def compositions(size):
    """How many ways there are to write size as at most four positive parts."""
    return 1 if size == 0 else sum(choose(size - 1, k) for k in range(4))


def edge_count(cells):
    total = 0
    for leader in range(len(cells)):
        ways = 1
        for i, size in enumerate(cells):
            ways *= compositions(size - 1 if i == leader else size)
        total += ways
    return total


def shapes(n, words):
    """States of n participants: one cell, single cells, and others of many shapes in an order drawn."""
    others = []
    for big in {n - 1, n - 2, n - n // 3, n // 2}:
        others += [[big] + [1] * (n - big), [1] * (n - big) + [big]]
    others += [[1, n - 2, 1], [2] * (n // 2) + [1] * (n % 2), [1] * (n - 4) + [2, 2], [2, 1, 2] + [1] * (n - 5)]
    others += [[1] * (n // 2) + [3] + [1] * (n - n // 2 - 3), [1] * (n - 9) + [5, 4], [4, 3, 2] + [1] * (n - 9)]
    others = [cells for cells in others if sum(cells) == n and min(cells) > 0]
    # as many boundaries as not, mostly boundaries, and mostly none
    for _ in range(3):
        others.append(cells_of(n, words.below(1 << (n - 1))))
        others.append(cells_of(n, (words.word() | words.word() | words.word()) % (1 << (n - 1))))
        others.append(cells_of(n, (words.word() & words.word() & words.word()) % (1 << (n - 1))))
    # one large cell somewhere among single ones, and single ones with a few pairs among them
    for _ in range(3):
        singles = 1 + words.below(min(n - 1, 30))
        before = words.below(singles + 1)
        others.append([1] * before + [n - singles] + [1] * (singles - before))
        pairs = (1 << (n - 1)) - 1
        for _ in range(1 + words.below(6)):
            pairs &= ~(1 << words.below(n - 1))
        others.append(cells_of(n, pairs))
    for i in range(len(others) - 1, 0, -1):
        j = words.below(i + 1)
        others[i], others[j] = others[j], others[i]
    return [[n], [1] * n] + others


def edge_lines(oracle, words):
    for n in range(2, 65):
        asked = set()
        for cells in shapes(n, words):
            state, count = state_of(cells), edge_count(cells)
            if state in asked or count > LISTED or len(asked) == 6:
                continue
            asked.add(state)
            edges = oracle.ask(f"edges {n} {state}")
            assert len(edges) == count, (n, state)
            if count < COUNTED:
                yield f"edges {n} {state} {count}"
            # none of them far from the first
            reach = min(count, COUNTED)
            for place in sorted({words.below(reach), (reach - 1, 0, reach // 2, min(1, reach - 1))[len(asked) % 4]}):
                after, leader, weight = edges[place].split()
                if int(weight) < WORD:
                    yield f"edge {n} {state} {place} {after} {leader} {weight}"


# ---- plans -----------------------------------------------------------------------------------------------------------


def plans(oracle, words):
    """Plans (participants, rounds, mode) that the count memory holds and whose totals are below 2^64."""
    for n in range(2, 25):
        rounds = 1
        # past these the oracle would walk states for long, only to find that they do not fit
        while rounds <= {11: 3, 12: 2}.get(n, 64 if n < 11 else 1):
            if oracle.number(f"total {n} {rounds} s") >= WORD:
                break
            if oracle.number(f"entries {n} {rounds} s") > SLOTS:
                break
            yield n, rounds, "s"
            rounds += 1
        for rounds in sorted({1, 64, 2 + words.below(62), 2 + words.below(62)}):
            assert oracle.number(f"entries {n} {rounds} u") <= SLOTS
            yield n, rounds, "u"
    # their counts take long to search, so they are few
    for n, rounds, mode in [(32, 1, "s"), (40, 1, "s"), (48, 64, "u"), (57, 1, "s"), (64, 1, "s"), (64, 64, "u")]:
        assert oracle.number(f"entries {n} {rounds} {mode}") <= WIDE_SLOTS
        yield n, rounds, mode


def total_lines(oracle, known):
    for n, rounds, mode in known:
        yield f"total {n} {rounds} {mode} {oracle.number(f'total {n} {rounds} {mode}')}"


def unrank_lines(oracle, words, known):
    for n, rounds, mode in known:
        total = oracle.number(f"total {n} {rounds} {mode}")
        ranks = {0, total - 1, words.below(total)}
        if n > 24:
            ranks = {total - 1, words.below(total)}
        elif mode == "s":
            ranks |= {min(1, total - 1), words.below(total)}
        elif rounds > 20:
            # such lines are long
            ranks = {words.below(total), total - 1 if n % 2 else 0}
        for rank in sorted(ranks):
            (answer,) = oracle.ask(f"unrank {n} {rounds} {mode} {rank}")
            yield f"unrank {n} {rounds} {mode} {rank} {answer}"


# ---- samples, shuffles and words -------------------------------------------------------------------------------------


def sample_sizes():
    """Totals with the number of ranks asked for: none, few, all, and of large totals at most 200."""
    for total in [0, 1, 2, 3, 4, 5, 7, 12, 30, 64, 101, 199, 200]:
        for asked in sorted({0, min(1, total), total // 2, max(total, 1) - 1, total}):
            yield total, asked
    for total in [201, 1000, 10**6, 1 << 32, (1 << 63) - 1, 1 << 63, WORD - 2, WORD - 1]:
        for asked in [1, 9, 40]:
            yield total, asked
    for total in [201, 5000, WORD - 1]:
        yield total, 200


def tape(words, many, reach):
    """Words to draw from. One in four is an earlier one, so that draws collide; most others are below the reach."""
    out = []
    for _ in range(many):
        if out and words.below(4) == 0:
            out.append(out[words.below(len(out))])
        else:
            out.append(words.below(reach) if words.below(8) else words.word())
    return out


def drawn_line(oracle, question, source):
    """The question with what to draw from, a bar, and the answer, which is one line or, of nothing, none."""
    asked = " ".join([question, *map(str, source)])
    answer = oracle.ask(asked)
    assert len(answer) <= 1 and answer not in (["bad"], ["panic"], ["wide"]), asked
    return " ".join([asked, "|", *answer])


def chance_lines(oracle, question, words, needed, reach):
    """The question with a tape that is just long enough, or longer, with a seed, and with a tape that is too short."""
    yield drawn_line(oracle, question, tape(words, needed + words.below(3) * words.below(2), reach))
    yield drawn_line(oracle, question, ["seed", words.word() if words.below(4) else words.below(100)])
    if needed > 0:
        yield drawn_line(oracle, question, tape(words, words.below(needed), reach))


def sample_lines(oracle, words):
    for total, asked in sample_sizes():
        yield from chance_lines(oracle, f"sample {total} {asked}", words, asked, min(2 * total + 1, WORD))


def shuffle_lines(oracle, words):
    for n in [*range(11), 13, 16, 20, 27, 33, 50, 64, 65, 100, 128, 150, 199, 200]:
        yield from chance_lines(oracle, f"shuffle {n}", words, max(n, 1) - 1, 2 * n + 1)


def splitmix_lines(oracle, words):
    # from the fourth seed the first state is 0, and so is the first word
    seeds = [0, 1234567, WORD - 1, WORD - 0x9E3779B97F4A7C15, 1, 1 << 63, *(words.word() for _ in range(14))]
    for place, seed in enumerate(seeds):
        (answer,) = oracle.ask(f"splitmix {seed} {100 if place == 2 else 5 + words.below(5)}")
        yield f"splitmix {seed} {answer}"


# ---- compromised sets ------------------------------------------------------------------------------------------------


def set_count(cells, faults):
    """How many ways there are to take so many in all from cells of these sizes."""
    ways = [1] + [0] * faults
    for size in cells:
        ways = [sum(ways[max(0, taken - size):taken + 1]) for taken in range(faults + 1)]
    return ways[faults]


def set_lines(oracle, words):
    for n in range(2, 65):
        asked = set()
        for cells in shapes(n, words):
            # the fewest faults, the most, and others
            faults = (1, n - 1, 1 + words.below(n - 1), 1 + words.below(n - 1))[len(asked) % 4]
            count = set_count(cells, faults)
            if (tuple(cells), faults) in asked or count > SETS or len(asked) == 4:
                continue
            asked.add((tuple(cells), faults))
            found = oracle.ask(f"sets {','.join(map(str, cells))} {faults}")
            assert len(found) == count, (cells, faults)
            yield f"sets {n} {state_of(cells)} {faults} {len(found)}"
            for number in sorted({0, count - 1, words.below(count)}):
                yield f"set {n} {state_of(cells)} {faults} {number} {found[number].replace(',', ' ')}"


# ---- terms, groups, routes and leaders -------------------------------------------------------------------------------


def once(lines):
    """Each line the first time that it comes."""
    return list(dict.fromkeys(lines))


def term_of(words):
    """A term length: short, drawn, or the longest."""
    return [1, 2, 5, 7, LONGEST, 1 + words.below(40), 1 + words.below(LONGEST)][words.below(7)]


def near(view):
    """The view with the one before it and the one after it, as far as they are views."""
    return {v for v in (view - 1, view, view + 1) if 0 <= v < WORD}


def place_lines(oracle, words):
    for term in [1, 2, 5, 7, LONGEST, *(1 + words.below(reach) for reach in (30, 1000, LONGEST, LONGEST))]:
        few, many = term * (2 + words.below(9)), term * words.below(WORD // term)
        last = WORD // term * term
        views = near(0) | near(term) | near(few) | near(many) | near(last) | near(WORD - 1) | {words.word()}
        for view in sorted(views):
            (answer,) = oracle.ask(f"place {view} {term}")
            yield f"place {view} {term} {answer}"


def names_of(words, many):
    """Names: of few numbers, so that they repeat, of numbers whose bytes are alike, or of all numbers."""
    pool = [
        [words.below(NAMES) for _ in range(1 + many // 2)],
        [0, 1, 255, 256, 257, 65280, 65535],
        range(NAMES),
    ][words.below(3)]
    return [pool[words.below(len(pool))] for _ in range(many)]


def mask_of(words, many):
    """Which names a half hears: some of them, some with bits past them, all, or none."""
    return [words.below(1 << many), words.below(1 << many), words.word(), WORD - 1, 0][words.below(5)]


def script_views(words, rounds, term):
    """Views in a script: drawn, the first and the last; views past it: the first, a drawn one and the last."""
    end = rounds * term
    views = {0, end, end + 1} if rounds < 3 else {1, end, end + 1}
    return sorted(views | {words.below(end + 1), words.below(end + 1), (words.word(), WORD - 1)[words.below(2)]})


def script_questions(words):
    """The leading part of a question on a script, whether the script has a round at its view, and names."""
    for many in SIZES:
        for rounds in range(5):
            term = term_of(words)
            script = [f"{words.below(64)}:{mask_of(words, many)}:{mask_of(words, many)}" for _ in range(rounds)]
            names = names_of(words, many)
            for view in script_views(words, rounds, term):
                # lines with many names are long
                if many < 40 or words.below(2) == 0:
                    yield " ".join([*script, str(view), str(term)]), max(view, 1) <= rounds * term, names


def split_questions(words):
    """The leading part of a question on a view split, with names."""
    for many in SIZES:
        for _ in range(6):
            term, names = term_of(words), names_of(words, many)
            view = sorted(near(term * words.below(70)) | {words.below(3 * many + 1), words.word(), WORD - 1})
            yield f"{view[words.below(len(view))]} {term}", names


def senders(words, names):
    """The first name, a drawn one and, where there is any, one that repeats; and a number that is no name."""
    repeated = [name for name in names if names.count(name) > 1]
    listed = [*names[:1], *(some[words.below(len(some))] for some in (names, repeated) if some)]
    unlisted = words.below(NAMES)
    while unlisted in names:
        unlisted = words.below(NAMES)
    return [*listed, unlisted]


def stored_line(oracle, question, names, panics):
    """The question, a bar, and the groups or the target, or `panic` where there have to be none."""
    asked = " ".join([question, *map(str, names)])
    (answer,) = oracle.ask(asked)
    assert answer not in ("bad", "zero-term") and (answer == "panic") == panics, asked
    if "|" in answer:
        # the sizes are those of the groups
        sizes, first, second = answer.split("|")
        assert sizes.split() == [str(len(first.split())), str(len(second.split()))], asked
        answer = " ".join([*first.split(), "|", *second.split()])
    return f"{asked} | {answer}".rstrip()


def partition_lines(oracle, words):
    for question, _, names in script_questions(words):
        yield stored_line(oracle, f"partitions {question}", names, False)


def route_lines(oracle, words):
    for question, scripted, names in script_questions(words):
        known = senders(words, names)
        # a sender for most questions, all of them for some
        for sender in known if words.below(6) == 0 else [known[words.below(len(known))]]:
            yield stored_line(oracle, f"route {question} {sender}", names, scripted and sender not in names)


def view_partition_lines(oracle, words):
    for question, names in split_questions(words):
        yield stored_line(oracle, f"view_partitions {question}", names, not names)


def view_route_lines(oracle, words):
    for question, names in split_questions(words):
        for sender in senders(words, names):
            yield stored_line(oracle, f"view_route {question} {sender}", names, sender not in names)


def leaders_of(words, count):
    """A script of none to six leaders, at times of 64; at times one of them is no participant."""
    script = [words.below(count) for _ in range(64 if words.below(16) == 0 else words.below(7))]
    if script and words.below(8) == 0:
        script[words.below(len(script))] = [count, count + words.below(100), LONGEST][words.below(3)]
    return script


def elect_lines(oracle, words):
    for count in [2, 3, 4, 7, 33, 63, 64]:
        for height in [0, 1, 1, 2, 2, 2, 3, 3, 3]:
            scripts = [leaders_of(words, count) for _ in range(height)]
            panics = any(leader >= count for script in scripts for leader in script)
            term, below = term_of(words), ("rot", f"lot:{words.below(1000) if words.below(2) else words.word()}")
            longest = max([len(script) for script in scripts], default=0)
            views = script_views(words, longest, term)
            for view in views[::3] if panics else views:
                texts = [",".join(map(str, script)) for script in scripts]
                fallback = below[words.below(2)]
                asked = " ".join(["elect", *(f"[{text}]" for text in texts), f"{view} {term} {count} {fallback}"])
                (answer,) = oracle.ask(asked)
                assert answer.isdecimal() != panics and panics == (answer == "panic"), asked
                # epochs change nothing
                assert all(oracle.ask(f"{asked} {epoch}") == [answer] for epoch in (1, words.word(), WORD - 1)), asked
                pile = " ".join([str(height), *(text or "-" for text in texts)])
                yield f"elect {pile} {view} {term} {count} {fallback} {answer}"


OTHER = {"Both": "None", "None": "Both", "Primary": "Secondary", "Secondary": "Primary"}


def wrong_lines(lines):
    """The last line of each kind whose answer ends in a number or a target, with another one in its place."""
    last = {line.split()[0]: line.split() for line in lines if line.split()[-1].isdecimal() or line.split()[-1] in OTHER}
    for *kept, answer in last.values():
        yield " ".join([*kept, OTHER.get(answer) or str(int(answer) ^ 1)])


def write(crates, program, lines):
    lines = [*lines, *wrong_lines(lines)]
    with open(os.path.join(crates, program, "stdin"), "w", encoding="ascii", newline="\n") as file:
        file.writelines(line + "\n" for line in lines)


def main():
    words = sys.argv[1:]
    if not 1 <= len(words) <= 2:
        raise SystemExit(__doc__)
    here = os.path.dirname(os.path.abspath(__file__))
    crates = words[1] if len(words) == 2 else os.path.join(here, "..", "..", "crates")
    oracle = Oracle(words[0])
    known = list(plans(oracle, Words(1)))
    write(crates, "replay", [
        *total_lines(oracle, known), *edge_lines(oracle, Words(2)), *unrank_lines(oracle, Words(3), known),
    ])
    lines = [*sample_lines(oracle, Words(4)), *shuffle_lines(oracle, Words(5)), *splitmix_lines(oracle, Words(6))]
    lines += set_lines(oracle, Words(7))
    lines += [*once(place_lines(oracle, Words(8))), *once(partition_lines(oracle, Words(9)))]
    lines += [*once(route_lines(oracle, Words(10))), *once(view_partition_lines(oracle, Words(11)))]
    lines += [*once(view_route_lines(oracle, Words(12))), *once(elect_lines(oracle, Words(13)))]
    write(crates, "replay_rigs", lines)


if __name__ == "__main__":
    main()
