"""Asks, for each output and either value, whether the output of one netlist can have the value where that of another has not,
and prints a row of a table: what `workbench ask` answered, how many lines it learned, and the seconds that it, minisat and
picosat took, and those of ABC's `&cec`, which decides all outputs of a pair at once, where both netlists are in the binary form.

    solve.py WORKBENCH NAME FIRST SECOND LIMIT [--after-minisat SECONDS]

The two solvers get the same clauses, numbered here and not by the program. Each answer is compared, and each vector tried
by an evaluation of its own. LIMIT is the processor seconds that a question has; who is late five times isn't asked any more
of this pair. With `--after-minisat`, minisat is asked each question, and what it answers within LIMIT the program is asked
too, with that many SECONDS; both are never given up, and nobody else is asked. `--head` alone prints the head of the table.
Ends with status 1 where answers differ or a vector is wrong.
"""
import argparse
import math
import resource
import subprocess
import sys
import tempfile
import netlists
from account_of import Question, in_order

OPTIONS = {"minisat": ["-verb=0"], "picosat": ["-n"]}
NAMES = ("workbench", *OPTIONS)
MOST_LATE = 5
# as many lines as the program may learn for a question: as good as no limit
BUDGET = "1000000000"
HEAD = f"{'pair':<16}{'outputs':>8}{'gates':>7}{'vectors':>9}{'refuted':>9}{'lines':>9}{'most':>8}" + "".join(
    f"{name:>32}" for name in NAMES
) + f"{'&cec':>12}"


def bits(net, vector):
    """The outputs of a netlist in order."""
    inputs, gates, outputs = net
    values = [0, *vector]
    for a, b in gates:
        values.append((values[a // 2] ^ a % 2) & (values[b // 2] ^ b % 2))
    return [values[it // 2] ^ it % 2 for it in outputs]


def put_formula(clauses, path):
    """Writes clauses in the DIMACS form, over the variables that they have."""
    number = {}
    with open(path, "w") as file:
        rows = []
        for clause in clauses:
            for literal in clause:
                number.setdefault(literal // 2, 1 + len(number))
            rows.append(" ".join(str(number[it // 2] * (-1 if it % 2 else 1)) for it in clause) + " 0\n")
        file.write(f"p cnf {len(number)} {len(rows)}\n" + "".join(rows))


def run(command, limit):
    """What a command printed, its status, and the processor seconds that it took; none of the first two past the limit."""
    most = math.ceil(limit)

    def bound():
        resource.setrlimit(resource.RLIMIT_CPU, (most, most))

    before = resource.getrusage(resource.RUSAGE_CHILDREN)
    ran = subprocess.run(command, capture_output=True, text=True, preexec_fn=bound)
    after = resource.getrusage(resource.RUSAGE_CHILDREN)
    took = after.ru_utime + after.ru_stime - before.ru_utime - before.ru_stime
    if ran.returncode < 0 or took >= limit:
        return None, None, took
    return ran.stdout.strip(), ran.returncode, took


class Row:
    """What came out for a pair, and after how many late questions a solver isn't asked any more."""

    def __init__(self, name, nets, most_late):
        self.name, self.nets, self.wrong, self.most_late = name, nets, [], most_late
        self.answers, self.lines = {"vector": 0, "refuted": 0}, []
        self.cec = "-"
        self.seconds, self.late, self.unasked = ({it: start for it in NAMES} for start in ((), 0, 0))

    def run(self, solver, command, limit):
        """What a solver printed, and its status; none of these where it was late."""
        if self.late[solver] == self.most_late:
            return self.pass_over(solver)
        printed, status, took = run(command, limit)
        self.seconds[solver] += (took,)
        self.late[solver] += status is None
        return printed, status

    def pass_over(self, solver):
        """Has a solver not asked."""
        self.unasked[solver] += 1
        return None, None

    def decide_whole(self, files, limit):
        """Has ABC decide the pair."""
        if all(file.endswith(".aig") for file in files):
            first, second = files
            printed, _, took = run(["berkeley-abc", "-q", f"&r {first}; &cec {second}"], limit)
            decided = "equivalent" in (printed or "") or "EQUIVALENT" in (printed or "")
            self.cec = f"{took:.2f}" if decided else f"{took:.2f} late"

    def check_vector(self, output, value, text):
        vector = [int(it) for it in text]
        first, second = (bits(net, vector)[output] for net in self.nets)
        if len(vector) != self.nets[0][0] or first != value or second == value:
            self.wrong.append(f"output {output}, value {value}: the vector {text} is wrong")

    def take(self, output, value, printed, status):
        """Reads the program's answer: whether there is a vector, or nothing where it is none."""
        words = (printed or "").split()
        if status == 0 and words[0] == "vector":
            self.answers["vector"] += 1
            self.check_vector(output, value, words[1] if len(words) > 1 else "")
            return True
        if status == 0 and words[0] == "refuted":
            self.answers["refuted"] += 1
            self.lines.append(int(words[1]))
            return False
        if status is not None:
            self.wrong.append(f"output {output}, value {value}: status {status}: {printed}")
        return None

    def __str__(self):
        inputs, gates, outputs = self.nets[0]
        found = [len(outputs), len(gates) + len(self.nets[1][1]), self.answers["vector"], self.answers["refuted"]]
        found += [sum(self.lines), max(self.lines, default=0)]
        text = "".join(f"{it:>{width}}" for it, width in zip(found, (8, 7, 9, 9, 9, 8)))
        for solver in NAMES:
            late = f" {self.late[solver]} late" if self.late[solver] else ""
            late += f" {self.unasked[solver]} unasked" if self.unasked[solver] else ""
            text += f"{sum(self.seconds[solver]):.2f} ({max(self.seconds[solver], default=0):.2f}){late}".rjust(32)
        return f"{self.name:<16}{text}{self.cec:>12}"


def questions(nets):
    """Each output and value with the clauses of the question about them."""
    pairs = [f"i{k}+{k}" for k in range(nets[0][0])] + [f"o{k}+{k}" for k in range(len(nets[0][2]))]
    question = Question(*nets, pairs)
    for output in range(len(nets[0][2])):
        for value in (1, 0):
            yield output, value, question.clauses(output, value).values()


class Asking:
    """How the questions of a pair are asked: of which program, of which files, and with which limits."""

    def __init__(self, program, files, limit, after_minisat):
        self.program, self.files, self.limit, self.after_minisat = program, files, limit, after_minisat

    def ask_program(self, row, output, value, limit):
        words = [self.program, "ask", *self.files, str(output), str(value), BUDGET]
        return row.take(output, value, *row.run("workbench", words, limit))

    def ask_solver(self, row, solver, formula):
        _, status = row.run(solver, [solver, *OPTIONS[solver], formula], self.limit)
        return {10: True, 20: False}.get(status)

    def answers(self, row, output, value, formula):
        """What each one said that was asked: whether there is a vector, or nothing where it was late."""
        if self.after_minisat is None:
            there = [self.ask_program(row, output, value, self.limit)]
            return there + [self.ask_solver(row, solver, formula) for solver in OPTIONS]
        there = self.ask_solver(row, "minisat", formula)
        if there is None:
            row.pass_over("workbench")
            return []
        return [there, self.ask_program(row, output, value, self.after_minisat)]


def ask(name, asking):
    nets = [in_order(file) for file in asking.files]
    row = Row(name, nets, MOST_LATE if asking.after_minisat is None else math.inf)
    row.decide_whole(asking.files, asking.limit)
    with tempfile.TemporaryDirectory() as folder:
        asking.files = [f"{folder}/{side}.aag" for side in ("first", "second")]
        for net, file in zip(nets, asking.files):
            netlists.to_text(net, file)
        formula = f"{folder}/formula"
        for output, value, clauses in questions(nets):
            put_formula(clauses, formula)
            there = asking.answers(row, output, value, formula)
            if len(set(there) - {None}) > 1:
                row.wrong.append(f"output {output}, value {value}: {there}")
    return row


def main():
    if sys.argv[1:] == ["--head"]:
        print(HEAD)
        return 0
    words = argparse.ArgumentParser()
    for word in ("program", "name", "first", "second"):
        words.add_argument(word)
    words.add_argument("limit", type=float)
    words.add_argument("--after-minisat", type=float)
    given = words.parse_args()
    row = ask(given.name, Asking(given.program, [given.first, given.second], given.limit, given.after_minisat))
    print(row, *row.wrong, sep="\n")
    return bool(row.wrong)


if __name__ == "__main__":
    sys.exit(main())
