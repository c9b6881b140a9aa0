#!/usr/bin/env python3
"""Judges what the program prints for a script by an account of its own, written from docs/SCRIPT.md alone.

judge.py SCRIPT OUTPUT   says what is wrong with the output, and exits with 1; or nothing
judge.py --make SEED     writes a script with several workers, control points, dumps, losses and cut actions, by this seed
"""
import random
import re
import sys

ENDING = ("spent", "failed", "damaged", "indoubt", "hanging", "memory")
LINE = re.compile(r"(\d+)\.(\d+)\.(\d+)\.(\d+) (\w+) ?(.*)")


class Wrong(Exception):
    pass


def need(holds, what):
    if not holds:
        raise Wrong(what)


def read_script(text):
    """The names of files with their volumes, and the actions in order."""
    files, actions, worker = {}, [], None
    for line in text.splitlines():
        words = line.split()
        if not words or words[0].startswith("#"):
            continue
        kill = words[-2] == "kill" if len(words) > 1 else False
        match words[0]:
            case "file":
                files[words[1]] = words[2]
            case "format" | "lose" | "list" | "recover" | "rollforward":
                actions.append((words[0], words[1] if words[0] in ("lose", "list", "rollforward") else None, kill))
            case "run":
                actions.append(("run", [], kill))
            case "worker":
                worker = []
                actions[-1][1].append(worker)
            case "control" | "dump":
                worker.append((words[0], words[1]))
            case "begin":
                worker.append(["transaction", int(words[1]) if len(words) > 1 else 1, [], None])
            case "put" | "add" | "del" | "read":
                worker[-1][2].append(words)
            case "commit" | "abort":
                worker[-1][3] = words[0]
    return files, actions


def carried_out(steps, records):
    """The records behind the steps with what reads have found, or the number of the step that is refused and why."""
    records, found = dict(records), []
    for number, (op, file, key, *rest) in enumerate(steps, 1):
        now = records.get((file, key))
        if op == "put":
            records[file, key] = rest[0]
        elif op == "read":
            found.append((number, now))
        elif now is None:
            return None, (number, "missing")
        elif op == "del":
            del records[file, key]
        elif not re.fullmatch(r"0|-?[1-9]\d*", now):
            return None, (number, "not number")
        elif not -(2**63) <= int(now) + int(rest[0]) < 2**63:
            return None, (number, "overflow")
        else:
            records[file, key] = str(int(now) + int(rest[0]))
    return (records, found), None


class Node:
    def __init__(self, files):
        self.files, self.up, self.epoch, self.lost = files, False, 0, set()
        self.list, self.records, self.printed, self.pending = [], {}, 0, None
        # the volumes that a recovery has to find lost, those of which nobody can say it, and those that have a dump
        self.gone, self.unsure, self.dumped, self.folds = set(), set(), set(), []

    # what the lines of a run say, kept until a recovery prints its records
    def run(self, workers, lines, kill):
        outcomes, reads = {}, {}
        for worker, items in enumerate(workers, 1):
            ended = False
            for ordinal, item in enumerate(items, 1):
                most = item[1] if item[0] == "transaction" else 1
                for attempt in range(1, most + 1):
                    need(lines, f"no line of {self.epoch}.{worker}.{ordinal}.{attempt}")
                    line = lines.pop(0)
                    parts = LINE.fullmatch(line)
                    need(parts, f"{line}: no line of an outcome")
                    tx, told, rest = tuple(map(int, parts.groups()[:4])), parts[5], parts[6]
                    need(tx == (self.epoch, worker, ordinal, attempt), f"{line}: not of {self.epoch}.{worker}.{ordinal}.{attempt}")
                    need((told == "skipped") == ended, f"{line}: skipped and ended do not agree")
                    outcomes[tx] = (told, rest, item)
                    self.judge_kind(line, item, told, rest)
                    need(kill or told not in ("failed", "indoubt", "hanging"), f"{line}: no call was cut off")
                    need(told not in ("spent", "memory", "damaged"), f"{line}: there is no limit, and no want of memory")
                    if told == "dumped":
                        self.dumped.add(item[1])
                    if told == "committed":
                        reads[tx] = self.reads_of(lines, tx, item)
                    ended = ended or told in ENDING
                    if told != "busy":
                        break
        for tx, (told, rest, item) in outcomes.items():
            if told == "busy":
                self.judge_holder(tx, rest, workers, item)
        self.pending = (outcomes, reads)
        self.up = False

    def judge_kind(self, line, item, told, rest):
        kinds = {
            "transaction": ("committed", "aborted", "busy", "full", "refused", *ENDING, "skipped"),
            "control": ("controlled", "failed", "spent", "skipped", "memory"),
            "dump": ("dumped", "dumping", "failed", "damaged", "spent", "skipped", "memory"),
        }
        need(told in kinds[item[0]], f"{line}: not for this item")
        if told in ("controlled", "dumped", "dumping"):
            need(rest.split()[0] == item[1], f"{line}: another volume")
        if told == "committed":
            need(item[3] == "commit", f"{line}: the script does not commit it")
        if told == "aborted":
            need(item[3] == "abort", f"{line}: the script does not abort it")

    def reads_of(self, lines, tx, item):
        found = []
        for number, step in enumerate(item[2], 1):
            if step[0] != "read":
                continue
            need(lines, f"no line of read {number} of {tx}")
            parts = re.fullmatch(r"(\S+) read (\d+) (absent|= (\S+))", lines.pop(0))
            need(parts and parts[1] == ".".join(map(str, tx)) and int(parts[2]) == number, f"no line of read {number} of {tx}")
            found.append((number, parts[4]))
        return found

    def judge_holder(self, tx, rest, workers, item):
        file, key, holder = rest.split()
        other = tuple(map(int, holder.split(".")))
        need(other[0] == tx[0] and other[1] != tx[1], f"{tx} busy {rest}: the holder is no other worker's")
        held = workers[other[1] - 1][other[2] - 1]
        need(any(step[1:3] == [file, key] for step in held[2]), f"{tx} busy {rest}: the holder has no step there")
        need(any(step[1:3] == [file, key] for step in item[2]), f"{tx} busy {rest}: it has no step there")

    # a recovery prints the records that were not printed: they decide what the last run has come to
    def recover(self, lines):
        while lines and (parts := re.fullmatch(r"(\d+) (start|commit|abort) (\S+)", lines[0])):
            lines.pop(0)
            need(int(parts[1]) == self.printed + 1, f"{parts[0]}: not the next place")
            self.printed += 1
            self.add(parts[2], parts[3], int(parts[1]))
        self.settle()
        found = []
        while lines and lines[0].startswith("lost "):
            found.append(lines.pop(0).split()[1])
        need(found == sorted(found) and self.gone <= set(found) <= self.gone | self.unsure, f"lost {found}: {self.gone} are, and {self.unsure} may be")
        need(lines and lines[0].startswith("recovered "), f"no line of the recovery: {lines[:1]}")
        epoch = int(lines.pop(0).split()[1])
        need(epoch > self.epoch, f"recovered {epoch}: behind {self.epoch}")
        self.epoch, self.up, self.lost, self.gone, self.unsure = epoch, True, set(found), set(found), set()

    def add(self, kind, what, place):
        self.list.append((kind, what))
        if kind == "start":
            need(int(what) >= self.epoch, f"{place} start {what}: behind {self.epoch}")
            return
        need(self.pending, f"{place} {kind} {what}: no run")
        outcomes, reads = self.pending
        tx = tuple(map(int, what.split(".")))
        need(tx in outcomes, f"{place} {kind} {what}: of no outcome")
        told, rest, item = outcomes[tx]
        if kind == "abort":
            need(told in ("aborted", "busy", "full", "refused", "failed", "indoubt", "hanging"), f"{place} abort {what}: it was told as {told}")
            outcomes[tx] = ("taken back", rest, item) if told != "refused" else ("refused and taken back", rest, item)
            return
        need(told in ("committed", "indoubt"), f"{place} commit {what}: it was told as {told}")
        need(told == "indoubt" or int(rest) == place, f"{place} commit {what}: it was told to stand at {rest}")
        done, refused = carried_out(item[2], self.records)
        need(done, f"{what}: it can't be carried out at its place: {refused}")
        self.records = done[0]
        self.folds.append(dict(self.records))
        need(told == "indoubt" or reads[tx] == done[1], f"{what}: it has read {reads.get(tx)}, and {done[1]} stands there")
        outcomes[tx] = ("landed", rest, item)

    # every acknowledged commit has its record, and so has each attempt that was taken back; what was refused, was refused on some map between the commits
    def settle(self):
        if not self.pending:
            return
        for tx, (told, rest, item) in self.pending[0].items():
            need(told not in ("committed", "aborted", "busy", "full", "refused"), f"{tx} {told} {rest}: no record")
            if told == "refused and taken back":
                number, reason = rest.split(" ", 1)
                need(any(carried_out(item[2], m)[1] == (int(number), reason) for m in [{}] + self.folds), f"{tx} refused {rest}: nowhere between the commits")
        self.pending = None

    def listing(self, file, lines):
        wanted = [f"{file} {key} {value}" for (f, key), value in sorted(self.records.items(), key=lambda it: it[0][1].encode()) if f == file]
        wanted.append(f"listed {file} {len(wanted)}")
        got = [lines.pop(0) for _ in wanted[: len(lines)]]
        need(got == wanted, f"list {file}: {got} in place of {wanted}")


def act(node, action, lines):
    kind, what, kill = action
    need(lines or (kind == "run" and not any(what)), f"no line of {kind} {what}")
    if kind == "format":
        need(lines.pop(0) == "formatted", "format: not formatted")
        node.__init__(node.files)
        node.up, node.epoch, node.list = True, 1, []
        node.folds = [{}]
    elif kind == "recover":
        if kill and lines[0].startswith("recover failed "):
            lines.pop(0)
            node.up = False
            return
        node.recover(lines)
    elif kind == "run":
        named = {node.files[s[1]] for w in what for i in w if i[0] == "transaction" for s in i[2]} | {i[1] for w in what for i in w if i[0] != "transaction"}
        if not node.up or named & node.lost:
            need(lines.pop(0) == "run not up", "run: it is not up")
            return
        if kill and lines and lines[0].startswith("run failed "):
            lines.pop(0)
            node.up = False
            return
        node.run(what, lines, kill)
    elif kind == "lose":
        need(lines.pop(0) == f"lost {what}", f"lose {what}")
        node.gone.add(what)
        node.up = False
    elif kind == "rollforward":
        line = lines.pop(0)
        if not node.up:
            need(line == f"rollforward {what} not up", line)
        elif what not in node.lost:
            need(line == f"rollforward {what} not lost", line)
        elif line.startswith(f"rolled {what} "):
            node.lost.discard(what)
            node.gone.discard(what)
        elif line == f"rollforward {what} no dump":
            need(what not in node.dumped, f"{line}: it has one")
        else:
            need(kill and line.startswith(f"rollforward {what} failed "), line)
            node.gone.discard(what)
            node.unsure.add(what)
            node.up = False
    elif kind == "list":
        if not node.up or node.files[what] in node.lost:
            need(lines.pop(0) == f"list {what} not up", f"list {what}: it is not up")
            return
        node.listing(what, lines)


def judge(script, output):
    files, actions = read_script(script)
    node, lines = Node(files), output.splitlines()
    for number, action in enumerate(actions, 1):
        try:
            act(node, action, lines)
        except Wrong as why:
            return f"action {number}, {action[0]}: {why}"
    return f"lines behind the last action: {lines[:3]}" if lines else None


def make(seed):
    dice = random.Random(seed)
    lines = ["trail AUX1", "trail AUX2", "volume $DATA1 AUX1", "volume $DATA2 AUX2", "file ACCT $DATA1 4", "file TILL $DATA2 2"]
    lines += [f"cache {dice.choice([2, 3, 64])}", f"car {dice.choice([1, 4, 64])} {dice.choice([0, 5])}", f"roll {dice.choice([512, 4096, 65536])}", "format"]
    keys = [f"k{n}" for n in range(dice.choice([3, 12]))]
    for epoch in range(dice.randint(2, 5)):
        lines.append(f"run kill {dice.randint(0, 200)}" if dice.random() < 0.3 else "run")
        for worker in range(dice.randint(1, 4)):
            lines.append("worker")
            for _ in range(dice.randint(1, 12)):
                at = dice.random()
                if at < 0.08:
                    lines.append(f"control {dice.choice(['$DATA1', '$DATA2'])}")
                    continue
                if at < 0.14:
                    lines.append(f"dump {dice.choice(['$DATA1', '$DATA2'])}")
                    continue
                lines.append(dice.choice(["begin", "begin 3", "begin 8"]))
                for _ in range(dice.randint(0, 4)):
                    file, key = dice.choice(["ACCT", "TILL"]), dice.choice(keys)
                    lines.append(dice.choice([f"put {file} {key} {dice.randint(-9, 99)}", f"add {file} {key} {dice.randint(-9, 9)}", f"read {file} {key}", f"del {file} {key}", f"put {file} {key} x"]))
                lines.append("abort" if dice.random() < 0.1 else "commit")
        lines.append("end")
        if dice.random() < 0.3:
            lines.append(f"recover kill {dice.randint(0, 60)}")
        if dice.random() < 0.3:
            volume = dice.choice(["$DATA1", "$DATA2"])
            lines += [f"lose {volume}", "recover", "list ACCT"]
            if dice.random() < 0.4:
                lines += [f"rollforward {volume} kill {dice.randint(0, 60)}", "recover"]
            lines.append(f"rollforward {volume}")
        lines += ["recover", "list ACCT", "list TILL"]
    return "\n".join(lines) + "\n"


def main(words):
    if words[:1] == ["--make"]:
        sys.stdout.write(make(int(words[1])))
        return 0
    with open(words[0], encoding="ascii") as script, open(words[1], encoding="ascii") as output:
        wrong = judge(script.read(), output.read())
    if wrong:
        print(wrong)
    return 1 if wrong else 0


if __name__ == "__main__":
    sys.exit(main(sys.argv[1:]))
