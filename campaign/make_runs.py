#!/usr/bin/env python3
"""Makes the runs of a batch: one scenario in one setting, with one number of cuts, for some seeds.

A run is checked, and then exported in the forms that are asked for. A refutation is verified, and holds for all seeds: no further run
of the scenario in the setting is made. A line is written to the batch's journal after each run. So a batch that was ended in the middle
goes on with the first run that isn't in a journal, also if other seeds or batches are asked for now. Errors aren't in a journal.
"""
import argparse
import fcntl
import glob
import hashlib
import json
import os
import signal
import subprocess
import sys
import time
from collections import Counter

from campaign import read_seeds, sources
from measures import least_gap, least_time

STOPS = (-signal.SIGINT, -signal.SIGTERM)  # the statuses of a program that was told to end
MOST = 2000  # the most characters of a message


class Batch:
    """The runs that are asked for, and the files that hold them."""

    def __init__(self, order, cuts, name):
        self.order, self.cuts, self.name = order, cuts, name
        self.folder = f"{order['out']}/runs/{order['name']}/{order['setting']}/{cuts}"
        self.refutation = f"{order['out']}/refutations/{order['name']}.{order['setting']}"
        self.part = f"{cuts}-{name}.part"  # what the names of files end with that aren't whole
        self.key = self.content_key()

    def content_key(self):
        """A text that is another if a source, the scenario, the setting or an option of exports is."""
        order = self.order
        asked = [order["file"], order["scenario"], order["options"], *order["export_options"]]
        found = hashlib.sha256(json.dumps(asked).encode())
        for name in sorted(sources(order["file"])):
            with open(name, "rb") as it:
                found.update(hashlib.sha256(it.read()).digest())
        return found.hexdigest()[:16]

    def osc(self, command, *words):
        order = self.order
        done = subprocess.run([order["program"], command, order["file"], order["scenario"], *words, *order["options"]],
                              stdin=subprocess.DEVNULL, stdout=subprocess.PIPE, stderr=subprocess.PIPE, check=False)
        if done.returncode in STOPS:
            sys.exit(f"{order['program']} was told to end")
        return done

    def row(self, seed):
        """Makes a run, and tells what came of it."""
        found = {"scenario": self.order["name"], "setting": self.order["setting"], "cuts": self.cuts, "seed": seed}
        refuted = self.refuted_by()
        if refuted is not None:
            outcome = "refuted" if self.name.startswith("first-") else "skipped"
            return {**found, "outcome": outcome, "message": f"seed {refuted} gave a refutation, which holds for all seeds"}
        began = time.monotonic()
        done = self.osc("generate", "--seed", str(seed), "--cuts", str(self.cuts))
        found.update(status=done.returncode, seconds=round(time.monotonic() - began, 3))
        if done.returncode == 0:
            return {**found, **self.run(seed, done.stdout)}
        if done.returncode == 1:
            return {**found, **self.refuted(seed, done.stdout)}
        if done.returncode == 2:
            return {**found, "outcome": "undecided"}
        return {**found, "outcome": "fault" if done.returncode == 3 else "error", "message": message(done)}

    def run(self, seed, text):
        path = self.path(seed, "json")
        with writing(path, self.part) as file:
            file.write(text)
            file.flush()
            checked = self.osc("check", file.name)
        if checked.returncode:
            return {"outcome": "error", "message": f"check of {path}: {message(checked)}"}
        run = json.loads(text)
        found = {"outcome": "run", "end": run["end"], "tick": run.get("tick", 100), "digest": hashlib.sha256(text).hexdigest()[:12], "values": dict(run["values"])}
        return {**found, "gap": least_gap(run), "time": least_time(run), **self.export(seed, is_new=True)}

    def export(self, seed, is_new=False):
        """Exports a run; one that isn't new in the forms that aren't there. An error if that fails."""
        for form in self.order["exports"]:
            if is_new or not os.path.exists(self.path(seed, form)):
                done = self.osc("export", self.path(seed, "json"), "--as", form, *self.order["export_options"])
                if done.returncode:
                    return {"outcome": "error", "message": f"export as {form}: {message(done)}"}
                with writing(self.path(seed, form), self.part) as file:
                    file.write(done.stdout)
        return {}

    def refuted(self, seed, text):
        with writing(f"{self.refutation}.txt", self.part) as file:
            file.write(text)
            file.flush()
            verified = self.osc("verify", file.name)
        if verified.returncode:
            return {"outcome": "error", "message": f"verify of {self.refutation}.txt: {message(verified)}"}
        with writing(f"{self.refutation}.json", self.part) as file:
            file.write(json.dumps({"key": self.key, "seed": seed}).encode())
        return {"outcome": "refuted"}

    def refuted_by(self):
        """The seed with which a refutation of just this was found; None if there is none yet."""
        try:
            with open(f"{self.refutation}.json", encoding="utf-8") as it:
                found = json.load(it)
            return found["seed"] if found["key"] == self.key else None
        except FileNotFoundError:
            return None

    def path(self, seed, form):
        """The file of a run in a form. All runs drive on one road, whose name stands in each xosc file."""
        return f"{self.folder}/road.xodr" if form == "xodr" else f"{self.folder}/seed-{seed}.{form}"

    def known(self):
        """The rows of the journals, by seed."""
        rows = {}
        for name in glob.glob(f"{glob.escape(self.folder)}/*.journal"):
            with open(name, "rb") as it:
                lines = [json.loads(line) for line in it if line.endswith(b"\n")]
            if lines and lines[0] == {"key": self.key}:
                rows.update((row["seed"], row) for row in lines[1:])
        return {seed: row for seed, row in rows.items() if row["outcome"] != "run" or os.path.exists(self.path(seed, "json"))}


class writing:
    """A file that gets its name when it is whole."""

    def __init__(self, path, part):
        os.makedirs(os.path.dirname(path), exist_ok=True)
        self.path, self.file = path, open(f"{path}.{part}", "wb")

    def __enter__(self):
        return self.file

    def __exit__(self, kind, *_):
        self.file.close()
        if kind is None:
            os.replace(self.file.name, self.path)
        else:
            os.remove(self.file.name)


def message(done):
    """What a call that failed told: its answer, or else its status; and then what it said for people."""
    answer = done.stdout.partition(b"\n")[0][:MOST].decode(errors="replace")
    said = done.stderr[:MOST].decode(errors="replace").strip().removeprefix(answer).strip("\n")
    return "\n".join(it for it in (answer or f"status {done.returncode}", said) if it)


def begin(journal, key):
    """Cuts off what isn't whole in a journal. If it is of another content, all of it goes."""
    journal.seek(0)
    lines = journal.read().split(b"\n")
    head = json.dumps({"key": key}).encode()
    if lines[0] == head and len(lines) > 1:
        journal.truncate(sum(len(it) + 1 for it in lines[:-1]))
    else:
        journal.truncate(0)
        journal.write(head + b"\n")
        journal.flush()


def make(batch, seeds):
    """The row of each seed. Another process that makes this batch is waited for."""
    os.makedirs(batch.folder, exist_ok=True)
    with open(f"{batch.folder}/{batch.name}.journal", "ab+") as journal:
        fcntl.flock(journal, fcntl.LOCK_EX)
        for name in glob.glob(f"{glob.escape(batch.folder)}/*.{batch.part}"):
            os.remove(name)
        begin(journal, batch.key)
        known = batch.known()
        for seed in seeds:
            if seed in known:
                row = known[seed]
                yield {**row, **batch.export(seed)} if row["outcome"] == "run" else row
                continue
            row = batch.row(seed)
            if row["outcome"] not in ("skipped", "error"):
                journal.write(json.dumps(row).encode() + b"\n")
                journal.flush()
            yield row


def words():
    it = argparse.ArgumentParser(description=__doc__.partition("\n\n")[0], epilog=__doc__.partition("\n\n")[2])
    it.add_argument("order", help="the file that says of which scenario, in which setting and by which program runs are made")
    it.add_argument("--cuts", type=int, required=True)
    it.add_argument("--seeds", type=read_seeds, required=True, help="as 0..99 or 1,5,9")
    it.add_argument("--rows", required=True, help="the file that gets a line of JSON for each seed; the journal has its name")
    return it.parse_args()


def main():
    asked = words()
    with open(asked.order, encoding="utf-8") as it:
        order = json.load(it)
    batch = Batch(order, asked.cuts, os.path.splitext(os.path.basename(asked.rows))[0])
    rows = list(make(batch, asked.seeds))
    with writing(asked.rows, batch.part) as file:
        file.write("".join(json.dumps(row) + "\n" for row in rows).encode())
    counts = Counter(row["outcome"] for row in rows)
    told = ", ".join(f"{count} {outcome}" for outcome, count in counts.items())
    print(f"{order['name']}, {order['setting']}, {asked.cuts} cuts, {batch.name}: {told}", file=sys.stderr)


if __name__ == "__main__":
    main()
