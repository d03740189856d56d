"""What the YAML file of a campaign asks for: groups of runs, each of a scenario in a setting, and their batches of seeds."""
import hashlib
import json
import os
import re
import subprocess
from dataclasses import dataclass

TOP = os.path.dirname(os.path.dirname(os.path.realpath(__file__)))
KEYS = {"program", "out", "batch", "export", "ego", "lane_width", "scenarios", "settings", "seeds", "cuts"}
SCENARIO_KEYS = {"file", "scenario", "name", "expect"}
SETTING_KEYS = {"name", "ticks", "lanes", "road", "tick"}
FORMS = ("csv", "xosc", "xodr", "html")
NAME = r"[A-Za-z0-9_-]+"
PATH = r"[A-Za-z_][A-Za-z0-9_.\[\]]*"


class Wrong(Exception):
    """The YAML file asks for nothing that a campaign does: why."""


@dataclass(frozen=True)
class Group:
    """A scenario in a setting. A refutation of it holds for all seeds and all cuts."""

    name: str  # of the scenario in the report
    setting: str
    file: str
    scenario: str
    expect: str  # 'run' or 'none'
    options: tuple  # of the setting, as the words of osc

    @property
    def folder(self):
        return f"{self.name}/{self.setting}"


@dataclass(frozen=True)
class Campaign:
    """A read YAML file. A run is made for each group, each number of cuts and each seed."""

    program: str
    out: str
    batch: int  # the most seeds of a job
    exports: tuple
    export_options: tuple  # the words of osc export that no other command has
    groups: tuple
    seeds: tuple
    cuts: tuple

    def group(self, name, setting):
        return next(it for it in self.groups if (it.name, it.setting) == (name, setting))

    def batches(self):
        """The seeds of each batch by its name, which other seeds don't have."""
        parts = [self.seeds[k:k + self.batch] for k in range(0, len(self.seeds), self.batch)]
        return {batch_name(it): it for it in parts}

    def order(self, group):
        """The file that says what is to be made of a group."""
        return f"{self.out}/orders/{group.name}.{group.setting}.json"

    def write_orders(self):
        """Writes the orders, and one of the whole campaign. A file that says it already stays as it is, and so does its time."""
        version, exports = self.ask_program()
        groups = [vars(it) for it in self.groups]
        whole_order = {"version": version, "exports": exports, "seeds": write_seeds(self.seeds), "cuts": self.cuts, "groups": groups}
        write_changed(f"{self.out}/orders.json", whole_order)
        common = {"program": self.program, "out": self.out, "export_options": self.export_options}
        for group in self.groups:
            write_changed(self.order(group), {**vars(group), **common, "exports": exports})

    def ask_program(self):
        """The version of the program, and the forms that it is to export. The call builds it if it has to be built."""
        how = {"stdin": subprocess.DEVNULL, "stdout": subprocess.PIPE, "text": True}
        try:
            version = subprocess.run([self.program, "--version"], check=True, **how)
        except (OSError, subprocess.CalledProcessError) as why:
            raise Wrong(f"program: {why}") from None
        if not self.exports:
            return version.stdout.strip(), []
        helped = subprocess.run([self.program, "export", "--help"], stderr=subprocess.DEVNULL, check=False, **how)
        return version.stdout.strip(), [] if helped.returncode else self.exports


def write_changed(path, content):
    text = json.dumps(content) + "\n"
    os.makedirs(os.path.dirname(path), exist_ok=True)
    if os.path.exists(path):
        with open(path, encoding="utf-8") as it:
            if it.read() == text:
                return
    with open(path, "w", encoding="utf-8") as it:
        it.write(text)


def batch_name(seeds):
    """The first and the last seed; and if others are between than those of the range, what tells them apart."""
    text = write_seeds(seeds)
    return f"{seeds[0]}-{seeds[-1]}" + (f"-{hashlib.sha256(text.encode()).hexdigest()[:8]}" if "," in text else "")


def read_seeds(text):
    """Seeds in order and once each: 0..99, 7, or several with commas."""
    found = {}
    for part in str(text).split(","):
        ends = re.fullmatch(r"\s*(\d+)(?:\.\.(\d+))?\s*", part)
        if not ends or not int(ends[1]) <= int(ends[2] or ends[1]) < 2**64:
            raise Wrong(f"seeds: {part!r} is no seed and no range such as 0..99")
        found.update(dict.fromkeys(range(int(ends[1]), int(ends[2] or ends[1]) + 1)))
    return tuple(found)


def write_seeds(seeds):
    """The shortest text that `read_seeds` reads as these seeds."""
    ranges = []
    for seed in seeds:
        if ranges and seed == ranges[-1][1] + 1:
            ranges[-1][1] = seed
        else:
            ranges.append([seed, seed])
    return ",".join(str(first) if first == last else f"{first}..{last}" for first, last in ranges)


def sources(file):
    """A source file and the files that it imports, as far as they are there."""
    found, left = [], [file]
    while left:
        name = left.pop()
        if name not in found and os.path.isfile(name):
            found.append(name)
            with open(name, encoding="utf-8", errors="replace") as it:
                left += [after for _, after in re.findall(r"""^\s*import\s*(["'])(.*?)\1""", it.read(), re.M)]
    return found


def as_list(value):
    return value if isinstance(value, list) else [value]


def whole(value, what, least, most):
    if isinstance(value, bool) or not isinstance(value, int) or not least <= value <= most:
        raise Wrong(f"{what}: {value!r} is no whole number from {least} to {most}")
    return value


def table(value, keys, what):
    """A value with some of the keys."""
    if not isinstance(value, dict):
        raise Wrong(f"{what}: {value!r} isn't of the form key: value")
    if set(value) - keys:
        raise Wrong(f"{what}: there is no key {min(map(str, set(value) - keys))!r}. The keys are {', '.join(sorted(keys))}")
    return value


def named(name, what):
    if not isinstance(name, str) or not re.fullmatch(NAME, name):
        raise Wrong(f"{what}: {name!r} is no name of letters, digits, _ and -")
    return name


def read_scenario(value):
    """The name, file, scenario and expected answer of a scenario."""
    it = table(value, SCENARIO_KEYS, "scenarios")
    if not isinstance(it.get("file"), str):
        raise Wrong("scenarios: each has a file")
    expect = it.get("expect", "run")
    if expect not in ("run", "none"):
        raise Wrong(f"scenarios: expect is run or none, and not {expect!r}")
    scenario = str(it.get("scenario", "top"))
    usual = os.path.splitext(os.path.basename(it["file"]))[0] if scenario == "top" else scenario.replace(".", "-")
    return named(it.get("name", usual), "scenarios: name"), it["file"], scenario, expect


def read_setting(value):
    """The name of a setting, and its options."""
    it = table(value, SETTING_KEYS, "settings")
    options = tuple(f"--{key}={whole(it[key], f'settings: {key}', 1, 10000)}" for key in ("ticks", "lanes", "road", "tick") if key in it)
    return named(it.get("name", "default"), "settings: name"), options


def read_export(it):
    """The forms of exports, and the options for them."""
    forms, options = tuple(as_list(it.get("export", []))), []
    if set(forms) - set(FORMS):
        raise Wrong(f"export: the forms are {', '.join(FORMS)}")
    if "ego" in it:
        if not isinstance(it["ego"], str) or not re.fullmatch(PATH, it["ego"]):
            raise Wrong(f"ego: {it['ego']!r} is no path of a vehicle")
        options.append(f"--ego={it['ego']}")
    if "lane_width" in it:
        options.append(f"--lane-width={whole(it['lane_width'], 'lane_width', 1000, 10000)}")
    return forms, tuple(options)


def distinct(names, what):
    twice = [it for it in names if names.count(it) > 1]
    if twice:
        raise Wrong(f"{what}: two have the name {twice[0]!r}. The key name gives one another name")


def read(config):
    """The campaign of a YAML file's content; `Wrong` tells what it doesn't take."""
    it = table(config, KEYS, "the campaign")
    scenarios = [read_scenario(value) for value in as_list(it.get("scenarios", []))]
    settings = [read_setting(value) for value in as_list(it.get("settings", [{}]))]
    if not scenarios:
        raise Wrong("scenarios: there is none")
    distinct([name for name, *_ in scenarios], "scenarios")
    distinct([name for name, _ in settings], "settings")
    exports, export_options = read_export(it)
    groups = [Group(name, setting, file, scenario, expect, options)
              for name, file, scenario, expect in scenarios for setting, options in settings]
    return Campaign(
        program=os.path.abspath(str(it.get("program", f"{TOP}/osc"))),
        out=os.path.normpath(str(it.get("out", "out/campaign"))),
        batch=whole(it.get("batch", 100), "batch", 1, 1_000_000),
        exports=exports,
        export_options=export_options,
        groups=tuple(groups),
        seeds=read_seeds(",".join(map(str, as_list(it.get("seeds", 0))))),
        cuts=tuple(dict.fromkeys(whole(cuts, "cuts", 1, 1_000_000) for cuts in as_list(it.get("cuts", 200_000)))),
    )
