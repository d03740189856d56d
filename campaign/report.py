"""The ends of a campaign: summary.csv, junit.xml and report.html over the rows of all runs."""
import csv
import json
import os
import sys
import xml.etree.ElementTree as xml
from html import escape

import pictures

NAMES = {"run": "runs", "refuted": "refuted", "undecided": "undecided", "fault": "faults", "error": "errors", "skipped": "skipped"}
OUTCOMES = tuple(NAMES)
PLAIN = ("scenario", "setting", "cuts", "seed", "outcome", "status", "seconds", "end_s", "least_gap_m", "least_time_to_collision_s",
         "message")
HEAD = """<!DOCTYPE html>
<html lang="en"><head><meta charset="utf-8"><meta name="viewport" content="width=device-width"><title>Campaign</title><style>
:root { --text: #1f2328; --soft: #59636e; --line: #d1d9e0; --page: #ffffff; --area: #f6f8fa; color-scheme: light dark;
  --run: #2f6fb7; --refuted: #7a5195; --undecided: #d9a514; --fault: #c0392b; --error: #7f1d1d; --skipped: #aab2bb; }
@media (prefers-color-scheme: dark) { :root { --text: #e6edf3; --soft: #9aa4af; --line: #3d444d; --page: #14181d; --area: #1d2229;
  --run: #5b9be0; --refuted: #b08fd0; --undecided: #e0b53c; --fault: #f0705f; --error: #d65c5c; --skipped: #6e7681; } }
body { font: 15px/1.5 system-ui, sans-serif; color: var(--text); background: var(--page); margin: 2rem auto; max-width: 62rem;
  padding: 0 1rem; }
h1 { font-size: 1.6rem; margin: 0; } h2 { font-size: 1.2rem; margin: 2.2rem 0 .6rem; } h3 { font-size: 1rem; margin: 1.6rem 0 .4rem; }
p { margin: .4rem 0; } .soft, figcaption { color: var(--soft); font-size: .87rem; }
.tiles { display: flex; flex-wrap: wrap; gap: .7rem; margin: 1.2rem 0; }
.tile { background: var(--area); border-left: 4px solid; padding: .5rem .9rem; }
.tile b { display: block; font-size: 1.5rem; line-height: 1.2; } .wide { overflow-x: auto; }
table { border-collapse: collapse; font-variant-numeric: tabular-nums; } th { color: var(--soft); font-weight: 500; font-size: .85rem; }
td, th { padding: .3rem .7rem .3rem 0; text-align: right; border-bottom: 1px solid var(--line); white-space: nowrap; }
td.name, th.name { text-align: left; }
pre { background: var(--area); padding: .7rem; overflow-x: auto; font-size: .82rem; margin: .3rem 0 1rem; }
figure { margin: .4rem 0 1.2rem; } .row { display: flex; flex-wrap: wrap; gap: 1.5rem; } svg { max-width: 100%; height: auto; display: block; }
a { color: var(--run); } svg text { font: 11px system-ui, sans-serif; fill: var(--soft); } @media print { body { margin: 0; } figure, tr { break-inside: avoid; } }
</style></head><body>
"""


def read_rows(campaign, names):
    """The rows of all runs that are asked for, group by group. What wasn't tried, since an answer holds for all seeds, is skipped."""
    found = {}
    for name in names:
        with open(name, encoding="utf-8") as lines:
            for row in map(json.loads, lines):
                found[row["scenario"], row["setting"], row["cuts"], row["seed"]] = row
    for group in campaign.groups:
        first = found[group.name, group.setting, max(campaign.cuts), campaign.seeds[0]]
        for cuts in campaign.cuts:
            for seed in campaign.seeds:
                row = found.get((group.name, group.setting, cuts, seed))
                if row is None and not holds_for_all(first):
                    raise ValueError(f"no row for {group.folder}, {cuts} cuts, seed {seed}")
                yield row or {"scenario": group.name, "setting": group.setting, "cuts": cuts, "seed": seed, "outcome": "skipped",
                              "message": f"seed {first['seed']}: {first['outcome']}, which holds for all seeds"}


def holds_for_all(row):
    """Whether a scenario has this answer with all seeds: a refutation, a fault, or refused words or files."""
    return row["outcome"] in ("refuted", "fault") or row.get("status") in (4, 6)


def failure(group, row):
    """What is wrong with an answer; None if nothing is, or nothing is known."""
    if row["outcome"] in ("fault", "error"):
        return row["message"]
    if row["outcome"] == "refuted" and group.expect == "run":
        return "no run exists"
    if row["outcome"] == "run" and group.expect == "none":
        return "a run exists, and none is expected"
    return None


def metres(row):
    return f"{row['gap'][0] / 1e6:.6f}" if row.get("gap") else ""


def seconds(row):
    return f"{row['time'][0] / 1e3:.3f}" if row.get("time") else ""


def write_summary(rows, path):
    """A line for each run. After the plain columns comes one for each field, which has its number as in the text of a run."""
    fields = list(dict.fromkeys(path for row in rows for path in row.get("values", {})))
    with open(path, "w", newline="", encoding="utf-8") as file:
        lines = csv.writer(file)
        lines.writerow([*PLAIN, *[f"field.{it}" for it in fields]])
        for row in rows:
            end = f"{row['end'] * row.get('tick', 100) / 1e3:.3f}" if "end" in row else ""
            plain = [row["scenario"], row["setting"], row["cuts"], row["seed"], row["outcome"], row.get("status", ""), row.get("seconds", ""),
                     end, metres(row), seconds(row), row.get("message", "").partition("\n")[0]]
            lines.writerow([*plain, *[row.get("values", {}).get(it, "") for it in fields]])


def printable(text):
    """A text without the characters that XML doesn't take."""
    return "".join(it if it in "\n\t" or " " <= it < "\ud800" or "\ue000" <= it < "\ufffe" or it > "\uffff" else "?" for it in text)


def write_junit(campaign, rows, path):
    """A test suite for each scenario in a setting. Undecided and skipped are skipped tests."""
    top, by_group = xml.Element("testsuites"), {}
    for row in rows:
        by_group.setdefault((row["scenario"], row["setting"]), []).append(row)
    for group in campaign.groups:
        its = by_group[group.name, group.setting]
        suite = xml.SubElement(top, "testsuite", name=f"{group.name}.{group.setting}", tests=str(len(its)))
        counts = dict.fromkeys(("failures", "errors", "skipped"), 0)
        for row in its:
            case = xml.SubElement(suite, "testcase", classname=suite.get("name"), name=f"seed {row['seed']}, {row['cuts']} cuts")
            case.set("time", str(row.get("seconds", 0)))
            wrong = failure(group, row)
            if wrong:
                kind = "error" if row["outcome"] in ("fault", "error") else "failure"
                xml.SubElement(case, kind, type=row["outcome"], message=printable(wrong.splitlines()[0])).text = printable(wrong)
                counts[f"{kind}s"] += 1
            elif row["outcome"] in ("undecided", "skipped"):
                xml.SubElement(case, "skipped", message=printable(row.get("message", "undecided after all cuts")))
                counts["skipped"] += 1
        suite.attrib.update({key: str(value) for key, value in counts.items()}, time=f"{sum(row.get('seconds', 0) for row in its):.3f}")
    for key in ("tests", "failures", "errors", "skipped"):
        top.set(key, str(sum(int(suite.get(key)) for suite in top)))
    xml.indent(top, " ")
    xml.ElementTree(top).write(path, encoding="utf-8", xml_declaration=True)


def counted(rows):
    return {outcome: sum(row["outcome"] == outcome for row in rows) for outcome in OUTCOMES}


def told(rows):
    """One line of counts."""
    counts = counted(rows)
    different = len({(row["scenario"], row["setting"], row["digest"]) for row in rows if row["outcome"] == "run"})
    others = ", ".join(f"{counts[it]} {NAMES[it]}" for it in OUTCOMES[1:])
    return f"{len(rows)} asked for: {counts['run']} runs, {different} of them different, {others}"


def tiles(rows):
    shown = [f'<div class="tile" style="border-color: var(--{it})"><b>{count:,}</b>{NAMES[it]}</div>' for it, count in counted(rows).items()]
    return f'<div class="tiles">{"".join(shown)}</div>'


def outcome_table(parts):
    """Outcomes by scenario, with a bar for each."""
    head = [f'<th class="name">{it}</th>' for it in ("Scenario", "Setting", "Cuts", "")]
    head += [f"<th>{it}</th>" for it in ("runs", "different", *[NAMES[it] for it in OUTCOMES[1:]], "seconds a run", "longest")]
    return f'<div class="wide"><table><tr>{"".join(head)}</tr>{"".join(outcome_line(*it) for it in parts)}</table></div>'


def outcome_line(group, cuts, rows):
    counts, times = counted(rows), [row["seconds"] for row in rows if "seconds" in row]
    different = len({row["digest"] for row in rows if row["outcome"] == "run"})
    numbers = [f"{it:,}" for it in (counts["run"], different, *[counts[it] for it in OUTCOMES[1:]])]
    numbers += [f"{sum(times) / len(times):.2f}", f"{max(times):.2f}"] if times else ["", ""]
    names = [escape(group.name), escape(group.setting), f"{cuts:,}", pictures.bar(counts)]
    return "<tr>" + "".join(f'<td class="name">{it}</td>' for it in names) + "".join(f"<td>{it}</td>" for it in numbers) + "</tr>"


def wrong_part(parts):
    """What isn't as expected, each message of a scenario once with the number of its runs."""
    found = {}
    for group, cuts, rows in parts:
        for row in rows:
            wrong = failure(group, row)
            if wrong:
                found.setdefault((group.name, row["outcome"], wrong), []).append(f"{group.setting}, {cuts:,} cuts, seed {row['seed']}")
    lines = [f"<p><b>{escape(name)}</b>: {outcome}, {escape(its[0])}{f' and {len(its) - 1:,} more' if its[1:] else ''}</p><pre>{escape(wrong)}</pre>"
             for (name, outcome, wrong), its in found.items()]
    return "<h2>Not as expected</h2>" + "".join(lines) if lines else ""


def extremes(campaign, rows):
    """A picture of the run with the least gap and of that with the least time to collision; one if they are the same moment."""
    found = {}
    for measure, name, unit, scale in (("gap", "least gap", "m", 1e6), ("time", "least time to collision", "s", 1e3)):
        measured = [row for row in rows if row.get(measure)]
        if measured:
            row = min(measured, key=lambda row: row[measure][0])
            value, *moment = row[measure]
            found.setdefault((row["seed"], *moment), [row]).append(f"{name}, {value / scale:.3f} {unit}")
    return "".join(extreme(campaign, row, names, *moment) for (_, *moment), (row, *names) in found.items())


def run_name(row):
    """The file of a run in the folder of all that is made, without its ending."""
    return f"runs/{row['scenario']}/{row['setting']}/{row['cuts']}/seed-{row['seed']}"


def extreme(campaign, row, names, tick, own, ahead):
    """A picture of a run at a tick, at which a vehicle is behind the one ahead."""
    name = run_name(row)
    path = f"{campaign.out}/{name}.json"
    with open(path, encoding="utf-8") as file:
        run = json.load(file)
    played = f', <a href="{name}.html">in motion</a>' if os.path.exists(f"{campaign.out}/{name}.html") else ""
    return (f"<figure><figcaption>The {' and the '.join(names)}: seed {row['seed']}, {escape(own)} behind {escape(ahead)} at {tick * run.get('tick', 100) / 1e3:.2f} s. "
            f"<code>{escape(path)}</code>{played}</figcaption>{pictures.run(run, tick)}</figure>")


def measured_part(campaign, parts):
    lines = []
    for group, cuts, rows in parts:
        runs = [row for row in rows if row["outcome"] == "run"]
        charts = []
        for measure, name, scale in (("gap", "least gap of a run, m", 1e6), ("time", "least time to collision of a run, s", 1e3)):
            values = [row[measure][0] / scale for row in runs if row[measure]]
            charts += [pictures.histogram(values, f"{name} ({len(values):,} of {len(runs):,} runs have one)")] if values else []
        if charts:
            lines.append(f'<h3>{escape(group.name)}, {escape(group.setting)}, {cuts:,} cuts</h3><div class="row">{"".join(charts)}</div>'
                         + extremes(campaign, runs))
    note = ('<p class="soft">The gap is the distance of the positions of a vehicle and of the next one ahead in its lane, at a tick. The time '
            "to collision is the time in which the gap would be gone at their speeds. There is none if the vehicle isn't faster than the one "
            "ahead.</p>")
    return f"<h2>Gaps and times to collision</h2>{note}{''.join(lines)}" if lines else ""


def not_exported(campaign, order):
    return campaign.exports and not order["exports"]


def write_page(campaign, rows, order, path):
    by_part = {}
    for row in rows:
        by_part.setdefault((row["scenario"], row["setting"], row["cuts"]), []).append(row)
    parts = [(group, cuts, by_part[group.name, group.setting, cuts]) for group in campaign.groups for cuts in campaign.cuts]
    spent = sum(row.get("seconds", 0) for row in rows)
    head = f"{len(rows):,} runs were asked for. {escape(order['version'])} took {spent:,.0f} s for them, as the sum over all runs."
    if not_exported(campaign, order):
        head += " Exports were asked for, and this program has no command <code>export</code>: nothing is exported."
    page = [HEAD, f'<h1>Campaign {escape(campaign.out)}</h1><p class="soft">{head}</p>', tiles(rows), wrong_part(parts),
            "<h2>Outcome by scenario</h2>", outcome_table(parts), measured_part(campaign, parts), "</body></html>\n"]
    with open(path, "w", encoding="utf-8") as it:
        it.write("".join(page))


def without_ego(campaign, rows):
    """A warning if `ego` is no vehicle of some scenarios; else none. All runs of a scenario have the same vehicles."""
    ego = next((it.partition("=")[2] for it in campaign.export_options if it.startswith("--ego=")), None)
    if ego is None or "xosc" not in campaign.exports:
        return None
    found = []
    for name, row in {row["scenario"]: row for row in rows if row["outcome"] == "run"}.items():
        with open(f"{campaign.out}/{run_name(row)}.json", encoding="utf-8") as file:
            if ego not in [path for path, _ in json.load(file)["traces"]]:
                found.append(name)
    return f"campaign: ego: no vehicle of {', '.join(found)} is {ego}: there all vehicles follow the run" if found else None


def write(campaign, names, summary, junit, page):
    """Writes the three files over the rows in the files of these names."""
    rows = list(read_rows(campaign, names))
    with open(f"{campaign.out}/orders.json", encoding="utf-8") as it:
        order = json.load(it)
    write_summary(rows, summary)
    write_junit(campaign, rows, junit)
    write_page(campaign, rows, order, page)
    if not_exported(campaign, order):
        print(f"campaign: {order['version']} has no command export: nothing is exported")
    warning = without_ego(campaign, rows)
    if warning:
        print(warning, file=sys.stderr)
    print(f"{told(rows)}\n{page}", flush=True)


def must_pass(junit):
    """Raises an error if a test failed."""
    top = xml.parse(junit).getroot()
    failed = int(top.get("failures")) + int(top.get("errors"))
    if failed:
        raise RuntimeError(f"{failed} of {top.get('tests')} runs aren't as expected: see the report")
