"""The calls of `osc` that README.md and docs/FORMATS.md show."""
import os
import re

TOP = os.path.dirname(os.path.dirname(os.path.realpath(__file__)))
PAGES = ("README.md", "docs/FORMATS.md")


def pages():
    for page in PAGES:
        with open(os.path.join(TOP, page), encoding="utf-8") as it:
            yield it.read()


def calls():
    """The words after ./osc, the status, and what the last cell says of the output, of each row of a table that shows a call."""
    for page in pages():
        for line in page.splitlines():
            cells = [cell.strip("| ") for cell in line.split(" | ")]
            call = re.fullmatch(r"`\./osc ([^`]+)`", cells[0])
            status = [cell for cell in cells[1:] if cell.isdigit()]
            if call and status:
                yield call.group(1).split(), int(status[0]), cells[-1]


def sessions():
    """The words after `$ ./osc` and what it writes, of each block of code that begins so.

    Words may end with a file to which standard output goes: then the block shows the message alone. If its last line is `..`, more follows.
    """
    for page in pages():
        for words, text in re.findall(r"^```\n\$ \./osc ([^\n]+)\n(.*?)^```$", page, re.M | re.S):
            yield words.split(), text
