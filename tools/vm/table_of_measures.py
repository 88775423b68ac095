#!/usr/bin/env python3
"""Reads what measure.sh has from the machine, and prints a table of medians in seconds, with the folder's beside those of UBIFS."""
import statistics
import sys

SYSTEMS = ("undofs", "ubifs", "jffs2")


def read_measures(lines):
    """The seconds of each piece of work, by system, in the order in which they came."""
    found = {}
    for line in lines:
        words = line.split(None, 4)
        if len(words) == 5 and words[0] == "measured":
            found.setdefault(words[4].strip(), {}).setdefault(words[2], []).append(float(words[3]))
    return found


def main():
    print("| What, in seconds | The folder | UBIFS | JFFS2 | Times UBIFS |\n|---|---|---|---|---|")
    for what, by_system in read_measures(sys.stdin).items():
        medians = [statistics.median(by_system[system]) if system in by_system else None for system in SYSTEMS]
        times = f"{medians[0] / medians[1]:.1f}" if medians[0] is not None and medians[1] else "-"
        print(f"| {what} | {' | '.join('-' if median is None else f'{median:.2f}' for median in medians)} | {times} |")


if __name__ == "__main__":
    main()
