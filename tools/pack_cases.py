#!/usr/bin/env python3
"""Packs a folder of NAME.in and NAME.out pairs into one table of cases (docs/conformance.md).

    tools/pack_cases.py FOLDER crates/conformance/data/cases.bin
"""
import pathlib
import sys


def case(given, expected):
    lengths = len(given).to_bytes(2, "little") + len(expected).to_bytes(2, "little")
    return lengths + given + expected


def main(folder, table):
    inputs = sorted(pathlib.Path(folder).glob("*.in"))
    packed = [case(path.read_bytes(), path.with_suffix(".out").read_bytes()) for path in inputs]
    pathlib.Path(table).write_bytes(b"".join(packed))
    print(len(packed), "cases")


if __name__ == "__main__":
    main(*sys.argv[1:])
