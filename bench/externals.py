#!/usr/bin/env python3
"""Measures the tests that read or type large external declarations, each at a size and at twice that size.

usage: externals.py CRATE PROGRAM, where the program is that of the crate's tests
"""
import sys

from compare import best

PAIRS = {
    "syntax_tests": [
        ("reads_100_000_statements", "reads_200_000_statements"),
        ("reads_100_000_labels", "reads_200_000_labels"),
        ("reads_150_000_initialisers", "reads_300_000_initialisers"),
        ("reads_50_000_members", "reads_100_000_members"),
        ("reads_100_000_declarators", "reads_200_000_declarators"),
        ("refuses_50_000_blocks", "refuses_100_000_blocks"),
        ("refuses_50_000_branches", "refuses_100_000_branches"),
    ],
    "unit_tests": [
        ("types_50_000_declarations", "types_100_000_declarations"),
        ("types_50_000_enumerators", "types_100_000_enumerators"),
        ("types_150_000_initialisers", "types_300_000_initialisers"),
        ("types_50_000_members", "types_100_000_members"),
        ("types_50_000_labels", "types_100_000_labels"),
        ("types_50_000_statements", "types_100_000_statements"),
        ("types_10_000_functions", "types_20_000_functions"),
    ],
}


def main():
    crate, program = sys.argv[1:]
    for half, whole in PAIRS[crate]:
        shorter, _ = best([program, f"sizes::{half}"])
        longer, _ = best([program, f"sizes::{whole}"])
        print(f"{whole}: {longer * 1000:.0f} ms, {half}: {shorter * 1000:.0f} ms, ratio {longer / shorter:.2f}")


if __name__ == "__main__":
    main()
