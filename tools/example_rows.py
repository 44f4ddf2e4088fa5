#!/usr/bin/env python3
"""Writes the schedules and reports of `examples/` as the data of their tests.

    python3 tools/example_rows.py > crates/replay_rows_tests/src/data.rt
    (cd crates/replay_rows_tests && rt fmt)

Each schedule NAME.rps stands there as `NAME`, and its report NAME.report as `NAME_REPORT`, but for those that are a stop line.
"""

import pathlib

EXAMPLES = pathlib.Path(__file__).resolve().parent.parent / "examples"
WIDTH = 120


def spelled(byte):
    """The byte within a literal."""
    if byte in b'"\\':
        return "\\" + chr(byte)
    if byte == 0:
        return "\\0"
    return chr(byte) if 32 <= byte < 127 else "\\x%02x" % byte


def literal(data):
    """The bytes as a literal, over as many lines as it takes; a line that ends in a backslash goes on."""
    lines, line = [], ""
    for byte in data:
        one = spelled(byte)
        if len(line) + len(one) > WIDTH or (not line and one == " " and lines):
            lines.append(line)
            line = ""
        line += "\\x20" if not line and one == " " else one
    return 'b"' + "\\\n".join(lines + [line]) + '"'


def main():
    print("//! The examples, as `tools/example_rows.py` writes them.")
    for path in sorted(EXAMPLES.glob("*.rps")):
        name = path.stem.upper()
        print("\npub const %s: &[u8] = %s;" % (name, literal(path.read_bytes())))
        report = path.with_suffix(".report").read_text()
        if not report.startswith("stop "):
            print('\npub const %s_REPORT: &[u8] = b"%s";' % (name, report))


if __name__ == "__main__":
    main()
