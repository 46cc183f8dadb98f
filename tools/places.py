#!/usr/bin/env python3
"""Lists the lines of crates/*/src where an older form of code may stand, point by point of docs/DESIGN-PASS.md.

    tools/places.py            the counts, point by point
    tools/places.py POINT      the lines of one point
    tools/places.py all        the lines of all points
"""

import glob
import re
import sys

# A line of code that matches is a place to look at.
PATTERNS = {
    "1": [
        r"\b(number|level): \d",  # a refusal as a number
        r"^\s*(pub(\(crate\))? )?\w+: bool,",  # a flag beside a value
        r"\) -> Option<\w*Fault>",  # a fault or nothing, in the place of a result
        r"=> Err\((fault|wrong|stop)\)|return Err\((fault|wrong|stop)\)|Err\(_\) => Err|None => None|Ok\((?P<kept>\w+)\) => Ok\((?P=kept)\)",
        r"\barea: u8|AreaLoad\(u8\)|\[u8; 16\]",  # an area as a number
    ],
    "2": [
        r"fn (weighed|weights|utility_amounts|all_bills|ehv_of|rates_of|bills_of|kept|placed_areas|all_rows)\b",
        r"fn (plus|less|read|less_both)\b",
        r"fn (shared|divided)\b",
        r"fn (some_area_outside|some_figure_outside|some_cap_outside|strays|touched|without_weight)\b",
        r"fn (first_unfiled|first_unread|first_high_rate|first_high|first_large)\b",
        r"fn (all_ehv|all_nhv|area_ehv|total|sum|total_weight|filed)\b",
        r"fn (pools|existing_pools|rates|rates_of)\b",
        r"fn (to_u8|to_u16|to_u32|to_i64|byte_at|short_at|figure_at|money_at)\b",
        r"fn (set_journal|set_roll|open_call|state_call|post_call|withdraw_call)\b",
        r"fn (enter_filing|enter_reading|file|read|draw_up|open|state_of|state)\(",
        r"fn (entered|posted|told)\b",
        r"fn (until|spaces)\b",
        r"fn (slot_line|slot_lines|all_lines|ended|stopped)\b",
        r"fn (matches_\w+|added|less)\(",
        r"^\s*pub(\(crate\))? struct (Amounts|Nets|Table|TableRoll|ArchiveRoll|Book|Volumetric|Hybrid)\b",
    ],
    "3": [r"\bfor \w+ in [^{]*\.\.|\bwhile\b"],
    "4": [
        r"fn (is_word|kept|placed_areas|lay|at_line|risen|signed|refusal_of|table_of|number|place)\b",
        r"^impl.* (From|Display|PartialEq|Eq|Ord|Clone|Copy|TryFrom)\b.* for ",
    ],
    "5": [
        r"^\s*requires .*\b(PoolsWithin|Good|AllBelow|RowWithin|AllWithin|Room|Within)\b",
        r"^\s*requires .*(length rows\.now|length areas\.now|month|owner)\b.*[≤<]",
        r"\bpage: &mut \[u8\], from: usize",
        r"\bnhv: i64,$|\bload: u32,$",
    ],
    "6": [
        r"^\s*(pub(\(crate\))? )?\w+: (&'a mut )?\[\w+(<\w+>)?(; (16|360|5760))?\],",
        r"^\s*(pub(\(crate\))? )?(count|used): usize,",
        r"-> (Result<)?\[\w+; 16\]",
    ],
    "7": [r"\bGauge::\w+|\bMeter::\w+|: Gauge\b|: Meter\b"],
}


def code_lines(path):
    for number, line in enumerate(open(path, encoding="utf-8"), 1):
        text = line.split("//")[0]
        if text.strip() and not text.lstrip().startswith(("ghost use", "use ", "ensures")):
            yield number, text.rstrip()


def main():
    wanted = sys.argv[1] if len(sys.argv) > 1 else None
    for point, patterns in PATTERNS.items():
        found = []
        for path in sorted(glob.glob("crates/*/src/**/*.rt", recursive=True)):
            for number, text in code_lines(path):
                if any(re.search(pattern, text) for pattern in patterns):
                    found.append(f"{path}:{number}:{text.strip()}")
        print(f"point {point}: {len(found)}")
        if wanted in (point, "all"):
            print("\n".join(found))


main()
