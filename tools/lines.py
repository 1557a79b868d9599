#!/usr/bin/env python3
"""Counts the lines of the crates: code with its contracts (`src`), definitions (`specs`) and proofs (`proofs`).

    tools/lines.py [CRATE..]    a line for each crate, or for those that are named
    tools/lines.py --parts      a line for each part of the server

Blank lines and comments count. Test crates are a part of their own.
"""
import sys
from pathlib import Path

CRATES = Path(__file__).resolve().parent.parent / "crates"

PARTS = {
    "lists, texts, ports": "list_laws step_count ev_types ghost_logs ports notice_sink script_text mio_links",
    "journal": "disk_port journal_format turn_journal recorded_links journal_links journal_run",
    "messages": "framing pb_wire frame_link riemann_msg graphite_lines",
    "queries and configurations": "pred_eval string_literals query_lang sexp_read stream_plan config_terms"
    " config_streams sexp_config config_tests",
    "streams": "fork_by linked_slots tick_schedule stream_meaning key_laws flow_streams rate_streams window_streams"
    " stream_states stream_step stream_tests",
    "index and tree": "index_log key_map packed_event packed_msg stored_event live_index event_core msg_replies"
    " stream_tree",
    "hub": "hub_meaning hub_link conn_core hub_run",
    "client": "riemann_client client_run load_links",
    "commands": "command_io command_setup command_serve command_files command_texts command_test command_client"
    " command_record riemann_commands riemann_server",
}


def count(crate: Path) -> list[int]:
    lines = [0, 0, 0]
    for path in crate.rglob("*"):
        parts = path.relative_to(crate).parts
        if path.suffix in (".rt", ".antt") and parts[0] != "out":
            kind = {"specs": 1, "proofs": 2}.get(parts[0], 0)
            lines[kind] += path.read_bytes().count(b"\n")
    return lines


def show(name: str, rows: list[list[int]]) -> None:
    code, definitions, proofs = (sum(row[kind] for row in rows) for kind in range(3))
    print(f"{name:28} {code:8,} {definitions:8,} {proofs:8,} {code + definitions + proofs:8,}")


def main(words: list[str]) -> int:
    lines = {crate.name: count(crate) for crate in sorted(CRATES.iterdir()) if (crate / "src").is_dir()}
    unknown = [word for word in words if word not in lines and word != "--parts"]
    if unknown:
        print(f"lines.py: no crate is called {unknown[0]}", file=sys.stderr)
        return 1
    print(f"{'':28} {'code':>8} {'defs':>8} {'proofs':>8} {'all':>8}")
    if words == ["--parts"]:
        parts = {name: crates.split() for name, crates in PARTS.items()}
        parts["tests"] = [name for name in lines if name.startswith("test_")]
        left = set(lines) - {name for names in parts.values() for name in names}
        assert not left, f"no part has {sorted(left)}"
        rows = {part: [lines[name] for name in names] for part, names in parts.items()}
    else:
        rows = {name: [lines[name]] for name in words or lines}
    for name, row in rows.items():
        show(name, row)
    if len(rows) > 1:
        show("all", [line for row in rows.values() for line in row])
    return 0


if __name__ == "__main__":
    sys.exit(main(sys.argv[1:]))
