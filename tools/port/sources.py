#!/usr/bin/env python3
"""What today's Rattle asks of the sources beyond their spelling.

usage: sources.py      at the top of the repository, after the kit's port.py and respell.py

Structs and enums of plain values, on which port.py wrote `#[derive(Drop)]`, are moved and used again: they become `Clone` and `Copy`. Each root file gets
`#![tactic(auto)]` below the comment at its head.
"""
import pathlib, re

for f in sorted(pathlib.Path("crates").glob("*/src/**/*.rt")):
    old = text = f.read_text()
    text = text.replace("#[derive(Drop)]", "#[derive(Clone, Copy)]")
    if f.name in ("lib.rt", "main.rt") and f.parent.name == "src" and "#![tactic(auto)]" not in text:
        head = re.match(r"(?://[^\n]*\n)*", text).group(0)
        text = head + "#![tactic(auto)]\n" + ("\n" if not text[len(head):].startswith("\n") and text[len(head):] else "") + text[len(head):]
    if text != old:
        f.write_text(text)
        print(f)
