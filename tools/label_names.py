#!/usr/bin/env python3
"""Spells the names of the source in goals and steps as the source does: `in-ok-steps` becomes `in_ok-steps`, `c.split-at` becomes `c.split_at`.

usage: tools/label_names.py CRATE..    at the top of the repository; the Answers.antt and Invariants.antt of these crates are rewritten in place
"""
import os
import re
import sys

MADE = {"in-ok": "in_ok", "in-err": "in_err", "overflow-add": "overflow_add", "overflow-mul": "overflow_mul", "overflow-sub": "overflow_sub", "from-residual": "from_residual"}
TOKEN = re.compile(r"(?<![\w'-])[A-Za-z_][\w']*(?:-[\w']+)+")


def underscored(crate):
    found = dict(MADE)
    for folder, _, names in os.walk(f"crates/{crate}/src"):
        for name in names:
            with open(os.path.join(folder, name), encoding="utf-8") as f:
                for word in re.findall(r"\b[a-z]\w*_\w+", f.read()):
                    found[word.replace("_", "-")] = word
    return found


def respell(token, words):
    for dashed in sorted(words, key=len, reverse=True):
        token = re.sub(r"(?<![\w])" + re.escape(dashed) + r"(?![\w])", words[dashed], token)
    return token


def turned(text, words):
    def one(m):
        before = text[max(0, m.start() - 5) : m.start()]
        line = text[text.rfind("\n", 0, m.start()) + 1 : m.start()]
        label = before.endswith(".") or line == "" or line == "pub " or re.match(r"use .*Goals\.\{", line)
        return respell(m[0], words) if label else m[0]

    return TOKEN.sub(one, text)


for crate in sys.argv[1:]:
    words = underscored(crate)
    for folder, _, names in os.walk(f"crates/{crate}/proofs"):
        for name in names:
            if name in ("Answers.antt", "Invariants.antt"):
                path = os.path.join(folder, name)
                with open(path, encoding="utf-8") as f:
                    text = f.read()
                new = turned(text, words)
                if new != text:
                    with open(path, "w", encoding="utf-8") as f:
                        f.write(new)
