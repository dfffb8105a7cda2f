#!/usr/bin/env python3
"""Writes into the lemma files of a crate the impossible cases that a check asks for, and into its answers the names of kept lengths, until it asks for none.

usage: mend_clauses.py [ROUNDS]     in a crate's folder; the last check's output is /tmp/check-NAME.log
"""
import os
import re
import subprocess
import sys

ASK = re.compile(r"^(\S+\.antt):(\d+):(\d+): error: `([^`]+)`: write the clauses? (.*)$")
rounds = int(sys.argv[1]) if len(sys.argv) > 1 else 12
for turn in range(rounds):
    out = subprocess.run(["rt", "check"], capture_output=True, text=True).stdout
    open("/tmp/check-" + os.path.basename(os.getcwd()) + ".log", "w").write(out)
    asked = {}
    lines_out = out.split("\n")
    for k, line in enumerate(lines_out):
        m = ASK.match(line.strip())
        if not m:
            m2 = re.match(r"^(\S+\.antt):(\d+):(\d+): error: `([^`]+)`: write the clauses?$", line.strip())
            if m2:
                path, row, col, name = m2.groups()
                got = []
                for l2 in lines_out[k + 1 :]:
                    if l2.startswith("  " + name + " ") and " = " in l2:
                        got.append(l2.strip())
                    elif not l2.startswith("  "):
                        break
                if got:
                    asked.setdefault(path, []).append((int(row), name, got))
        if m:
            path, row, col, name, rest = m.groups()
            clauses = re.findall(r"`([^`]+)`", rest)
            asked.setdefault(path, []).append((int(row), name, clauses))
    autos = {}
    for line in lines_out:
        m3 = re.match(r"^(\S+\.antt):(\d+):(\d+): error: .*Kept-\d+` has no field `[01]` — the fields that can be named here are (.*)$", line.strip())
        if m3:
            autos.setdefault(m3.group(1), []).append((int(m3.group(2)), int(m3.group(3)), re.findall(r"`([^`]+)`", m3.group(4))))
    for path, its in autos.items():
        ls = open(path, encoding="utf-8").read().split("\n")
        for row, col, names in sorted(set((r, c, tuple(n)) for r, c, n in its), reverse=True):
            l = ls[row - 1]
            at = [m for m in re.finditer(r"\.auto((?:\.1)*)\.0", l)]
            near = min(at, key=lambda m: abs(m.start() - (col - 1)), default=None)
            if near:
                k = near.group(1).count(".1")
                ls[row - 1] = l[: near.start()] + ".auto." + names[min(k, len(names) - 1)] + l[near.end() :]
        open(path, "w", encoding="utf-8").write("\n".join(ls))
    if autos and not asked:
        print(f"round {turn}: {sum(map(len, autos.values()))} kept lengths")
        continue
    if not asked:
        print(f"{turn} rounds; nothing asked")
        break
    n = 0
    for path, asks in asked.items():
        lines = open(path, encoding="utf-8").read().split("\n")
        for row, name, clauses in sorted(asks, reverse=True):
            # the declaration stands at row; its last clause is the last line of its block
            i = row - 1
            indent = re.match(r" *", lines[i]).group(0)
            j = i + 1
            last = i
            while j < len(lines):
                l = lines[j]
                if l.strip() and len(re.match(r" *", l).group(0)) <= len(indent):
                    word = l.strip().split(" ")[0]
                    if word == name or l.strip().startswith("unfolding "):
                        last = j
                        j += 1
                        continue
                    break
                if l.strip():
                    last = j
                j += 1
            for q, c in enumerate(clauses):
                lines.insert(last + 1 + q, indent + c)
                n += 1
        open(path, "w", encoding="utf-8").write("\n".join(lines))
    print(f"round {turn}: {n} clauses")
