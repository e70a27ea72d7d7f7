#!/usr/bin/env python3
"""Writes stdin and stdout of crates/cases from tests/vectors.txt, which has `call => answer` lines."""
import os
root = os.path.dirname(os.path.dirname(os.path.abspath(__file__)))
calls, answers = [], []
for line in open(os.path.join(root, "tests", "vectors.txt")):
    line = line.rstrip("\n")
    call, _, answer = line.partition(" => ")
    calls.append(call)
    answers.append(answer if answer else call)
with open(os.path.join(root, "crates", "cases", "stdin"), "w") as f:
    f.write("".join(c + "\n" for c in calls))
with open(os.path.join(root, "crates", "cases", "stdout"), "w") as f:
    f.write("".join(a + "\n" for a in answers))
