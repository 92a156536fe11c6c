#!/usr/bin/env bash
# How long the exact search of 64,000 rows of 256 places takes, and how much memory. Not part of the gate.
# usage: bench/exact.sh, at the top of the repository, after ./vec_run has built the program.
set -eu
script="$(mktemp)"
trap 'rm -f "$script"' EXIT
python3 - "$script" <<'P'
import random, sys
random.seed(1)
with open(sys.argv[1], "w") as f:
    for k in range(64000):
        f.write("row %d/%d %s\n" % (k // 100, k % 100 + 1, format(random.getrandbits(256), "0256b")))
    f.write("query %s\n" % format(random.getrandbits(256), "0256b"))
P
python3 - "$script" <<'P'
import os, resource, subprocess, sys, time
size = os.path.getsize(sys.argv[1])
best = None
for _ in range(5):
    with open(sys.argv[1]) as source, open(os.devnull, "w") as sink:
        start = time.time()
        subprocess.run(["crates/vec_run/out/vec_run", "exact"], stdin=source, stdout=sink, check=True)
        taken = time.time() - start
    best = taken if best is None else min(best, taken)
most = resource.getrusage(resource.RUSAGE_CHILDREN).ru_maxrss * 1024
print("script %d bytes, best of 5 runs %.3f s, memory %.2f times the script" % (size, best, most / size))
P
