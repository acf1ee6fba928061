#!/usr/bin/env bash
# How fast a script runs: lines per second of 200,000 `send` lines, the ratio of its time to that of half as many (at most
# 2.3, so that a run's cost grows with its lines), and the peak memory (at most 4 bytes a byte of script beyond 64 MB).
# Needs python3, which measures a child's time and peak memory.
here=$(cd "$(dirname "$0")/.." && pwd) || exit 1
work=$(mktemp -d) || exit 1
(cd "$work" && "$here/bin/muckd" run w </dev/null) || exit 1
trap 'rm -rf "$work"' EXIT
for lines in 100000 200000; do
  {
    printf 'open 1\nsend 1 connect One potrzebie\n'
    yes 'send 1 "The quick brown fox jumps over the lazy dog.' | head -n "$lines"
  } >"$work/$lines"
done
python3 - "$here/crates/muckd/out/muckd" "$work" <<'PY'
import os, resource, subprocess, sys, time
program, work = sys.argv[1:]
took = {}
for lines in (100000, 200000):
    best = None
    for _ in range(3):
        with open(f"{work}/{lines}") as script, open(os.devnull, "w") as out:
            for ending in "ab":
                if os.path.exists(f"{work}/w.{ending}"):
                    os.remove(f"{work}/w.{ending}")
            begin = time.perf_counter()
            status = subprocess.run([program, "run", "w"], cwd=work, stdin=script, stdout=out).returncode
            end = time.perf_counter()
        if status != 0:
            sys.exit(f"status {status}")
        best = end - begin if best is None else min(best, end - begin)
    took[lines] = best
    print(f"{lines} lines: {best:.3f} s, {lines / best:.0f} lines per second")
ratio = took[200000] / took[100000]
peak = resource.getrusage(resource.RUSAGE_CHILDREN).ru_maxrss * 1024
size = os.path.getsize(f"{work}/200000")
beyond = max(0, peak - 64 * 1024 * 1024) / size
print(f"ratio {ratio:.2f} (at most 2.3); peak {peak / 1048576:.1f} MB of a script of {size / 1048576:.1f} MB, {beyond:.2f} bytes a byte beyond 64 MB (at most 4)")
sys.exit(0 if ratio <= 2.3 and beyond <= 4 else 1)
PY
