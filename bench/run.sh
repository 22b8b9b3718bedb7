#!/usr/bin/env bash
# Times jsgen, pretty and minified, on jobs of about 1, 4 and 16 megabytes, ones whose names are all renamed, deeply nested ones,
# long chains and lists, classes, patterns, comments, templates and single strings, and on one of a real program, beside node's JSON.parse of the same
# file: the best of five runs. Minified text is never longer than pretty text.
set -eu
top=$(cd "$(dirname "$0")/.." && pwd)
work=$(mktemp -d)
trap 'rm -rf "$work"' EXIT
"$top/jsgen" print <"$top/examples/empty.json" >/dev/null
for size in 1 4 16; do
  for kind in mixed renamed nested sum logical choices list classes patterns deep commented grouped templates pattern ascii wide escapes; do
    python3 "$top/bench/make_job.py" "$size" "$kind" >"$work/$kind-$size-pretty.json"
    python3 "$top/bench/make_job.py" "$size" "$kind" minify >"$work/$kind-$size-minified.json"
  done
done
node "$top/bench/real_job.mjs" >"$work/real-1-pretty.json"
node "$top/bench/real_job.mjs" minify >"$work/real-1-minified.json" 2>/dev/null
# As ./jsgen does: a deeply nested tree takes stack.
ulimit -s unlimited 2>/dev/null || ulimit -s "$(ulimit -H -s)" 2>/dev/null || true
python3 - "$top/crates/jsgen_cli/out/jsgen_cli" "$work" <<'PY'
import os, subprocess, sys, time

program, work = sys.argv[1:]
KINDS = ("mixed", "renamed", "nested", "sum", "logical", "choices", "list", "classes", "patterns", "deep", "commented", "grouped", "templates", "pattern", "ascii", "wide", "escapes", "real")
parse = "const s=require('fs').readFileSync(process.argv[1],'utf8');const t=process.hrtime.bigint();JSON.parse(s);console.log(Number(process.hrtime.bigint()-t)/1e9)"


def measured(path):
    best, peak = None, 0
    printed = os.path.join(work, "printed")
    for _ in range(5):
        with open(path, "rb") as job, open(printed, "wb") as out:
            start = time.perf_counter()
            child = subprocess.Popen([program, "print"], stdin=job, stdout=out)
            _, status, usage = os.wait4(child.pid, 0)
            taken = time.perf_counter() - start
        assert status == 0, status
        best = taken if best is None else min(best, taken)
        peak = max(peak, usage.ru_maxrss * 1024)
    return best, peak, os.path.getsize(printed)


print("%-16s %9s %9s %9s %12s %7s %10s %14s" % ("job", "bytes", "printed", "jsgen s", "JSON.parse s", "ratio", "ns a byte", "peak B a byte"))
for kind in KINDS:
    sizes, lengths = (1,) if kind == "real" else (1, 4, 16), {}
    for style in ("pretty", "minified"):
        first = None
        for size in sizes:
            path = os.path.join(work, "%s-%d-%s.json" % (kind, size, style))
            length = os.path.getsize(path)
            best, peak, printed = measured(path)
            node = min(float(subprocess.check_output(["node", "-e", parse, path])) for _ in range(5))
            first = first or best / length
            lengths[style, size] = printed
            print("%-16s %9d %9d %9.3f %12.3f %7.2f %10.1f %14.1f" % ("%s %s" % (kind, style), length, printed, best, node, best / node, best / length * 1e9, peak / length))
        if len(sizes) > 1:
            print("time a byte at the largest, over that at the smallest: %.2f" % (best / length / first))
    for size in sizes:
        assert lengths["minified", size] <= lengths["pretty", size], (kind, size)
print("minified text is never longer than pretty text")
PY
