"""What the benchmarks share: building the two programs, running them in turn, and the line that bench/run reads.

The programs are those of the repository whose root is the working directory. A time is the processor's, which other
work on the machine disturbs least.
"""
import os, platform, resource, subprocess, sys

RUNS = 5


def build(name, crate, twin):
    """Builds crates/CRATE and bench/TWIN.rs for bench/NAME, and answers where the two programs are."""
    if platform.machine() != "x86_64":
        sys.exit(f"bench/{name}: our programs are x86-64 and run under an emulator here, so a time would say nothing")
    os.makedirs("target/bench", exist_ok=True)
    proved = subprocess.run(["tools/proved", crate], stdout=subprocess.PIPE, check=True, text=True).stdout.strip()
    rust = f"target/bench/{twin}_rust"
    subprocess.run(["rustc", "--edition", "2021", "-O", "-o", rust, f"bench/{twin}.rs"], check=True)
    return proved, rust


def used():
    times = resource.getrusage(resource.RUSAGE_CHILDREN)
    return times.ru_utime + times.ru_stime


def timed(program, path, to):
    start = used()
    with open(path, "rb") as given:
        line = subprocess.run([program], stdin=given, stdout=to, check=True).stdout
    return used() - start, line


def race(name, programs, paths, to=subprocess.PIPE):
    """Each program's best time on each file, all run in turn, and what was written of each file: the same by all."""
    best, lines = {}, {}
    for _ in range(RUNS):
        for path in paths:
            for program in programs:
                seconds, line = timed(program, path, to)
                if lines.setdefault(path, line) != line:
                    sys.exit(f"bench/{name}: {program} writes another line of {path}:\n{line[:200]}\n{lines[path][:200]}")
                best[program, path] = min(seconds, best.get((program, path), seconds))
    return best, lines


def said(name, ours, rust, check=None):
    """The last line of a benchmark; `check` is the time of the check that ours is held to."""
    to_check = f", to check {ours / check:.2f}" if check else ""
    print(f"{name}: proved {ours:.3f} s, Rust {rust:.3f} s, ratio {ours / rust:.2f}{to_check}")
