"""bench.py ROUNDS WORD.., started by c/bench; the words are those that run an x86-64 program (c/with). The proved code's time as a ratio to the plain C
implementation's (gcc -O3), both for x86-64 and run the same way.

Each case runs ours and plain by turns on one core, as many times as there are rounds, and prints three ratios, below 1.00 where ours is faster: of the
medians, of the least times, and the middle half of the ratios of a pair. Then the programs' peak memory and time on a file and on ten of it in a row.
What it is at goes to standard error."""
import contextlib, os, re, signal, statistics, subprocess, sys, tempfile, time

here = os.path.dirname(os.path.dirname(os.path.abspath(__file__)))
rounds, run = int(sys.argv[1]), sys.argv[2:]
made = here + "/target/c/"
os.sched_setaffinity(0, {min(os.sched_getaffinity(0))})
makers = {"log": ("makelog", "segments"), "unwrap": ("maketunnel", "packets"), "wrap": ("makewrap", "packets"), "guide": ("makeguide", "sections"),
          "explain": ("makeexplain", "records")}
sides = {name: {"ours": made + name, "plain": made + "plain" + name} for name in makers}
silent = {"stdout": subprocess.DEVNULL, "stderr": subprocess.DEVNULL}
# of each program, files of what and of how many, with its words; and what it is given one file and ten of
files = {"log": (("mixed", 2000000), ("short", 1000000), ("longest", 400000), ("repeats", 2000000)),
         "unwrap": (("small", 100000), ("mixed", 100000), ("large", 100000), ("split", 500000)),
         "wrap": (("small", 1000000, "1400"), ("mixed", 150000, "1400"), ("large", 90000, "1400"), ("mixed", 150000, "200")),
         "guide": (("small", 1500000), ("mixed", 400000), ("large", 30000)),
         "explain": (("log", 1500000), ("faults", 1000000), ("chunks", 500000))}
lengths = {"log": 2000000, "unwrap": 60000, "wrap": 100000, "guide": 250000, "explain": 500000}
# calls of a case in one run
cases = {"read-short": 3000000, "read-longest": 400000, "read-mixed": 3000000, "write-short": 3000000, "write-longest": 400000, "write-mixed": 3000000,
         "unwrap-small": 1000000, "unwrap-mixed": 1000000, "unwrap-large": 1000000, "unwrap-split": 1000000,
         "wrap-small": 1000000, "wrap-mixed": 1000000, "wrap-large": 1000000, "wrap-split": 1000000,
         "guide-small": 3000000, "guide-mixed": 2000000, "guide-large": 400000, "guide-names": 40000,
         "explain-chunk": 3000000, "explain-segment": 10000000, "explain-gathered": 6000000}
told = time.monotonic()


def tell(what):
    """A line on what it is at, if the last is three seconds old."""
    global told
    if time.monotonic() - told >= 3:
        told = time.monotonic()
        print("bench: " + what, file=sys.stderr, flush=True)


@contextlib.contextmanager
def started(*words, **streams):
    """A program at work; it ends with this one."""
    p = subprocess.Popen([*run, *words], **streams)
    try:
        yield p
    finally:
        if p.poll() is None:
            p.kill()
            p.wait()
    if p.returncode != 0:
        sys.exit(f"bench: {' '.join(words)} ended with status {p.returncode}")


def make_file(name, what, count, file):
    maker, counted = makers[name]
    with open(file, "wb") as f, started(made + maker, "--what", what, "--" + counted, str(count), stdout=f) as p:
        p.wait()


def timed(program, file, *words):
    """Seconds of user and system time of a program on a file."""
    with open(file, "rb") as f, started(program, *words, stdin=f, **silent) as p:
        _, status, used = os.wait4(p.pid, 0)
        p.returncode = os.waitstatus_to_exitcode(status)
    return used.ru_utime + used.ru_stime


def memory(program, file):
    """The peak memory in KiB of a program that has read a file and waits for more."""
    with open(file, "rb") as f, started(program, stdin=subprocess.PIPE, **silent) as p:
        while block := f.read(1 << 20):
            p.stdin.write(block)
        time.sleep(0.5)
        peak = re.search(r"VmHWM:\s*(\d+)", open(f"/proc/{p.pid}/status").read())[1]
        p.stdin.close()
        p.wait()
    return peak


def calls(side, case):
    """Nanoseconds of a call."""
    with started(f"{made}bench_{side}", side, case, str(cases[case]), stdout=subprocess.PIPE, text=True) as p:
        said = p.communicate()[0]
    return float(said.split()[4])  # "SIDE CASE N calls T ns each"


def compared(name, ours, plain):
    ours(), plain()
    pairs = []
    for n in range(1, rounds + 1):
        tell(f"{name}, {n} of {rounds}")
        pairs.append((ours(), plain()))
    a, b = (statistics.median(x) for x in zip(*pairs))
    least = min(x for x, _ in pairs) / min(y for _, y in pairs)
    low, _, high = statistics.quantiles((x / y for x, y in pairs), n=4)
    print(f"{name:38} {a / b:7.2f} {least:7.2f}   {low:.2f} to {high:.2f}", flush=True)


def compare_programs(name, room):
    for what, count, *words in files[name]:
        file = f"{room}/{what}"
        make_file(name, what, count, file)
        compared(f"{' '.join((name, *words))}, {count:,} {makers[name][1]}, {what}",
                 lambda: timed(sides[name]["ours"], file, *words), lambda: timed(sides[name]["plain"], file, *words))
        os.remove(file)


def compare_lengths(name, room):
    """Memory and time on a file and on ten of it in a row."""
    made_one, one, ten, count = f"{room}/made", f"{room}/one", f"{room}/ten", lengths[name]
    make_file(name, "mixed", count, made_one)
    with open(made_one, "rb") as f:
        file = f.read()
    for many, to in (1, one), (10, ten):  # written in the same way, which tells on how fast they are read
        with open(to, "wb") as f:
            for _ in range(many):
                f.write(file)
    for side, program in sides[name].items():
        tell(f"memory and time of {name} on ten files in a row, {side}")
        longer = min(timed(program, ten) for _ in range(3)) / min(timed(program, one) for _ in range(3))
        print(f"{name}, {side}: peak memory {memory(program, one)} KiB on {count:,} {makers[name][1]}, mixed, {memory(program, ten)} KiB on ten times these; "
              f"time {longer:.1f} times as long", flush=True)


def bench(room):
    print("both under the kit's emulator" if len(run) > 3 else "both on this processor")
    print(f"{'case':38} medians   least   middle half of {rounds} pairs", flush=True)
    for name in files:
        compare_programs(name, room)
    for case in cases:
        compared(case, lambda: calls("ours", case), lambda: calls("plain", case))
    for name in lengths:
        compare_lengths(name, room)


def interrupted(number, _):
    sys.exit(128 + number)


for number in (signal.SIGHUP, signal.SIGINT, signal.SIGTERM):
    if signal.getsignal(number) is not signal.SIG_IGN:
        signal.signal(number, interrupted)
seconds = 32 + 10 * rounds
long = f"{seconds} seconds" if seconds < 100 else f"{(seconds + 30) // 60} minutes"
count = sum(map(len, files.values())) + len(cases)
print(f"bench: {count} cases, {rounds} pairs each, then memory: about {long} on x86-64, longer under an emulator", file=sys.stderr, flush=True)
with tempfile.TemporaryDirectory(prefix="bench.", dir=made) as room:
    bench(room)
