"""Rows of `dlsim compare`: two traces, and the report that the definitions give of them, worked out by hand."""
import collections

# A row: the words behind `compare`, with MODEL and RECORDED in them, the two texts, and what has to come.
Comparison = collections.namedtuple("Comparison", "name words model recorded status out err")

IDLE = None
FORMS = {
    # ftrace of Linux 6.x, and of 5.x with its four flags
    "ftrace": "{prev:>16}-{pid:<7} [{cpu:03}] d..2. {seconds:5}.{us:06}: sched_switch: {fields}",
    "ftrace 5.x": "{prev:>16}-{pid:<5} [{cpu:03}] d..2 {seconds:5}.{us:06}: sched_switch: {fields}",
    "cut": "{prev:>16}-{pid:<7} [{cpu:03}] {seconds:5}.{us:06}: sched_switch: {fields}",
    "trace-cmd": "{prev:>16}-{pid:<5} [{cpu:03}] {seconds:5}.{us:06}: sched_switch:         {short}",
    "trace-cmd, flags and ns": "{prev:>16}-{pid:<5} [{cpu:03}] d..2. {seconds:5}.{us:06}000: sched_switch:         {short}",
    "perf": "{prev:>16} {pid:5} [{cpu:03}] {seconds:5}.{us:06}:       sched:sched_switch: {fields}",
    "perf, short": "{prev:>16} {pid:5} [{cpu:03}] {seconds:5}.{us:06}:       sched:sched_switch: {short}",
}


def who(task):
    return ("swapper/0", 0, 120) if task is IDLE else (task, 1000 + len(task), -1)


def line(form, time, prev, following, cpu=0):
    a, b = who(prev), who(following)
    fields = f"prev_comm={a[0]} prev_pid={a[1]} prev_prio={a[2]} prev_state=S ==> next_comm={b[0]} next_pid={b[1]} next_prio={b[2]}"
    short = f"{a[0]}:{a[1]} [{a[2]}] S ==> {b[0]}:{b[1]} [{b[2]}]"
    name = "<idle>" if prev is IDLE else prev
    seconds, us = divmod(time, 1000000)
    return FORMS[form].format(prev=name, pid=a[1], cpu=cpu, seconds=seconds, us=us, fields=fields, short=short) + "\n"


def recording(*switches, form="ftrace", ahead=0):
    """A text of switches: time, who leaves, who comes, and the CPU where it is not 0."""
    return "# tracer: nop\n#\n" + "".join(line(form, time + ahead, *others) for time, *others in switches)


# Two tasks: `a` runs at 0 to 2000 and 10000 to 12000, `b` at 2000 to 5000.
MODEL = [(0, IDLE, "a"), (2000, "a", "b"), (5000, "b", IDLE), (10000, IDLE, "a"), (12000, "a", IDLE)]
WITHOUT_THE_LAST = MODEL[:3]
LATER = [*MODEL[:3], (11001, IDLE, "a"), (13001, "a", IDLE)]
SPLIT = [*MODEL[:2], (3000, "b", IDLE), (3050, IDLE, "b"), *MODEL[2:]]
OTHER_CPU = [(0, IDLE, "a"), (2000, "a", IDLE), (2000, IDLE, "b", 1), (5000, "b", IDLE, 1), (10000, IDLE, "a"), (12000, "a", IDLE)]
ONE_MORE = [*MODEL[:3], (7000, IDLE, "b"), (8000, "b", IDLE), *MODEL[3:]]
NAMES = [(0, IDLE, "a = b: c"), (2000, "a = b: c", IDLE)]
# Names that do not print: one that is no UTF-8, and one that is, as a text of bytes.
NO_TEXT = [(0, IDLE, "a\x1b\tb\x9b"), (2000, "a\x1b\tb\x9b", IDLE)]
TURNED = "\u00e4\x1b\u202ez".encode().decode("latin1")
TEXT = [(0, IDLE, TURNED), (2000, TURNED, IDLE)]
BAD = "a-1 [000] d..2. 0.000000: sched_switch: prev_comm=a prev_pid=1 next_prio=x\n"

# A task that is throttled inside its job, as dlsim writes it; the same on Linux 6.18, as tracefs told it, with lines before the start and two
# runs of some us; and two hours later, by lines of trace-cmd, of perf and of Linux 5.x, with a run more and one too long.
THROTTLED = """\
          <idle>-0       [000] d..2.     0.000000: sched_switch: prev_comm=swapper/0 prev_pid=0 prev_prio=120 prev_state=R ==> next_comm=a next_pid=1 next_prio=-1
               a-1       [000] d..2.     0.002000: sched_switch: prev_comm=a prev_pid=1 prev_prio=-1 prev_state=R+ ==> next_comm=swapper/0 next_pid=0 next_prio=120
          <idle>-0       [000] d..2.     0.005000: sched_switch: prev_comm=swapper/0 prev_pid=0 prev_prio=120 prev_state=R ==> next_comm=a next_pid=1 next_prio=-1
               a-1       [000] d..2.     0.007000: sched_switch: prev_comm=a prev_pid=1 prev_prio=-1 prev_state=X ==> next_comm=swapper/0 next_pid=0 next_prio=120
"""
LINUX_6 = """\
# tracer: nop
#           TASK-PID     CPU#  |||||  TIMESTAMP  FUNCTION
               a-31968   [003] d..2.  1678.596032: sched_switch: prev_comm=a prev_pid=31968 prev_prio=-1 prev_state=S ==> next_comm=dlreal next_pid=31966 next_prio=120
          filler-31967   [003] d..2.  1678.598029: sched_switch: prev_comm=filler prev_pid=31967 prev_prio=120 prev_state=R ==> next_comm=a next_pid=31968 next_prio=-1
               a-31968   [003] d..2.  1678.598033: sched_switch: prev_comm=a prev_pid=31968 prev_prio=-1 prev_state=S ==> next_comm=filler next_pid=31967 next_prio=120
          filler-31967   [003] d..2.  1678.696056: sched_switch: prev_comm=filler prev_pid=31967 prev_prio=120 prev_state=R ==> next_comm=a next_pid=31968 next_prio=-1
               a-31968   [003] d..2.  1678.698054: sched_switch: prev_comm=a prev_pid=31968 prev_prio=-1 prev_state=R ==> next_comm=filler next_pid=31967 next_prio=120
          filler-31967   [003] d..2.  1678.701058: sched_switch: prev_comm=filler prev_pid=31967 prev_prio=120 prev_state=R ==> next_comm=a next_pid=31968 next_prio=-1
               a-31968   [003] d..2.  1678.703057: sched_switch: prev_comm=a prev_pid=31968 prev_prio=-1 prev_state=R ==> next_comm=filler next_pid=31967 next_prio=120
          filler-31967   [003] d..2.  1678.706053: sched_switch: prev_comm=filler prev_pid=31967 prev_prio=120 prev_state=R ==> next_comm=a next_pid=31968 next_prio=-1
               a-31968   [003] d..2.  1678.706109: sched_switch: prev_comm=a prev_pid=31968 prev_prio=-1 prev_state=X ==> next_comm=filler next_pid=31967 next_prio=120
"""
LATER_LINES = """\
 <idle>-0 [003] 7200.000000: sched_switch:    swapper/3:0 [120] R ==> a:7 [-1]
 a 7 [003] 7200.002000:    sched:sched_switch: prev_comm=a prev_pid=7 prev_prio=-1 prev_state=S ==> next_comm=b next_pid=8 next_prio=120
               b-8       [003] d..2  7200.003000: sched_switch: prev_comm=b prev_pid=8 prev_prio=120 prev_state=R ==> next_comm=a next_pid=7 next_prio=-1
               a-7       [003] d..2  7200.003500: sched_switch: prev_comm=a prev_pid=7 prev_prio=-1 prev_state=S ==> next_comm=b next_pid=8 next_prio=120
 b-8 [000] 7200.005000: sched_switch: b:8 [120] R ==> a:7 [-1]
 a-7 [000] 7200.008001: sched_switch: a:7 [-1] S ==> swapper/0:0 [120]"""
AS_RECORDED = """\
shift 1678.696056 s
#          task   runs recorded matched  start_p50 start_p95 start_max   end_p50   end_p95   end_max    cpu_us rec_cpu_us
              a      2        2       2          0         2         2         1         2         2      4000       3997
matched 2 of 2 runs
first difference: none
"""
DIFFERENT = """\
shift 7200.000000 s
#          task   runs recorded matched  start_p50 start_p95 start_max   end_p50   end_p95   end_max    cpu_us rec_cpu_us
              a      2        2       1          0         0         0         0         0         0      4000       2500
matched 1 of 2 runs
same cpu 0 of 1
first difference: model run 1 of a, 0.005000 to 0.007000 s, nearest recorded 7200.005000 to 7200.008001 s
first difference: recorded run 1 of a, 7200.003000 to 7200.003500 s
"""
# Bytes that are no line, one that is, and a bad one in line 3; texts whose third line is bad.
HOSTILE_MODEL = (
    " x-1 [000] 0.000001: sched_switch: a:1 [0] S ==> \xff\0 =:b:2 [-1]\r\n\n x-1 [65535] 1099511627775.999999: sched_switch: ==> :0 [9]\xfe [-999999999999999999]"
)
HOSTILE = "\0\xff [000] 1.0: sched_switch\n: sched_switch: \n9.999999: sched_switch: next_prio=\n"
# The mark of ftrace comes first, so what follows it would have to be in one of the two forms of ftrace and trace-cmd.
BOTH_MARKS = "a-7 [000] 7.000001: sched_switch: sched:sched_switch: a:7 [-1] S ==> b:8\n"
BAD_AT_3 = "\n\n a [0] 1.000000: sched_switch: a:7 [-1] S ==> b:8\n"

# A megabyte of lines that tell no switch: more than eight reads of 64 KiB.
MEGABYTE = "a-1 [000] 0.000000: sched_wakeup: comm=a\n" * 25600

HEADER = "#          task   runs recorded matched  start_p50 start_p95 start_max   end_p50   end_p95   end_max    cpu_us rec_cpu_us\n"
NOTHING = ("-", "-", "-")
EXACT = (0, 0, 0)
NONE = "first difference: none\n"


def row(name, runs, recorded, matched, starts, ends, cpu, recorded_cpu):
    columns = [" " * (15 - len(name.encode())) + name, f"{runs:6}", f"{recorded:8}", f"{matched:7}"]
    columns += [f"{starts[0]:>10}", f"{starts[1]:>9}", f"{starts[2]:>9}", *(f"{end:>9}" for end in ends)]
    return " ".join([*columns, f"{cpu:9}", f"{recorded_cpu:10}"]) + "\n"


A = row("a", 2, 2, 2, EXACT, EXACT, 4000, 4000)
B = row("b", 1, 1, 1, EXACT, EXACT, 3000, 3000)
ONE_A = row("a", 2, 1, 1, EXACT, EXACT, 4000, 2000)
AT_0 = "shift 0.000000 s\n"
ALL_3 = "matched 3 of 3 runs\n"
ALL_1 = "matched 1 of 1 runs\n"
TWO = "matched 2 of 3 runs\n"
ALL = AT_0 + HEADER + A + B + ALL_3 + NONE
MISSING_A = "first difference: model run 1 of a, 0.010000 to 0.012000 s, nearest recorded "


def matches(name, recorded, out, words="MODEL RECORDED", model=MODEL):
    return Comparison(name, words, recording(*model), recorded, 0, out, "")


def fault(name, status, err, words="MODEL RECORDED", model=None, recorded=None):
    known = recording(*MODEL)
    return Comparison(name, words, known if model is None else model, known if recorded is None else recorded, status, "", err)


ROWS = [
    matches("a trace and itself", recording(*MODEL), ALL),
    *(matches(f"a recording by {form}", recording(*MODEL, form=form), ALL) for form in FORMS),
    matches("five hours later", recording(*MODEL, ahead=18000000000), ALL.replace("0.000000 s", "18000.000000 s", 1)),
    matches(
        "a run that was not recorded",
        recording(*WITHOUT_THE_LAST),
        AT_0 + HEADER + ONE_A + B + TWO + MISSING_A + "0.000000 to 0.002000 s\n",
    ),
    matches("1001 us later", recording(*LATER), AT_0 + HEADER + ONE_A + B + TWO + MISSING_A + "0.011001 to 0.013001 s\n"),
    matches(
        "within 1001 us",
        recording(*LATER),
        AT_0 + HEADER + row("a", 2, 2, 2, (0, 1001, 1001), (0, 1001, 1001), 4000, 4000) + B + ALL_3 + NONE,
        words="--within 1001 MODEL RECORDED",
    ),
    matches("a run that an interrupt split", recording(*SPLIT), ALL),
    matches(
        "the same without noise",
        recording(*SPLIT),
        AT_0
        + HEADER
        + A
        + row("b", 1, 2, 0, NOTHING, NOTHING, 3000, 2950)
        + TWO
        + "first difference: model run 0 of b, 0.002000 to 0.005000 s, nearest recorded 0.003050 to 0.005000 s\n"
        + "first difference: recorded run 0 of b, 0.002000 to 0.003000 s\n",
        words="--noise 0 MODEL RECORDED",
    ),
    matches(
        "a run more, three seconds on",
        recording(*ONE_MORE, ahead=3000000),
        "shift 3.000000 s\n"
        + HEADER
        + A
        + row("b", 1, 2, 1, EXACT, EXACT, 3000, 4000)
        + ALL_3
        + "first difference: recorded run 1 of b, 3.007000 to 3.008000 s\n",
    ),
    matches("on another CPU", recording(*OTHER_CPU), ALL.replace(NONE, "same cpu 2 of 3\n" + NONE), words="--cpus MODEL RECORDED"),
    matches("a shift that is told", recording(*MODEL), ALL, words="--shift 0 MODEL RECORDED"),
    matches(
        "one that is below 0",
        recording(*MODEL),
        "shift -0.000500 s\n" + HEADER + row("a", 2, 2, 2, (500,) * 3, (500,) * 3, 4000, 4000) + row("b", 1, 1, 1, (500,) * 3, (500,) * 3, 3000, 3000) + ALL_3 + NONE,
        words="--shift=-500 MODEL RECORDED",
    ),
    matches(
        "nobody of the model",
        recording((0, IDLE, "c"), (5000, "c", IDLE)),
        HEADER
        + row("a", 2, 0, 0, NOTHING, NOTHING, 4000, 0)
        + row("b", 1, 0, 0, NOTHING, NOTHING, 3000, 0)
        + "matched 0 of 3 runs\n"
        + "first difference: model run 0 of a, 0.000000 to 0.002000 s, and nothing was recorded of this task\n",
    ),
    matches(
        "a name with spaces, a colon and an equals sign",
        recording(*NAMES, form="trace-cmd"),
        AT_0 + HEADER + row("a = b: c", 1, 1, 1, EXACT, EXACT, 2000, 2000) + ALL_1 + NONE,
        model=NAMES,
    ),
    matches(
        "a name with ESC, TAB and a lone byte",
        recording(*NO_TEXT),
        AT_0 + HEADER + row("a\\x1b\\x09b\\x9b", 1, 1, 1, EXACT, EXACT, 2000, 2000) + ALL_1 + NONE,
        model=NO_TEXT,
    ),
    matches(
        "the same of which nothing was recorded",
        recording(*MODEL),
        HEADER
        + row("a\\x1b\\x09b\\x9b", 1, 0, 0, NOTHING, NOTHING, 2000, 0)
        + "matched 0 of 1 runs\n"
        + "first difference: model run 0 of a\\x1b\\x09b\\x9b, 0.000000 to 0.002000 s, and nothing was recorded of this task\n",
        model=NO_TEXT,
    ),
    matches(
        "a name with a letter, ESC and a mark of direction",
        recording(*TEXT),
        AT_0 + HEADER + row("\u00e4\\u001b\\u202ez", 1, 1, 1, EXACT, EXACT, 2000, 2000) + ALL_1 + NONE,
        model=TEXT,
    ),
    matches("bytes that are no text", "\0\xff : sched_switch: \n" + recording(*MODEL) + "x" * 100000, ALL),
    matches("a megabyte before the switches", MEGABYTE + recording(*MODEL), ALL),
    Comparison("throttled inside a job, on Linux", "MODEL RECORDED", THROTTLED, LINUX_6, 0, AS_RECORDED, ""),
    Comparison("a run too long and one more, in several spellings", "--cpus MODEL RECORDED", THROTTLED, LATER_LINES, 0, DIFFERENT, ""),
    matches(
        "1001 us too long",
        recording(*MODEL[:4], (13001, "a", IDLE)),
        AT_0 + HEADER + ONE_A + B + TWO + MISSING_A + "0.010000 to 0.013001 s\n",
    ),
    *(
        Comparison(f"2 of 3 runs, of which {share} % have to match", f"--fail-under {share} MODEL RECORDED", recording(*MODEL), recording(*WITHOUT_THE_LAST), status, AT_0 + HEADER + ONE_A + B + TWO + MISSING_A + "0.000000 to 0.002000 s\n", err)
        for share, status, err in ((0, 0, ""), (66, 0, ""), (67, 5, "dlsim: 2 of 3 runs match\n"), (100, 5, "dlsim: 2 of 3 runs match\n"))
    ),
    matches("all runs, of which all have to match", recording(*MODEL), ALL, words="--fail-under 100 MODEL RECORDED"),
    fault("a bad line, where all runs have to match", 1, "dlsim: trace line 1 in recorded.txt\n", words="--fail-under 100 MODEL RECORDED", recorded=BAD),
    matches("standard input for the recording", recording(*MODEL), ALL, words="MODEL -"),
    matches("standard input for the model", recording(*MODEL), ALL, words="- RECORDED"),
    fault("a bad line of the model", 1, "dlsim: trace line 2 in model.txt\n", model="# tracer: nop\n" + BAD, recorded=BAD),
    fault("a bad line of the recording", 1, "dlsim: trace line 8 in recorded.txt\n", recorded=recording(*MODEL) + BAD),
    fault("a line with both marks", 1, "dlsim: trace line 1 in recorded.txt\n", recorded=BOTH_MARKS),
    fault("a bad line behind a megabyte", 1, "dlsim: trace line 25601 in recorded.txt\n", recorded=MEGABYTE + BAD),
    fault("a bad line of standard input", 1, "dlsim: trace line 1 in standard input\n", words="MODEL -", recorded=BAD),
    fault("no switch in the model", 1, "dlsim: no switch in model.txt\n", model="# tracer: nop\n", recorded=""),
    fault("no switch in the recording", 1, "dlsim: no switch in recorded.txt\n", recorded="a-1 [000] 0.000000: sched_wakeup: comm=a\n"),
    fault("a bad line of the model, before the recording is read", 1, "dlsim: trace line 3 in model.txt\n", model=BAD_AT_3, recorded="# nothing\n"),
    fault("no switch in the model, before the recording is read", 1, "dlsim: no switch in model.txt\n", model="# nothing\n", recorded=BAD_AT_3),
    fault("a bad third line", 1, "dlsim: trace line 3 in recorded.txt\n", recorded=BAD_AT_3),
    fault("hostile bytes of the model", 1, "dlsim: trace line 3 in model.txt\n", model=HOSTILE_MODEL, recorded=HOSTILE),
    fault("hostile bytes of the recording", 1, "dlsim: trace line 3 in recorded.txt\n", recorded=HOSTILE),
    fault("both are standard input", 2, "dlsim: both traces are standard input\n", words="- -"),
    fault("a file that is not there", 3, "dlsim: cannot open none.txt\n", words="MODEL none.txt"),
    fault("a name with a line break", 3, "dlsim: cannot open a\\u000ab\n", words="'a\nb' RECORDED"),
    fault("a name with a mark of direction", 3, "dlsim: cannot open \u00e4\\u202eb\n", words="'\u00e4\u202eb' RECORDED"),
    fault("a long name", 3, f"dlsim: cannot open {'q' * 200}\n", words=f"{'q' * 200} RECORDED"),
    fault("a folder", 3, "dlsim: read failed in .\n", words="MODEL ."),
]

# What clap refuses.
REFUSED = [
    "compare",
    "compare model.txt",
    "compare model.txt recorded.txt more",
    "compare --within -1 model.txt recorded.txt",
    "compare --within 1000000001 model.txt recorded.txt",
    "compare --noise x model.txt recorded.txt",
    "compare --shift 1152921504606846977 model.txt recorded.txt",
    "compare --print trace model.txt recorded.txt",
    "compare --fail-under 101 model.txt recorded.txt",
    "compare --fail-under -1 model.txt recorded.txt",
    "compare --fail-under 99.5 model.txt recorded.txt",
]
