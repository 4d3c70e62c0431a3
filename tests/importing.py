"""Rows of `dlsim import`: a tasks file and a recording, and the calls or the answer that the definitions give of them, worked out by hand."""
import collections

# A row: the words behind `import`, with TASKS and RECORDED in them, the two texts, and what has to come.
Import = collections.namedtuple("Import", "name words tasks recorded status out err")

FILES = "TASKS RECORDED"
TASKS = "dltasks 1\na 70 100 100 -\nb 40 200 200 -\n"
IDLE = ("swapper/0", 0, 120)
A, B = ("a", 11, -1), ("b", 12, -1)


def before(task, time, cpu):
    name = "<idle>" if task == IDLE else task[0]
    seconds, us = divmod(time, 1000000)
    return f"{name:>16}-{task[1]:<7} [{cpu:03}] d..2. {seconds:5}.{us:06}: "


def switch(time, prev, state, following, cpu=0):
    (name, pid, prio), (other, other_pid, other_prio) = prev, following
    return before(prev, time, cpu) + (
        f"sched_switch: prev_comm={name} prev_pid={pid} prev_prio={prio} prev_state={state} ==> "
        f"next_comm={other} next_pid={other_pid} next_prio={other_prio}\n"
    )


def wake(time, task, by=IDLE, cpu=0):
    return before(by, time, cpu) + f"sched_wakeup: comm={task[0]} pid={task[1]} prio={task[2]} target_cpu={cpu:03}\n"


def once(start, stop, task, state="S", cpu=0):
    """A task that runs alone for a while."""
    return switch(start, IDLE, "R", task, cpu) + switch(stop, task, state, IDLE, cpu)


def calls(*lines, cpus=1, limit=996147):
    return "".join(line + "\n" for line in ("dlcalls 1", f"domain {cpus} {limit}", *lines))


EXAMPLE = (
    wake(5000000, A, A)
    + switch(5000002, IDLE, "R", A)
    + switch(5000042, A, "R", B)
    + switch(5000072, B, "S", A)
    + switch(5000092, A, "S", IDLE)
    + wake(5000100, A)
    + once(5000100, 5000150, A)
)
ADMIT_A = "admit 1 1 a 70 100 100 - 0 1:1{r60,t100,r50,w}"
ADMIT_B = "admit 1 2 b 40 200 200 - 42 1:1{r30,w}"
ADVANCE = "advance 1 150"
EXAMPLE_CALLS = calls(ADMIT_A, ADMIT_B, ADVANCE)
EXAMPLE_JOBS = """\
#          task    jobs   woken    open   work_min   work_avg   work_max   dist_min   dist_avg   dist_max
               a       2       2       0         50         55         60        100        100        100
               b       1       0       0         30         30         30          -          -          -
"""
# A task of another policy, and the wake lines of trace-cmd and of perf in the place of ftrace's.
NORMAL = ("a", 11, 120)
TRACE_CMD = "          <idle>-0     [000]  5.000100: sched_wakeup:         a:11 [4294967295] CPU:000\n"
TRACE_CMD_SUCCESS = "          <idle>-0     [000]  5.000100: sched_wakeup:         a:11 [4294967295] success=1 CPU:000\n"
PERF = "         swapper     0 [000]  5.000100:       sched:sched_wakeup: comm=a pid=11 prio=-1 target_cpu=000\n"
FTRACE = wake(5000100, A)
BAD_WAKE = "a-11 [000] d..2. 5.000000: sched_wakeup: comm=a pid=11\n"
MANY_CPUS = "".join(once(100 * cpu, 100 * cpu + 50, A, cpu=cpu) for cpu in range(70))


def jobs_of_a(count):
    """Jobs of `a`, each of 10 us, 100 us apart, and what is written of them."""
    return "".join(once(100 * n, 100 * n + 10, A) for n in range(count))


def fault(name, status, err, words=FILES, tasks=TASKS, recorded=EXAMPLE):
    return Import(name, words, tasks, recorded, status, "", err)


def written(name, out, words=FILES, tasks=TASKS, recorded=EXAMPLE):
    return Import(name, words, tasks, recorded, 0, out, "")


ROWS = [
    written("the worked example", EXAMPLE_CALLS),
    written("the worked example, as a table", EXAMPLE_JOBS, "--print jobs TASKS RECORDED"),
    written("calls are the default", EXAMPLE_CALLS, "--print calls TASKS RECORDED"),
    written("tasks from standard input", EXAMPLE_CALLS, "- RECORDED"),
    written("a recording from standard input", EXAMPLE_CALLS, "TASKS -"),
    written("two CPUs", calls(ADMIT_A, ADMIT_B, ADVANCE, cpus=2), "--cpus 2 TASKS RECORDED"),
    written("a limit", calls(ADMIT_A, ADMIT_B, ADVANCE, limit=524288), "--rt-runtime 500000 TASKS RECORDED"),
    written("a period", calls(ADMIT_A, ADMIT_B, ADVANCE, limit=524288), "--rt-period 1900000 TASKS RECORDED"),
    written("trace-cmd's wake line", EXAMPLE_CALLS, recorded=EXAMPLE.replace(FTRACE, TRACE_CMD)),
    written("perf's wake line", EXAMPLE_CALLS, recorded=EXAMPLE.replace(FTRACE, PERF)),
    written("other lines are ignored", EXAMPLE_CALLS, recorded="# tracer: nop\n" + EXAMPLE.replace(FTRACE, FTRACE + "cpus=1\n")),
    written(
        "from a time on",
        calls("admit 1 1 a 70 100 100 - 0 1:1{r50,w}", "advance 1 50"),
        "--from 5000100 TASKS RECORDED",
    ),
    written(
        "up to a time",
        calls("admit 1 1 a 70 100 100 - 0 1:1{r60,w}", ADMIT_B, "advance 1 92"),
        "--to 5000092 TASKS RECORDED",
    ),
    written("a whole window", EXAMPLE_CALLS, "--from 5000000 --to 5000150 TASKS RECORDED"),
    written(
        "any policy",
        calls("admit 1 1 a 70 100 100 - 0 1:1{r50,w}", "advance 1 50"),
        "--any-policy TASKS RECORDED",
        recorded=once(100, 150, NORMAL),
    ),
    written(
        "a thread that ends",
        calls("admit 1 1 a 70 100 100 - 0 1:1{r50}", "advance 1 50"),
        recorded=once(100, 150, A, "X"),
    ),
    written(
        "a last job without an end",
        calls("admit 1 1 a 70 100 100 - 0 1:1{r1000000000}", "advance 1 50"),
        recorded=once(100, 150, A, "R"),
    ),
    written(
        "a thread named by its pid",
        calls("admit 1 1 c 70 100 100 - 0 1:1{r50,w}", "advance 1 50"),
        tasks="dltasks 1\nc=11 70 100 100 -\n",
        recorded=once(100, 150, ("my a", 11, -1)),
    ),
    fault("no tasks file", 1, "dlsim: tasks line 1 in tasks.txt\n", tasks=""),
    fault("no task", 1, "dlsim: tasks line 2 in tasks.txt\n", tasks="dltasks 1\n"),
    fault("a name twice", 1, "dlsim: tasks line 3 in tasks.txt\n", tasks="dltasks 1\na 70 100 100 -\na 40 200 200 -\n"),
    fault("a tasks file that is read first", 1, "dlsim: tasks line 1 in tasks.txt\n", tasks="x\n", recorded=BAD_WAKE),
    fault("tasks on standard input", 1, "dlsim: tasks line 1 in standard input\n", "- RECORDED", tasks=""),
    fault("a bad wake line", 1, "dlsim: trace line 9 in recorded.txt\n", recorded=EXAMPLE + BAD_WAKE),
    fault("a bad switch", 1, "dlsim: trace line 1 in recorded.txt\n", recorded=BAD_WAKE.replace("wakeup", "switch")),
    fault("an empty recording", 1, "dlsim: no switch in recorded.txt\n", recorded=""),
    fault("a recording without a switch", 1, "dlsim: no switch in recorded.txt\n", recorded=wake(5, A)),
    fault("no switch in the window", 1, "dlsim: no switch in recorded.txt\n", "--from 6000000 TASKS RECORDED"),
    fault("no job", 1, "dlsim: no task of tasks.txt in recorded.txt\n", tasks="dltasks 1\nc 70 100 100 -\n"),
    fault("another policy", 1, "dlsim: no task of tasks.txt in recorded.txt\n", recorded=once(100, 150, NORMAL)),
    fault("2049 jobs", 1, "dlsim: task a has 2049 jobs\n", recorded=jobs_of_a(2049)),
    fault("a long sleep", 1, "dlsim: task a sleeps too long\n", recorded=once(0, 10, A) + once(1000000001, 1000000011, A)),
    fault("70 CPUs", 1, "dlsim: 70 CPUs\n", recorded=MANY_CPUS),
    fault("an empty window", 2, "dlsim: empty window\n", "--from 5 --to 5 TASKS RECORDED"),
    fault("a window before all", 2, "dlsim: empty window\n", "--to 0 TASKS RECORDED"),
    fault("no limit", 2, "dlsim: limit out of range\n", "--rt-runtime 2 --rt-period 1 TASKS RECORDED"),
    fault("a window before a limit", 2, "dlsim: empty window\n", "--to 0 --rt-runtime 2 --rt-period 1 TASKS RECORDED"),
    fault("standard input twice", 2, "dlsim: both inputs are standard input\n", "- -"),
    fault("a limit before standard input", 2, "dlsim: limit out of range\n", "--rt-runtime 2 --rt-period 1 - -"),
    fault("no file of tasks", 3, "dlsim: cannot open absent.txt\n", "absent.txt RECORDED"),
    fault("no recording", 3, "dlsim: cannot open absent.txt\n", "TASKS absent.txt"),
    fault("tasks are opened first", 3, "dlsim: cannot open absent.txt\n", "absent.txt missing.txt"),
    fault("a folder of tasks", 3, "dlsim: read failed in .\n", ". RECORDED"),
    fault("a folder of recordings", 3, "dlsim: read failed in .\n", "TASKS ."),
]

# 2048 jobs are as many as a script has room for.
MOST_JOBS = jobs_of_a(2048)

# What clap refuses.
REFUSED = [
    "import",
    "import TASKS",
    "import TASKS RECORDED MORE",
    "import --cpus 0 TASKS RECORDED",
    "import --cpus 65 TASKS RECORDED",
    "import --rt-runtime 0 TASKS RECORDED",
    "import --rt-period 1000000001 TASKS RECORDED",
    "import --from -1 TASKS RECORDED",
    "import --from 1152921504606846977 TASKS RECORDED",
    "import --to 1152921504606846977 TASKS RECORDED",
    "import --any-policy --any-policy TASKS RECORDED",
    "import --print trace TASKS RECORDED",
    "import --within 5 TASKS RECORDED",
]
