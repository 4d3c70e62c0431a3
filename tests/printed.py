"""The texts of --print beside trace, calls and replies: what happens, the jobs, the summary, the promises."""
from pathlib import Path

from texts import A, B, BUSY, DOMAIN, HEADER, IDLE, ONE_MINUTE, RACE, T1, THROTTLED, TWO_DOMAINS, Row, calls, deadline, scenario, switch, working

# What may happen to a task: the event, its last field, and whether the task itself stands in front of the line, where a tick ends.
ENDS, NEXT, SPENT = ("dl_job_end", None, True), ("sched_wakeup", "cpu", True), ("dl_throttle", "deadline", True)
REPLENISHED, RELEASED, WOKEN_SPENT = ("dl_replenish", "deadline", False), ("sched_wakeup", "cpu", False), ("dl_throttle", "deadline", False)


def happening(place, task, what, deadline=0):
    """A line between those of a trace: at a time in microseconds, or at a CPU and a time, this happens to the task."""
    cpu, time = place if isinstance(place, tuple) else (0, place)
    (name, number), (event, field, in_front) = task, what
    pid = 1000 + number
    front = f"{name:>16}-{pid:<7}" if in_front else f"{'<idle>':>16}-{0:<7}"
    last = {None: "", "cpu": f" prio=-1 target_cpu={cpu:03}", "deadline": f" deadline={deadline // 1000000}.{deadline % 1000000:06}"}[field]
    return f"{front} [{cpu:03}] d..2. {time // 1000000:5}.{time % 1000000:06}: {event}: comm={name} pid={pid}{last}"


def events(*lines):
    """The lines behind one another: a switch has four parts, of which the second is a task or idle and the third a state."""
    return HEADER + calls(*(switch(*line) if isinstance(line[2], str) else happening(*line) for line in lines))


JOB_HEADER = "#          task    pid    job     release         end    response       slack throttled\n"
TASK_HEADER = (
    "#          task    pid dom    jobs    late   resp_min   resp_avg   resp_max   slack_min throttled throttled_us preempted migrated"
    "       cpu_us   used%    has%\n"
)
CPU_HEADER = "#  cpu dom      busy_us   busy%  switches\n"
DOMAIN_HEADER = "#domain cpus  bandwidth        cap  taken%      time_us\n"
NOBODY = "-", "-", "-", "-"


def job(task, place, release, end, slack, throttled=0):
    """The line of a job; one without an end has neither response nor slack."""
    response = "-" if end == "-" else end - release
    name, number = task
    return f"{name:>15} {1000 + number:>6} {place:>6} {release:>11} {end:>11} {response:>11} {slack:>11} {throttled:>9}\n"


def jobs(*lines):
    return JOB_HEADER + "".join(job(*line) for line in lines)


def of_task(task, domain, ended, late, responses, throttles, others, shares):
    """The line of a task: how many jobs ended and how many were late; the least, mean and greatest response and the least slack; how often
    and how long it was throttled; how often preempted and migrated, and its CPU time; its shares of the CPU, as texts."""
    (name, number), (least, mean, most, slack), (throttled, us), (preempted, migrated, cpu_us), (used, has) = task, responses, throttles, others, shares
    return (
        f"{name:>15} {1000 + number:>6} {domain:>3} {ended:>7} {late:>7} {least:>10} {mean:>10} {most:>10} {slack:>11} {throttled:>9} {us:>12} "
        f"{preempted:>9} {migrated:>8} {cpu_us:>12} {used:>7} {has:>7}\n"
    )


def of_cpu(cpu, domain, busy, share, switches):
    return f"   {cpu:03} {domain:>3} {busy:>12} {share:>7} {switches:>9}\n"


def of_domain(domain, cpus, bandwidth, cap, share, time):
    return f"{domain:>7} {cpus:>4} {bandwidth:>10} {cap:>10} {share:>7} {time:>12}\n"


def summary(tasks, cpus, domains):
    return (
        TASK_HEADER + "".join(of_task(*task) for task in tasks) + CPU_HEADER + "".join(of_cpu(*cpu) for cpu in cpus)
        + DOMAIN_HEADER + "".join(of_domain(*domain) for domain in domains)
    )


def replayed(name, lines, header="dlcalls 1", **texts):
    """A replay of calls for each of these texts."""
    for text, out in texts.items():
        yield Row(f"{name}: {text}", f"replay --print {text}", calls(header, *lines), 0, out, "")


REPLAYS = [
    *replayed(
        "throttled inside a job, which ends behind its deadline",
        THROTTLED.splitlines()[1:],
        events=events(
            (0, A, RELEASED),
            (0, IDLE, "R", A),
            (2, A, SPENT, 5),
            (2, A, "R+", IDLE),
            (5, A, REPLENISHED, 10),
            (5, IDLE, "R", A),
            (7, A, ENDS),
            (7, A, "X", IDLE),
        ),
        jobs=jobs((A, 0, 0, 7, -2, 1)),
        summary=summary(
            [(A, 0, 1, 1, (7, 7, 7, -2), (1, 3), (0, 0, 4), ("36.36", "40.00"))],
            [(0, 0, 4, "36.36", 4)],
            [(0, 1, 0, 1048576, "0.00", 11)],
        ),
    ),
    *replayed(
        "released and throttled at once",
        [DOMAIN, "admit 1 1 T1 4 8 8 - 0 -1:1{r4,s2}", "advance 1 13"],
        events=events(
            (0, T1, RELEASED),
            (0, IDLE, "R", T1),
            (4, T1, ENDS),
            (4, T1, "S", IDLE),
            (6, T1, RELEASED),
            (6, T1, WOKEN_SPENT, 8),
            (8, T1, REPLENISHED, 16),
            (8, IDLE, "R", T1),
            (12, T1, ENDS),
            (12, T1, "S", IDLE),
        ),
        jobs=jobs((T1, 0, 0, 4, 4), (T1, 1, 6, 12, 2, 1)),
        summary=summary(
            [(T1, 0, 2, 0, (4, 5, 6, 2), (1, 2), (0, 0, 8), ("61.53", "50.00"))],
            [(0, 0, 8, "61.53", 4)],
            [(0, 1, 524288, 1048576, "50.00", 13)],
        ),
    ),
    *replayed(
        "a late timer: the next job is released where one ends, and is the one that is throttled",
        [DOMAIN, "admit 1 1 a 6 8 8 - 0 -1:1{r6,t4}", "advance 1 9"],
        events=events(
            (0, A, RELEASED),
            (0, IDLE, "R", A),
            (6, A, ENDS),
            (6, A, NEXT),
            (6, A, SPENT, 8),
            (6, A, "R+", IDLE),
            (8, A, REPLENISHED, 16),
            (8, IDLE, "R", A),
        ),
        jobs=jobs((A, 0, 0, 6, 2), (A, 1, 6, "-", "-", 1)),
        summary=summary(
            [(A, 0, 1, 0, (6, 6, 6, 2), (1, 2), (0, 0, 7), ("77.77", "75.00"))],
            [(0, 0, 7, "77.77", 3)],
            [(0, 1, 786432, 1048576, "75.00", 9)],
        ),
    ),
    *replayed(
        "more work at once ends no job",
        [DOMAIN, "admit 1 1 a 4 9 9 - 0 1:1{r1,r1,s1,r1}", "advance 1 4"],
        events=events((0, A, RELEASED), (0, IDLE, "R", A), (2, A, ENDS), (2, A, "S", IDLE), (3, A, RELEASED), (3, IDLE, "R", A), (4, A, ENDS)),
        jobs=jobs((A, 0, 0, 2, 7), (A, 1, 3, 4, 8)),
    ),
    *replayed(
        "a leave cuts a job, which has neither an end nor a line, and is not late",
        [DOMAIN, "admit 1 1 a 2 5 5 - 0 1:1{r100}", "advance 1 3", "leave 1 1", "leave 1 1", "advance 1 17"],
        events=events((0, A, RELEASED), (0, IDLE, "R", A), (2, A, SPENT, 5), (2, A, "R+", IDLE)),
        jobs=jobs((A, 0, 0, "-", "-", 1)),
        summary=summary(
            [(A, 0, 0, 0, NOBODY, (1, 1), (0, 0, 2), ("10.00", "40.00"))],
            [(0, 0, 2, "10.00", 2)],
            [(0, 1, 0, 1048576, "0.00", 20)],
        ),
    ),
    *(
        Row(
            f"a job under way is late behind its deadline, and not at it: {time}",
            "replay --print summary",
            calls("dlcalls 1", DOMAIN, "admit 1 1 a 2 5 5 - 0 1:1{r4}", f"advance 1 {time}"),
            0,
            summary(
                [(A, 0, 0, late, NOBODY, (1, 3), (0, 0, cpu_us), (used, "40.00"))],
                [(0, 0, cpu_us, used, switches)],
                [(0, 1, 419430, 1048576, "39.99", time)],
            ),
            "",
        )
        for time, late, cpu_us, used, switches in ((5, 0, 2, "40.00", 2), (6, 1, 3, "50.00", 3))
    ),
    *replayed(
        "preempted by an earlier deadline",
        [DOMAIN, "admit 1 1 a 8 20 20 - 0 1:1{r6}", "admit 1 2 b 2 5 10 - 2 1:1{r2}", "advance 1 10"],
        events=events(
            (0, A, RELEASED),
            (0, IDLE, "R", A),
            (2, B, RELEASED),
            (2, A, "R+", B),
            (4, B, ENDS),
            (4, B, "X", A),
            (8, A, ENDS),
            (8, A, "X", IDLE),
        ),
        jobs=jobs((A, 0, 0, 8, 12), (B, 0, 2, 4, 3)),
        summary=summary(
            [
                (A, 0, 1, 0, (8, 8, 8, 12), (0, 0), (1, 0, 6), ("60.00", "40.00")),
                (B, 0, 1, 0, (2, 2, 2, 3), (0, 0), (0, 0, 2), ("20.00", "20.00")),
            ],
            [(0, 0, 8, "80.00", 4)],
            [(0, 1, 419430, 1048576, "39.99", 10)],
        ),
    ),
    *replayed(
        "a task that wakes on another CPU, to which it then belongs",
        ["domain 2 1048576", "admit 1 1 a 4 8 8 - 0 -1:1{r2,s2}", "admit 1 3 b 6 8 8 - 2 1:1{r5}", "advance 1 7"],
        events=events(
            ((1, 0), A, RELEASED),
            ((1, 0), IDLE, "R", A),
            ((1, 2), A, ENDS),
            ((1, 2), ("b", 3), RELEASED),
            ((1, 2), A, "S", ("b", 3)),
            ((0, 4), A, RELEASED),
            ((0, 4), IDLE, "R", A),
            ((0, 6), A, ENDS),
            ((0, 6), A, "S", IDLE),
            ((1, 7), ("b", 3), ENDS),
        ),
        summary=summary(
            [
                (A, 0, 2, 0, (2, 2, 2, 6), (0, 0), (0, 1, 4), ("57.14", "50.00")),
                (("b", 3), 0, 1, 0, (5, 5, 5, 3), (0, 0), (0, 0, 5), ("71.42", "75.00")),
            ],
            [(0, 0, 2, "28.57", 2), (1, 0, 7, "100.00", 2)],
            [(0, 2, 1310720, 2097152, "62.50", 7)],
        ),
    ),
    *replayed(
        "two domains: their CPUs are counted through, and what happens at one time is in one order",
        [
            DOMAIN,
            "admit 1 1 a 2 8 8 - 0 1:1{r2}",
            "advance 1 3",
            "domain 2 524288",
            "admit 1 1 a 2 8 8 - 2 1:1{r2}",
            "admit 1 2 b 2 8 8 - 2 1:1{r1}",
            "advance 1 4",
        ],
        events=events(
            (0, A, RELEASED),
            (0, IDLE, "R", A),
            (2, A, ENDS),
            ((1, 2), B, RELEASED),
            ((2, 2), A, RELEASED),
            (2, A, "X", IDLE),
            ((1, 2), IDLE, "R", B),
            ((2, 2), IDLE, "R", A),
            ((1, 3), B, ENDS),
            ((1, 3), B, "X", IDLE),
            ((2, 4), A, ENDS),
        ),
        jobs=jobs((A, 0, 0, 2, 6), (A, 0, 2, 4, 6), (B, 0, 2, 3, 7)),
        summary=summary(
            [
                (A, 0, 1, 0, (2, 2, 2, 6), (0, 0), (0, 0, 2), ("66.66", "25.00")),
                (A, 1, 1, 0, (2, 2, 2, 6), (0, 0), (0, 0, 2), ("50.00", "25.00")),
                (B, 1, 1, 0, (1, 1, 1, 7), (0, 0), (0, 0, 1), ("25.00", "25.00")),
            ],
            [(0, 0, 2, "66.66", 2), (1, 1, 1, "25.00", 2), (2, 1, 2, "50.00", 1)],
            [(0, 1, 262144, 1048576, "25.00", 3), (1, 2, 524288, 1048576, "50.00", 4)],
        ),
    ),
    *replayed(
        "a task goes to another domain: its job is cut there, and begins anew here",
        [
            DOMAIN,
            "admit 1 1 a 4 8 8 - 0 -1:1{r2,s6}",
            "advance 1 1",
            "depart 1 1",
            "advance 1 2",
            DOMAIN,
            "advance 1 5",
            "arrive 1 1 a 4 8 8 - -1:1{r2,s6}",
            "advance 1 3",
        ],
        header="dlcalls 2",
        events=events(
            (0, A, RELEASED),
            (0, IDLE, "R", A),
            (1, A, "X", IDLE),
            ((1, 5), A, RELEASED),
            ((1, 5), IDLE, "R", A),
            ((1, 7), A, ENDS),
            ((1, 7), A, "S", IDLE),
        ),
        jobs=jobs((A, 0, 0, "-", "-"), (A, 0, 5, 7, 6)),
        summary=summary(
            [
                (A, 0, 0, 0, NOBODY, (0, 0), (0, 0, 1), ("33.33", "50.00")),
                (A, 1, 1, 0, (2, 2, 2, 6), (0, 0), (0, 0, 2), ("25.00", "50.00")),
            ],
            [(0, 0, 1, "33.33", 2), (1, 1, 2, "25.00", 2)],
            [(0, 1, 0, 1048576, "0.00", 3), (1, 1, 524288, 1048576, "50.00", 8)],
        ),
    ),
    *replayed(
        "the parameters of the last change that was granted, and the limit of the last change; nobody who was refused",
        [
            DOMAIN,
            "admit 1 65535 ~2345678901234! 2 8 8 - 0 1:1{w}",
            "regrade 1 65535 4 8 8 -",
            "regrade 1 65535 8 8 8 - busy 3",
            "admit 1 2 b 5 8 8 - 0 1:1{r1}",
            "limit 1 786432",
        ],
        header="dlcalls 2",
        events=HEADER,
        jobs=JOB_HEADER,
        summary=summary(
            [(("~2345678901234!", 65535), 0, 0, 0, NOBODY, (0, 0), (0, 0, 0), ("0.00", "50.00"))],
            [(0, 0, 0, "0.00", 0)],
            [(0, 1, 524288, 786432, "66.66", 0)],
        ),
    ),
    *replayed(
        "no calls",
        ["domain 64 10485", DOMAIN],
        events=HEADER,
        jobs=JOB_HEADER,
        summary=summary([], [(cpu, cpu // 64, 0, "0.00", 0) for cpu in range(65)], [(0, 64, 0, 671040, "0.00", 0), (1, 1, 0, 1048576, "0.00", 0)]),
    ),
]


def one_minute():
    """What happens in ONE_MINUTE: in each second a job is released and ends."""
    for start in range(0, 60000000, 1000000):
        yield start, ("t", 1), RELEASED
        yield start, IDLE, "R", ("t", 1)
        yield start + 500, ("t", 1), ENDS
        yield start + 500, ("t", 1), "S", IDLE


def timer(us):
    return f',"timer":{{"ref":"unique","period":{us}}}'


# Three halves of a CPU, admitted at 0, where no time passes.
THREE = [((f"t-{n}", n + 1), 0, 0, 0, NOBODY, (0, 0), (0, 0, 0), ("0.00", "50.00")) for n in range(3)]
# In each of two domains three jobs a millisecond, of 50 us, one behind the other: the CPU is idle between.
OF_TWO = summary(
    [
        ((f"{name}-{i}", 3 * cpu + i + 1), cpu, 1000, 0, (ends, ends, ends, 1000 - ends), (0, 0), (0, 0, 50000), ("5.00", "10.00"))
        for cpu, name in enumerate("ab")
        for i, ends in enumerate((50, 100, 150))
    ],
    [(cpu, cpu, 150000, "15.00", 4000) for cpu in (0, 1)],
    [(cpu, 1, 314571, 996147, "31.57", 1000000) for cpu in (0, 1)],
)
RUNS = [
    Row("a run of no time: events", "run --domains 2 --print events", RACE, 0, HEADER, BUSY),
    Row("a run of no time: jobs", "run --domains 2 --print jobs", RACE, 0, JOB_HEADER, BUSY),
    Row(
        "a run of no time: summary",
        "run --domains 2 --print summary",
        RACE,
        0,
        summary(THREE, [(0, 0, 0, "0.00", 0), (1, 0, 0, "0.00", 0)], [(0, 2, 1572864, 1992294, "78.94", 0)]),
        BUSY,
    ),
    Row("a minute: events", "run --print events", ONE_MINUTE, 0, events(*one_minute()), ""),
    Row("a minute: jobs", "run --print jobs", ONE_MINUTE, 0, jobs(*((("t", 1), n, n * 1000000, n * 1000000 + 500, 999500) for n in range(60))), ""),
    Row(
        "a minute: summary",
        "run --print summary",
        ONE_MINUTE,
        0,
        summary(
            [(("t", 1), 0, 60, 0, (500, 500, 500, 999500), (0, 0), (0, 0, 30000), ("0.05", "0.10"))],
            [(0, 0, 30000, "0.05", 120)],
            [(0, 1, 1048, 996147, "0.10", 60000000)],
        ),
        "",
    ),
    # Runs that repeat, whose periods are counted and not simulated.
    Row(
        "two timers of 10 and 15 ms for a minute: summary",
        "run --print summary",
        scenario(("a", working(2000, 10000, 1500, timer(10000))), ("b", working(3000, 15000, 2500, timer(15000))), duration=60),
        0,
        summary(
            [
                (("a", 1), 0, 6000, 0, (1500, 1500, 1500, 8500), (0, 0), (0, 0, 9000000), ("15.00", "20.00")),
                (("b", 2), 0, 4000, 0, (2500, 3250, 4000, 11000), (0, 0), (0, 0, 10000000), ("16.66", "20.00")),
            ],
            [(0, 0, 19000000, "31.66", 18000)],
            [(0, 1, 419430, 996147, "42.10", 60000000)],
        ),
        "",
    ),
    Row(
        "each job is throttled twice and late for a minute: summary",
        "run --print summary",
        scenario(("a", working(300, 1000, 800, timer(3000))), duration=60),
        0,
        summary(
            [(A, 0, 20000, 20000, (2200, 2200, 2200, -1200), (40000, 28000000), (0, 0, 16000000), ("26.66", "30.00"))],
            [(0, 0, 16000000, "26.66", 120000)],
            [(0, 1, 314572, 996147, "31.57", 60000000)],
        ),
        "",
    ),
    Row("two domains for a second: summary", "run --domains 1,1 --print summary", TWO_DOMAINS, 0, OF_TWO, ""),
    Row("the same by six clients and two workers", "run --domains 1,1 --clients 6 --workers 2 --print summary", TWO_DOMAINS, 0, OF_TWO, ""),
]

PROMISE_HEADER = "#          task    pid dom   work_max    gap_min promise\n"
EXAMPLES = Path(__file__).parent.parent / "examples"


def promises(*tasks):
    """The line of each task: its name and number, its domain, its longest work and shortest gap, and the answer."""
    return PROMISE_HEADER + "".join(
        f"{name:>15} {1000 + number:>6} {domain:>3} {work:>10} {gap:>10} {answer}\n" for (name, number), domain, work, gap, answer in tasks
    )


def promised(example, words, *tasks):
    return Row(f"promises of {example}", f"run {words} --print promises", (EXAMPLES / f"{example}.json").read_text(), 0, promises(*tasks), "")


# With the whole CPU as the limit each budget is kept, and c and d are late: their shares are rounded down (docs/PROMISES.md).
FULL_CPU = scenario(*((name, deadline(10000, 30000, timer(30000))) for name in "abc"), ("d", deadline(2, 2000000, timer(2000000))), duration=20)
THIRDS = [((name, n), 0, 10000, 30000) for n, name in enumerate("abc", 1)]
A_TRIFLE = ("d", 4), 0, 2, 2000000
# The first seven are each in a domain of its own; EACH has one for each answer.
EACH = scenario(
    ("kept", working(30, 100, 30, ',"sleep":100,"cpus":[0]')),
    ("over", working(30, 100, 20, ',"sleep":100,"run1":11,"cpus":[1]')),
    ("endless", working(30, 100, 5, ',"cpus":[2]')),
    ("near", working(30, 100, 30, timer(99) + ',"cpus":[3]')),
    ("mixed", working(30, 100, 30, ',"sleep":100,"run1":20' + timer(100) + ',"cpus":[4]')),
    ("short", working(30, 100, 30, ',"dl-deadline":99,"sleep":100,"cpus":[5]')),
    ("apart", working(30, 100, 30, ',"sleep":100,"cpus":[6,7]')),
    ("beside", working(30, 100, 30, ',"sleep":100,"cpus":[5]')),
    ("small", working(1, 100, 1, ',"cpus":[0]')),
    ("nowhere", working(30, 100, 10, ',"loop":2,"sleep":100,"run1":20,"cpus":[0,1]')),
    ("busy", working(70, 100, 70, ',"loop":1,"cpus":[0]')),
)
PROMISES = [
    promised("periodic", "", (("sensor", 1), 0, 40000, 200000, "never late"), (("control", 2), 0, 180000, 500000, "never late")),
    promised(
        "late",
        "--domains 2",
        (("light-0", 1), 0, 2000, 10000, "several CPUs"),
        (("light-1", 2), 0, 2000, 10000, "several CPUs"),
        (("heavy", 3), 0, 9000, "-", "several CPUs"),
    ),
    promised("reclaim", "--reclaim", (("idler", 1), 0, 10000, 90000, "reclaiming"), (("worker", 2), 0, 300000, "-", "reclaiming")),
    promised("reclaim", "", (("idler", 1), 0, 10000, 90000, "near releases"), (("worker", 2), 0, 300000, "-", "over budget")),
    promised("two-phases", "", (("player", 1), 0, 80000, 20000, "over budget")),
    promised("overrun", "", (("camera", 1), 0, 130000, 100000, "near releases")),
    Row(
        "promises of tasks of which five are refused",
        "run --domains 2 --print promises",
        RACE,
        0,
        promises(*(((f"t-{n}", n + 1), 0, 100, 900, "several CPUs") if n < 3 else ((f"t-{n}", n + 1), "-", 100, 900, "refused") for n in range(8))),
        BUSY,
    ),
    Row(
        "promises, each for its own reason",
        "run --domains 1,1,1,1,1,1,2 --clients 5 --print promises",
        EACH,
        0,
        promises(
            (("kept", 1), 0, 30, 100, "never late"),
            (("over", 2), 1, 31, 100, "over budget"),
            (("endless", 3), 2, "-", "-", "over budget"),
            (("near", 4), 3, 30, 99, "near releases"),
            (("mixed", 5), 4, 30, 100, "mixed waits"),
            (("short", 6), 5, 30, 100, "short deadline"),
            (("apart", 7), 6, 30, 100, "several CPUs"),
            (("beside", 8), 5, 30, 100, "short deadline"),
            (("small", 9), "-", "-", "-", "refused"),
            (("nowhere", 10), "-", 30, 100, "refused"),
            (("busy", 11), "-", 70, "-", "refused"),
        ),
        "dlsim: task 9 EINVAL 22 Small\ndlsim: task 10 EPERM 1\ndlsim: task 11 EBUSY 16 seen 314572\n",
    ),
    Row(
        "promises at the full limit",
        "run --rt-runtime 1000000 --print promises",
        FULL_CPU,
        0,
        promises(*((*task, "full limit") for task in (*THIRDS, A_TRIFLE))),
        "",
    ),
    Row(
        "and the summary, with late jobs",
        "run --rt-runtime 1000000 --print summary",
        FULL_CPU,
        0,
        summary(
            [
                (("a", 1), 0, 667, 0, (10000, 10009, 10020, 19980), (0, 0), (0, 0, 6670000), ("33.35", "33.33")),
                (("b", 2), 0, 666, 0, (20000, 20009, 20018, 9982), (0, 0), (0, 0, 6669980), ("33.34", "33.33")),
                (("c", 3), 0, 666, 9, (30000, 30000, 30002, -2), (666, 0), (666, 0, 6660000), ("33.30", "33.33")),
                (("d", 4), 0, 10, 3, (1980002, 1989003, 2000006, -6), (3, 0), (3, 0, 20), ("0.00", "0.00")),
            ],
            [(0, 0, 20000000, "100.00", 2010)],
            [(0, 1, 1048576, 1048576, "100.00", 20000000)],
        ),
        "",
    ),
    Row(
        "below the full limit one is refused, and the others are never late",
        "run --print promises",
        FULL_CPU,
        0,
        promises(*((*task, "never late") for task in THIRDS[:2]), (("c", 3), "-", 10000, 30000, "refused"), (*A_TRIFLE, "never late")),
        "dlsim: task 3 EBUSY 16 seen 699050\n",
    ),
]

# Of an input that is none nothing is written, whatever is asked for.
REFUSALS = [
    row
    for text in ("events", "jobs", "summary", "promises")
    for row in (
        Row(f"no JSON: {text}", f"run --print {text}", '{"a":01}', 1, "", "dlsim: json 10 at 6\n"),
        Row(f"no scenario: {text}", f"run --print {text}", scenario(), 1, "", "dlsim: scenario 20\n"),
    )
] + [
    Row(f"no calls text: {text}", f"replay --print {text}", "dlcalls 1\n", 1, "", "dlsim: calls 30 line 2\n") for text in ("events", "jobs", "summary")
]

ROWS = [*REPLAYS, *RUNS, *PROMISES, *REFUSALS]
