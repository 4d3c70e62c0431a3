"""Whole texts with what the program makes of them: the traces of short replays and runs, and what is said of bytes that are no text."""
from typing import NamedTuple

import bad_lines

HEADER = "# tracer: nop\n"
IDLE = None


class Row(NamedTuple):
    name: str
    words: str
    input: str | bytes
    status: int
    out: str
    err: str


def scenario(*threads, duration=0):
    """A scenario of these threads, each a name with its members."""
    inside = ",".join(f'"{name}":{{{members}}}' for name, members in threads)
    return f'{{"tasks":{{{inside}}},"global":{{"duration":{duration}}}}}'


def deadline(runtime, period, more=""):
    """The members of a deadline task that works for its whole runtime, in microseconds."""
    return f'"policy":"SCHED_DEADLINE","dl-runtime":{runtime},"dl-period":{period},"run":{runtime}{more}'


def working(runtime, period, work, more=""):
    """The members of a deadline task that works for so many microseconds."""
    return f'"policy":"SCHED_DEADLINE","dl-runtime":{runtime},"dl-period":{period},"run":{work}{more}'


def calls(*lines):
    return "".join(f"{line}\n" for line in lines)


def switch(place, prev, state, following):
    """A line of a trace: at a time in microseconds, or at a CPU and a time, the one task leaves in this state and the other comes.
    A task is a name and a number, an idle CPU is none."""
    cpu, time = place if isinstance(place, tuple) else (0, place)
    idle = (f"swapper/{cpu}", 0, 120)
    comm, pid, prio = (prev[0], 1000 + prev[1], -1) if prev else idle
    next_comm, next_pid, next_prio = (following[0], 1000 + following[1], -1) if following else idle
    first = comm if prev else "<idle>"
    return (
        f"{first:>16}-{pid:<7} [{cpu:03}] d..2. {time // 1000000:5}.{time % 1000000:06}: sched_switch: prev_comm={comm} prev_pid={pid} "
        f"prev_prio={prio} prev_state={state} ==> next_comm={next_comm} next_pid={next_pid} next_prio={next_prio}"
    )


def trace(*switches):
    return HEADER + calls(*(switch(*one) for one in switches))


def replayed(name, lines, *switches, header="dlcalls 1"):
    """A calls text, one line after the other, and the switches of its trace."""
    return Row(name, "replay", calls(header, *lines), 0, trace(*switches), "")


def answered(name, words, text, lines):
    """A text on standard input, and the calls that it makes with their replies."""
    return Row(name, words + " --print replies", text, 0, calls(*lines), "")


def replies(name, lines):
    """A replay of calls, each with its reply behind it."""
    form = 2 if any(line.startswith(SECOND_FORM) for line in lines) else 1
    return answered(name, "replay", calls(f"dlcalls {form}", *(line.partition(" = ")[0] for line in lines)), lines)


def again(name, text, *replied):
    """A text whose lines the program writes again, each call with its reply behind it."""
    left = iter(replied)
    return answered(name, "replay", text, [line if line.startswith("domain ") else f"{line} = {next(left)}" for line in text.splitlines()[1:]])


def bad(name, text, line):
    return Row(name, "replay", text, 1, "", f"dlsim: calls 30 line {line}\n")


def no_json(name, text, code, place):
    return Row(name, "run", text, 1, "", f"dlsim: json {code} at {place}\n")


A, B = ("a", 1), ("b", 2)
T1, T2, T3, W = ("T1", 1), ("T2", 2), ("T3", 3), ("w", 1)
DOMAIN = "domain 1 1048576"
THROTTLED = calls("dlcalls 1", DOMAIN, "admit 1 1 a 2 5 5 - 0 1:1{r4}", "advance 1 11")
THROTTLED_TRACE = trace((0, IDLE, "R", A), (2, A, "R+", IDLE), (5, IDLE, "R", A), (7, A, "X", IDLE))
MEMBER_ORDER = scenario(
    ("p", '"policy":"SCHED_DEADLINE","dl-runtime":5,"dl-period":10,"phases":{"light":{"loop":2,"run0":3,"sleep1":7},"heavy":{"run0":4,"sleep1":2,"run2":1}}'),
)
RACE = scenario(("t", working(500, 1000, 100, ',"sleep":900,"instance":8')))
RACE_CALLS = calls("dlcalls 1", "domain 2 996147", *(f"admit 1 {n} t-{n - 1} 500 1000 1000 - 0 -1:1{{r100,s900}}" for n in (1, 2, 3)))
TWO_WORDS = scenario(("a", working(600, 1000, 100, ',"instance":2,"cpus":[0]')), ("b", working(600, 1000, 100, ',"cpus":[1]')))
ELSEWHERE = scenario(("t", working(500, 1000, 100, ',"cpus":[0]')), duration=1)
# Each call of the list has its reply behind it.
ANSWERED = [
    DOMAIN,
    "admit 1 1 a 4 8 8 - 0 -1:1{r1,w} = Admitted",
    "admit 2 1 a 4 8 8 - 0 -1:1{r1,w} = Twice 41",
    "admit 1 2 b 5 8 8 - 0 1:1{r1} = EBUSY 16 seen 524288",
    "regrade 1 1 2 8 8 - = Changed",
    "regrade 1 1 2 8 8 - busy 7 = EBUSY 16 seen 7",
    "regrade 1 7 2 8 8 - = ESRCH 3",
    "wake 1 1 = NotWaiting 42",
    "advance 1 2 = Done 2",
    "wake 1 1 = Woken",
    "limit 1 262143 = EBUSY 16 seen 262144",
    "limit 1 262144 = Set",
    "depart 1 1 = Departed",
    "leave 1 1 = ESRCH 3",
    "arrive 1 3 c 2 8 8 - 1:1{r1} = Admitted",
    "arrive 1 1 a 2 8 8 - 1:1{r1} = Twice 41",
    "leave 64 3 = Left",
    "domain 64 1048576",
    *(f"admit 1 {n} t 2 1024 1024 - 0 1:1{{r1}} = Admitted" for n in range(1, 257)),
    "admit 1 257 t 2 1024 1024 - 0 1:1{r1} = Full 40",
]
# A third of a CPU, rounded down, and the least bandwidth; no bandwidth at all.
THIRD, LEAST, NOTHING = "10000 30000 30000 - 0 1:1{r1}", "2 2000000 2000000 - 0 1:1{r1}", "2 4000000 4000000 - 0 1:1{r1}"
# The same of small domains, each a row of docs/ROWS.md.
FEW = {
    "full_domain_and_no_bandwidth: who was refused may come again, who was admitted may not": [
        "domain 1 524288",
        "admit 1 1 a 500 1000 1000 - 0 1:1{r1} = Admitted",
        "admit 1 2 b 2 100 100 - 0 1:1{r1} = EBUSY 16 seen 524288",
        f"admit 1 1 a {NOTHING} = Twice 41",
        f"admit 1 2 b {NOTHING} = Admitted",
    ],
    "rounding_down_admits": [
        DOMAIN,
        *(f"admit 1 {n} t {THIRD} = Admitted" for n in (1, 2, 3)),
        f"admit 1 4 t {LEAST} = Admitted",
        f"admit 1 5 t {LEAST} = EBUSY 16 seen 1048576",
    ],
    "number_257_is_full, before a number is looked at; the sum stays 256": [
        DOMAIN,
        *(f"admit 1 {n} t {LEAST} = Admitted" for n in range(1, 257)),
        f"admit 1 257 t {LEAST} = Full 40",
        f"admit 1 1 t {LEAST} = Full 40",
        "regrade 1 1 8 8 8 - = EBUSY 16 seen 256",
    ],
    "waiting": [
        DOMAIN,
        "admit 1 1 w 2 10 10 - 0 -1:1{w,r1} = Admitted",
        "advance 1 3 = Done 3",
        "wake 1 1 = Woken",
        "wake 1 1 = NotWaiting 42",
        "wake 1 2 = ESRCH 3",
        "advance 1 3 = Done 3",
    ],
    "regrade, refused by the word and by the sum": [
        "domain 1 524288",
        "admit 1 1 a 2 8 8 - 0 1:1{r2} = Admitted",
        "regrade 1 1 4 8 8 - busy 393216 = EBUSY 16 seen 393216",
        "regrade 1 1 4 8 8 - = Changed",
        "regrade 1 1 5 8 8 - = EBUSY 16 seen 524288",
        "regrade 1 7 2 8 8 - = ESRCH 3",
    ],
    "limit_calls": [
        "domain 1 524288",
        "admit 1 1 a 2 8 8 - 0 1:1{r1} = Admitted",
        "limit 1 131072 = EBUSY 16 seen 262144",
        "limit 1 262144 = Set",
        "admit 1 2 b 2 8 8 - 0 1:1{r1} = EBUSY 16 seen 262144",
        "limit 1 1048576 = Set",
        "admit 1 3 c 2 8 8 - 0 1:1{r1} = Admitted",
        "regrade 1 3 8 8 8 - = EBUSY 16 seen 524288",
    ],
    "limit_by_the_word, which is asked behind the sum": [
        "domain 1 524288",
        "limit 1 131072 busy 262144 = EBUSY 16 seen 262144",
        "admit 1 1 a 4 8 8 - 0 1:1{r1} = Admitted",
        "limit 1 131072 busy 262144 = EBUSY 16 seen 524288",
    ],
    "leaving_keeps_bandwidth_until_zero_lag": [
        DOMAIN,
        "admit 1 1 a 4 8 8 - 0 1:1{r100} = Admitted",
        "advance 1 2 = Done 2",
        "leave 1 1 = Left",
        "leave 1 1 = ESRCH 3",
        "advance 1 2 = Done 2",
        "admit 1 2 b 8 8 8 - 0 1:1{r100} = EBUSY 16 seen 524288",
        "advance 1 1 = Done 1",
        "admit 1 3 b 8 8 8 - 0 1:1{r100} = Admitted",
    ],
    "a departure is answered; nobody goes who is not there, has gone or has ended": [
        "domain 1 524288",
        "depart 1 1 = ESRCH 3",
        "admit 1 1 a 4 8 8 - 0 1:1{r1} = Admitted",
        "depart 1 1 = Departed",
        "depart 1 1 = ESRCH 3",
        "admit 1 1 a 4 8 8 - 0 1:1{r1} = Twice 41",
        "admit 1 2 b 4 8 8 - 0 1:1{r1} = Admitted",
        "advance 1 2 = Done 2",
        "depart 1 2 = ESRCH 3",
    ],
}
SECOND_FORM = ("limit ", "depart ", "arrive ")
LONGEST_PHASE = f"1000000000{{{'r1000000000,' * 63}r1000000000}}"
BUSY = "".join(f"dlsim: task {n} EBUSY 16 seen 1572864\n" for n in range(4, 9))

TEXTS = [
    Row("throttled inside a job", "replay", THROTTLED, 0, THROTTLED_TRACE, ""),
    replayed(
        "the zero-lag time of a task that sleeps",
        [DOMAIN, "admit 1 1 T1 4 8 8 R 0 -1:1{r2,s6}", "admit 1 2 T2 4 8 8 R 0 1:1{r100}", "advance 1 9"],
        (0, IDLE, "R", T1),
        (2, T1, "S", T2),
        (8, T2, "R+", T1),
    ),
    replayed(
        "zero_start: the first deadline of T2 is before that of T1",
        [DOMAIN, "admit 1 1 T1 2 8 8 - 0 1:1{r2}", "admit 1 2 T2 2 3 8 - 0 1:1{r2}", "advance 1 5"],
        (0, IDLE, "R", T2),
        (2, T2, "X", T1),
        (4, T1, "X", IDLE),
    ),
    replayed(
        "spent_while_blocking: it wakes at 6 and is throttled until 8",
        [DOMAIN, "admit 1 1 T1 4 8 8 - 0 -1:1{r4,s2}", "advance 1 13"],
        (0, IDLE, "R", T1),
        (4, T1, "S", IDLE),
        (8, IDLE, "R", T1),
        (12, T1, "S", IDLE),
    ),
    replayed(
        "fraction_and_carry: what is overdrawn is lacking later",
        ["domain 1 996147", "admit 1 1 T1 4 8 8 R 0 1:1{r1000}", "advance 1 25"],
        (0, IDLE, "R", T1),
        (23, T1, "R+", IDLE),
        (24, IDLE, "R", T1),
    ),
    replayed(
        "two_cpus: a task first belongs to the CPU of its number",
        ["domain 2 1048576", *(f"admit 1 {n} T{n} 4 8 8 - 0 -1:1{{r4,t8}}" for n in (1, 2, 3)), "advance 1 5"],
        ((0, 0), IDLE, "R", T2),
        ((1, 0), IDLE, "R", T1),
        ((0, 4), T2, "S", IDLE),
        ((1, 4), T1, "S", T3),
    ),
    replayed(
        "timer_cursor: at 20 the timer's 16 is past, and the script goes on, so that the next time is 28",
        [DOMAIN, "admit 1 1 a 16 32 32 - 0 -1:1{r4,t8}", "admit 1 2 b 8 16 16 - 8 1:1{r8}", "advance 1 30"],
        (0, IDLE, "R", A),
        (4, A, "S", IDLE),
        (8, IDLE, "R", B),
        (16, B, "X", A),
        (24, A, "S", IDLE),
        (28, IDLE, "R", A),
    ),
    replayed(
        "the longest script answers at once",
        [DOMAIN, f"admit 1 1 a 2 5 5 - 0 1000000000:{LONGEST_PHASE * 64}", "advance 1 1"],
        (0, IDLE, "R", A),
    ),
    replayed(
        "waiting: a task that is woken runs in the next tick",
        [DOMAIN, "admit 1 1 w 2 10 10 - 0 -1:1{w,r1}", "advance 1 3", "wake 1 1", "advance 1 3"],
        (3, IDLE, "R", W),
        (4, W, "S", IDLE),
    ),
    replayed(
        "a task that leaves while it runs",
        [DOMAIN, "admit 1 1 a 4 8 8 - 0 1:1{r100}", "advance 1 2", "leave 1 1", "advance 1 3"],
        (0, IDLE, "R", A),
        (2, A, "X", IDLE),
    ),
    replayed(
        "two domains, each with its own numbers, the CPUs of the second behind those of the first",
        [
            DOMAIN,
            "admit 1 1 a 2 8 8 - 0 1:1{r2}",
            "advance 1 3",
            "domain 2 1048576",
            "admit 1 1 a 2 8 8 - 1 1:1{r2}",
            "admit 1 2 b 2 8 8 - 1 1:1{r1}",
            "advance 1 4",
        ],
        (0, IDLE, "R", A),
        ((1, 1), IDLE, "R", B),
        ((2, 1), IDLE, "R", A),
        (2, A, "X", IDLE),
        ((1, 2), B, "X", IDLE),
        ((2, 3), A, "X", IDLE),
    ),
    replayed(
        "two tasks of one name",
        [DOMAIN, "admit 1 1 a 2 8 8 - 0 1:1{r1}", "admit 1 2 a 2 8 8 - 0 1:1{r1}", "advance 1 2"],
        (0, IDLE, "R", A),
        (1, A, "X", ("a", 2)),
    ),
    replayed(
        "a task that waits is woken, gets another runtime, and leaves while it runs",
        [DOMAIN, "admit 1 1 w 2 10 10 - 0 -1:1{w,r100}", "advance 1 3", "wake 1 1", "regrade 1 1 4 10 10 -", "advance 1 3", "leave 1 1", "advance 1 10"],
        (3, IDLE, "R", W),
        (6, W, "X", IDLE),
    ),
    replayed(
        "a regrade that the word refused leaves 2 us of each 8",
        ["domain 1 524288", "admit 1 1 a 2 8 8 - 0 1:1{r100}", "regrade 1 1 4 8 8 - busy 393216", "advance 1 5"],
        (0, IDLE, "R", A),
        (2, A, "R+", IDLE),
    ),
    replayed(
        "1000 us of each 1000 do not fit beside 2 of 100",
        [DOMAIN, "admit 1 1 a 2 100 100 - 0 1:1{r1}", "admit 1 1 b 1000 1000 1000 - 0 1:1{r1}", "advance 1 3"],
        (0, IDLE, "R", A),
        (1, A, "X", IDLE),
    ),
    replayed(
        "the limit changes the rate of a task that reclaims",
        [DOMAIN, "admit 1 1 a 4 8 8 R 0 1:1{r1000}", "advance 1 4", "limit 1 786432", "advance 1 5"],
        (0, IDLE, "R", A),
        (7, A, "R+", IDLE),
        (8, IDLE, "R", A),
        header="dlcalls 2",
    ),
    replayed("a limit that the word refused", ["domain 1 524288", "limit 1 131072 busy 262144"], header="dlcalls 2"),
    replayed(
        "a task goes to another domain",
        [
            DOMAIN,
            "admit 1 1 a 4 8 8 - 0 -1:1{r2,s6}",
            "advance 1 1",
            "depart 1 1",
            "advance 1 2",
            DOMAIN,
            "advance 1 5",
            "arrive 1 1 a 4 8 8 - -1:1{r2,s6}",
            "advance 1 3",
        ],
        (0, IDLE, "R", A),
        (1, A, "X", IDLE),
        ((1, 5), IDLE, "R", A),
        ((1, 7), A, "S", IDLE),
        header="dlcalls 2",
    ),
    replies("each reply", ANSWERED),
    *(replies(name, lines) for name, lines in FEW.items()),
    answered("no calls", "replay", calls("dlcalls 1", DOMAIN, "domain 2 10485"), [DOMAIN, "domain 2 10485"]),
    answered(
        "a run with an advance",
        "run --domains 1,1",
        ELSEWHERE,
        [
            "domain 1 996147",
            "admit 1 1 t 500 1000 1000 - 0 -1:1{r100} = Admitted",
            "advance 1 1000000 = Done 1000000",
            "domain 1 996147",
            "advance 1 1000000 = Done 1000000",
        ],
    ),
    Row("the replies of a run that refused", "run --domains 2 --print replies", RACE, 0, RACE_CALLS.partition("\n")[2].replace("}\n", "} = Admitted\n"), BUSY),
    Row("the replies to no text", "replay --print replies", "dlcalls 1\n", 1, "", "dlsim: calls 30 line 2\n"),
    Row("members in the order of the text", "run --print calls", MEMBER_ORDER, 0, calls("dlcalls 1", "domain 1 996147", "admit 1 1 p 5 10 10 - 0 -1:2{r3,s7}1{r4,s2,r1}"), ""),
    Row("the first three of eight find room", "run --domains 2 --print calls", RACE, 0, RACE_CALLS, BUSY),
    Row("the calls that were made, replayed", "replay", RACE_CALLS, 0, HEADER, ""),
    Row("the word of another domain", "run --domains 1,1", TWO_WORDS, 0, HEADER, "dlsim: task 2 EBUSY 16 seen 629145\n"),
    Row("CPUs of no domain", "run --domains 2", ELSEWHERE, 0, HEADER, "dlsim: task 1 EPERM 1\n"),
]

# The first line at which a text stops being the front of one that is read: a header of another text; no CPU, a ninth section, a line that is cut; carriage returns;
# NUL in a name, behind the text and in place of a line's end; bytes that are no UTF-8; no text at all; a line of 16 MB.
BAD_LINES = [
    bad("no CPU", calls("dlcalls 1", DOMAIN, "domain 0 1048576"), 3),
    bad("nine sections", calls("dlcalls 1", *["domain 1 10485"] * 9), 10),
    *(
        bad(f"{count} sections of a call", calls("dlcalls 1", *[DOMAIN, "advance 1 1"] * count), line)
        for count, line in ((0, 2), (9, 18))
    ),
    *(
        Row(f"{count} sections of a call", "replay", calls("dlcalls 1", *[DOMAIN, "advance 1 1"] * count), 0, HEADER, "")
        for count in (1, 8)
    ),
    Row("64 events", "replay", calls("dlcalls 1", DOMAIN, f"admit 1 1 a 2 5 5 - 0 1:1{{{'w,' * 63}w}}"), 0, HEADER, ""),
    bad("65 events", calls("dlcalls 1", DOMAIN, f"admit 1 1 a 2 5 5 - 0 1:1{{{'w,' * 64}w}}"), 3),
    Row("64 phases", "replay", calls("dlcalls 1", DOMAIN, f"admit 1 1 a 2 5 5 - 0 1:{'1{w}' * 64}"), 0, HEADER, ""),
    bad("65 phases", calls("dlcalls 1", DOMAIN, f"admit 1 1 a 2 5 5 - 0 1:{'1{w}' * 65}"), 3),
    bad("small_runtime", calls("dlcalls 1", DOMAIN, "admit 1 1 T1 1 8 8 - 0 1:1{r1}", "advance 1 1"), 3),
    *(bad(f"{line!r} behind {front!r}", f"{front}{line}\n", n) for front, n, lines in bad_lines.TABLES for line in lines),
    bad("a line that is cut", THROTTLED[:65], 4),
    bad("CRLF", THROTTLED.replace("\n", "\r\n"), 1),
    bad("CRLF in the last line", calls("dlcalls 1", DOMAIN, "advance 1 1\r"), 3),
    bad("CRLF in the second line", calls("dlcalls 1", DOMAIN + "\r", "advance 1 1"), 2),
    bad("CRLF behind the text", calls("dlcalls 1", DOMAIN, "advance 1 1", "\r"), 4),
    bad("NUL behind a line", calls("dlcalls 1", DOMAIN, "advance 1 1\0"), 3),
    bad("a byte order mark before the text", b"\xef\xbb\xbf" + calls("dlcalls 1", DOMAIN).encode(), 1),
    bad("NUL alone", "\0", 1),
    bad("NUL in a name", calls("dlcalls 1", DOMAIN, "admit 1 1 a\0b 2 5 5 - 0 1:1{r4}"), 3),
    bad("NUL behind the text", calls("dlcalls 1", DOMAIN, "advance 1 1") + "\0", 4),
    bad("NUL for the last line's end", calls("dlcalls 1", DOMAIN, "advance 1 1")[:-1] + "\0", 3),
    bad("no UTF-8", calls("dlcalls 1", DOMAIN).encode() + b"admit 1 1 \xff 2 5 5 - 0 1:1{r4}\n", 3),
    bad("no text", b"\xff\xfe", 1),
    bad("an empty line", "\n", 1),
    *(
        bad(f"16 MB of {line[-1]}", calls("dlcalls 1", DOMAIN, line + line[-1] * 16777216), 3)
        for line in ("admit 1 1 a", "advance 1 1", "admit 1 1 a 2 5 5 - 0 1:1{r4")
    ),
    *(
        bad(f"16 MB of {part} behind a text{', with an end' if end else ''}", THROTTLED + line + part * 1048576 + end, 5)
        for line, part in (
            ("admit 1 1 a", "aaaaaaaaaaaaaaaa"),
            ("advance 1 1", "0000000000000000"),
            ("admit 1 1 a 2 5 5 - 0 1:1{w", ",r1,r1,r1,r1,r1w"),
            ("admit 1 1 a 2 5 5 - 0 1:1{w}", "1{w}1{w}1{w}1{w}"),
        )
        for end in ("", "\nadvance 1 1\n")
    ),
    bad("a limit behind dlcalls 1", calls("dlcalls 1", DOMAIN, "limit 1 10485"), 3),
    bad("a departure behind dlcalls 1", calls("dlcalls 1", DOMAIN, "depart 1 1"), 3),
    bad("an arrival with a delay", calls("dlcalls 2", DOMAIN, "arrive 1 1 a 4 8 8 - 0 1:1{r2}"), 3),
    bad("a limit that is too low", calls("dlcalls 2", DOMAIN, "limit 1 10484"), 3),
    bad("more than the word holds", calls("dlcalls 2", DOMAIN, "limit 1 10485 busy 67108865"), 3),
    bad("dlcalls 2 alone", calls("dlcalls 2"), 2),
    bad("a section behind dlcalls 2", calls("dlcalls 2", DOMAIN), 3),
    bad("no limit behind dlcalls 2", calls("dlcalls 2", DOMAIN, "advance 1 1"), 4),
    bad("a bad line before a limit", calls("dlcalls 2", DOMAIN, "advance 1 1", "wake 1 0"), 4),
    bad("no limit in two sections", calls("dlcalls 2", "domain 1 10485", "wake 1 1", "domain 1 10485", "wake 1 1"), 6),
    bad("no limit in eight sections", calls("dlcalls 2", *[DOMAIN] * 8), 10),
    bad("no room for a limit by one", calls("dlcalls 2", *[DOMAIN] * 8, *["wake 1 1"] * 65535), 65545),
    bad("no room for a limit, and a call too many", calls("dlcalls 2", *[DOMAIN] * 8, *["wake 1 1"] * 65537), 65545),
    Row("a limit, and a section that is full", "replay", calls("dlcalls 2", DOMAIN, "limit 1 10485", *[DOMAIN] * 7, *["wake 1 1"] * 65536), 0, HEADER, ""),
    bad("no room for a limit", calls("dlcalls 2", *["domain 1 10485"] * 8, *["wake 1 1"] * 65536), 65545),
    Row("room for one limit", "replay", calls("dlcalls 2", *["domain 1 10485"] * 8, *["wake 1 1"] * 65535, "limit 1 10485"), 0, HEADER, ""),
    Row("65,536 calls", "replay", calls("dlcalls 1", DOMAIN, *["wake 1 1"] * 65536), 0, HEADER, ""),
    Row("65,536 calls and another section", "replay", calls("dlcalls 1", DOMAIN, *["advance 64 60000000"] * 65536, DOMAIN, "advance 1 1"), 0, HEADER, ""),
    bad("65,537 calls", calls("dlcalls 1", DOMAIN, *["wake 1 1"] * 65537), 65539),
]

# Texts that stop too early or go on with no byte of an accepted one, each with its code and place.
CUT = [
    ('{"tasks":{"a":{"run":12', 11, 23),
    ('{"tasks":{"a":{"ru', 11, 18),
    ("", 11, 0),
    ('{"a":01}', 10, 6),
    ("[1,]", 10, 3),
    ('{"a":1,}', 10, 7),
    ("1 // one", 10, 2),
    ("nul", 11, 3),
    ("nulx", 10, 3),
    ("-", 11, 1),
    ("1.", 11, 2),
    ("1.5e", 11, 4),
    ("+1", 10, 0),
    ('"\\x"', 10, 2),
    ('"\\udc00"', 10, 4),
    ('"\\uDFFF"', 10, 4),
    ('"\\ud83d"', 10, 7),
    ('"\\ud83d\\n"', 10, 8),
    ('"\\ud83d\\u0041"', 10, 9),
    ('"\\ud83d\\ud83d"', 10, 10),
    ('"\\ud83d\\ude0', 11, 12),
    ('"\\u00g0"', 10, 5),
    ('{"run":1,"run":2}', 13, 13),
]
MEMBERS = '{"first":0' + "".join(f',"key{n}":{n}' for n in range(10000))

# What no scenario begins with: a key twice, once escaped; lone surrogates, escaped and as bytes; a character in more bytes than it needs,
# above the last one, cut, or in its middle; NUL in a text and before it; a byte order mark; brackets without end.
NO_JSON = [
    no_json("a key twice", '{"a":1,"\\u0061":2}', 13, 14),
    no_json("the second half of a pair", '{"a":"\\udc00"}', 10, 9),
    no_json("the first half of a pair", '{"a":"\\ud83d"}', 10, 12),
    no_json("half of a pair, as bytes", b'{"a":"\xed\xa0\x80"}', 14, 6),
    no_json("more bytes than needed", b'{"a":"\xc0\xaf"}', 14, 6),
    no_json("above the last character", b'{"a":"\xf4\x90\x80\x80"}', 14, 6),
    no_json("a character that is cut", b'{"a":"\xe2\x82', 14, 6),
    no_json("the middle of a character", b'{"a":"\x80"}', 14, 6),
    no_json("no character's byte", b'{"a":"\xff', 14, 6),
    no_json("NUL in a text", '{"a":"\0"}', 10, 6),
    no_json("NUL before the text", "\0{}", 10, 0),
    no_json("a byte order mark", b"\xef\xbb\xbf{}", 10, 0),
    no_json("a name that is cut", '{"tasks":{"a":{"ru', 11, 18),
    no_json("a million brackets", "[" * 1048576, 12, 16),
    no_json("a line break for a text", " \n", 11, 2),
    no_json("a line break in a text", '"a\nb"', 10, 2),
    no_json("a byte order mark before a number", b"\xef\xbb\xbf1", 10, 0),
    no_json("a bracket that is not its own, and no UTF-8", b"{]\xff", 14, 2),
    no_json("a text of a character that is cut", b'"\xe2\x82', 14, 1),
    no_json("no UTF-8 alone", b"\xff", 14, 0),
    *(no_json(f"{text!r}", text, code, place) for text, code, place in CUT),
    no_json("17 brackets", "[" * 17, 12, 16),
    no_json("16 brackets", "[" * 16, 11, 16),
    no_json("an object in the last level", "[" * 15 + '{"a":{', 12, 20),
    no_json("a bracket for a key", "[" * 15 + "{[", 10, 16),
    no_json("10,001 members without their brace", MEMBERS, 11, len(MEMBERS)),
    *(
        Row(name, "run", text, 1, "", "dlsim: scenario 20\n")
        for name, text in (
            ("16 levels", "[" * 16 + "]" * 16),
            ("one key in two objects", '{"b":{"a":1},"a":{"a":2}}'),
            ("10,001 members", MEMBERS + "}"),
            ("10,000 lists of 16 levels", "[0" + ("," + "[" * 15 + "]" * 15) * 10000 + "]"),
        )
    ),
]


def numbered(key, value, count):
    """So many members of a key and its number."""
    return ",".join(f'"{key}{n}":{value}' for n in range(count))


def phases(members):
    """A scenario of a thread with these phases."""
    return scenario(("a", f'"policy":"SCHED_DEADLINE","dl-runtime":100,"dl-period":1000,"phases":{{{members}}}'))


def of_64(name, members, script):
    """So much is read: the admission that the scenario makes."""
    return Row(name, "run --print calls", phases(members), 0, calls("dlcalls 1", "domain 1 996147", f"admit 1 1 a 100 1000 1000 - 0 -1:{script}"), "")


def of_65(name, members, answer):
    return Row(name, "run", phases(members), 1, "", f"dlsim: scenario {answer}\n")


# 64 events of a phase and 64 phases are read. Events of 0 us count, and neither the value of the 65th event is read nor any of 65 phases.
COUNTS = [
    of_64("64 events of a scenario", f'"p":{{{numbered("run", 1, 64)}}}', f"1{{{'r1,' * 63}r1}}"),
    of_65("64 events of 0 us", f'"p":{{{numbered("run", 0, 64)}}}', 27),
    of_65("65 events of 0 us", f'"p":{{{numbered("run", 0, 65)}}}', 26),
    of_64("64 phases of a scenario", numbered("p", '{"run":1}', 64), "1{r1}" * 64),
    of_65("64 phases that are none", numbered("p", 1, 64), "23 key p0"),
    of_65("65 phases that are none", numbered("p", 1, 65), 26),
]


def fronts_of(name, text, least=2, traces=None):
    """Each front of a calls text: whole lines from line `least` on are a text, of which these traces come, by the number of its lines; every
    other one has a line that is bad, the last."""
    for n in range(len(text)):
        front = text[:n]
        lines = front.count("\n")
        if lines >= least and front.endswith("\n"):
            yield Row(f"{n} bytes of {name}", "replay", front, 0, (traces or {}).get(lines, HEADER), "")
        else:
            yield bad(f"{n} bytes of {name}", front, lines + 1)


# Every kind of call and of event, and the greatest numbers.
ALL_KINDS = calls(
    "dlcalls 1",
    "domain 64 1048576",
    "admit 1 1 T1 4 8 9 R 0 -1:1{r2,s6}",
    "admit 64 65535 ~2345678901234! 4294967296 4294967296 4294967296 - 1000000000 "
    "1000000000:1000000000{w,r1000000000}2{t1000000000,s1000000000,w}",
    "regrade 1 1 5 8 9 -",
    "regrade 64 65535 6 8 9 R",
    "regrade 64 1 6 8 9 - busy 0",
    "wake 64 65535",
    "leave 2 65535",
    "advance 1 60000000",
)
TWO_SECTIONS = calls("dlcalls 1", "domain 1 996147", "advance 1 1", "advance 2 1", "advance 1 2", "domain 2 1048576", "advance 1 3")
CHANGED_RATE = calls("dlcalls 2", DOMAIN, "admit 1 1 a 4 8 8 R 0 1:1{r1000}", "advance 1 4", "limit 1 786432", "advance 1 5")
REFUSED = calls("dlcalls 2", "domain 2 1048576", "advance 1 1", "domain 1 524288", "limit 1 131072 busy 262144")
LIMIT_ENDS = calls("dlcalls 2", "domain 1 10485", "limit 1 1048576", "limit 64 10485 busy 0", "limit 1 10485 busy 67108864", "limit 1 10485")
MOVED = calls(
    "dlcalls 2",
    DOMAIN,
    "admit 1 1 a 4 8 8 - 0 -1:1{r2,s6}",
    "advance 1 1",
    "depart 1 1",
    "advance 1 2",
    DOMAIN,
    "advance 1 5",
    "arrive 1 1 a 4 8 8 - -1:1{r2,s6}",
    "advance 1 3",
)
MOVE_ENDS = calls(
    "dlcalls 2", "domain 1 10485", "arrive 64 65535 ~ 4294967296 4294967296 4294967296 R 1000000000:1{w}", "depart 64 65535"
)
AGAIN = [
    again("every kind of call, again", ALL_KINDS, "Admitted", "Admitted", "Changed", "Changed", "EBUSY 16 seen 0", "NotWaiting 42", "Left", "Done 60000000"),
    again("two sections, again", TWO_SECTIONS, "Done 1", "Done 1", "Done 2", "Done 3"),
    again("a change of the limit, again", CHANGED_RATE, "Admitted", "Done 4", "Set", "Done 5"),
    again("a limit that the word refused, again", REFUSED, "Done 1", "EBUSY 16 seen 262144"),
    again("the least and the greatest limits, again", LIMIT_ENDS, "Set", "EBUSY 16 seen 0", "EBUSY 16 seen 67108864", "Set"),
    again("a move, again", MOVED, "Admitted", "Done 1", "Departed", "Done 2", "Done 5", "Admitted", "Done 3"),
    again("an arrival alone, again", MOVE_ENDS, "EBUSY 16 seen 0", "ESRCH 3"),
]
# It runs from 0 on; where it has gone, it stops at 1.
RUNS = trace((0, IDLE, "R", A))
GOES = trace((0, IDLE, "R", A), (1, A, "X", IDLE))


def fronts():
    """Each front of a scenario ends too early. Of a calls text those are whole that end with a section's line or one behind it, and behind
    `dlcalls 2` with the first call of the second form or one behind it."""
    for n in range(len(MEMBER_ORDER)):
        yield no_json(f"{n} bytes of a scenario", MEMBER_ORDER[:n], 11, n)
    yield from fronts_of("a calls text", THROTTLED)
    yield from fronts_of("every kind of call", ALL_KINDS)
    yield from fronts_of("two sections", TWO_SECTIONS)
    yield from fronts_of("a change of the limit", CHANGED_RATE, 5, {5: RUNS})
    yield from fronts_of("a limit that the word refused", REFUSED, 5)
    yield from fronts_of("the least and the greatest limits", LIMIT_ENDS, 3)
    yield from fronts_of("a move", MOVED, 5, {5: RUNS, **dict.fromkeys(range(6, 10), GOES)})
    yield from fronts_of("an arrival alone", MOVE_ENDS, 3)


# Three tasks in each of two domains of one CPU, a job of 50 us in each millisecond: each CPU is idle between.
PERIODIC = ',"instance":3,"cpus":[{}],"timer":{{"ref":"unique","period":1000}}'
TWO_DOMAINS = scenario(
    ("a", working(100, 1000, 50, PERIODIC.format(0))), ("b", working(100, 1000, 50, PERIODIC.format(1))), duration=1
)
ONE_MINUTE = scenario(("t", working(1000, 1000000, 500, ',"timer":{"ref":"unique","period":1000000}')), duration=60)


def two_domains():
    """The trace of TWO_DOMAINS."""
    for start in range(0, 1000000, 1000):
        for k in range(4):
            for cpu, name in enumerate("ab"):
                tasks = [IDLE, *((f"{name}-{i}", 3 * cpu + i + 1) for i in range(3)), IDLE]
                state = "S" if tasks[k] else "R"
                yield (cpu, start + 50 * k), tasks[k], state, tasks[k + 1]


def one_minute():
    """The trace of ONE_MINUTE: in each second the task comes and goes."""
    for start in range(0, 60000000, 1000000):
        yield start, IDLE, "R", ("t", 1)
        yield start + 500, ("t", 1), "S", IDLE


def each_millisecond(rounds, work, state):
    """A task works from the beginning of each millisecond on, and leaves the CPU in this state."""
    for start in range(0, 1000 * rounds, 1000):
        yield start, IDLE, "R", ("a", 1)
        yield start + work, ("a", 1), state, IDLE


# Runs that repeat, so that their periods are given again: without end, up to a last round, up to a call, and with work that lasts.
REPEATING = [
    ("a run that repeats", ["admit 1 1 a 300 1000 1000 - 0 -1:1{r100,t1000}", "advance 1 5000000"], (5000, 100, "S")),
    ("a run that repeats for 4321 rounds", ["admit 1 1 a 300 1000 1000 - 0 4321:1{r100,t1000}", "advance 1 5000000"], (4321, 100, "S")),
    (
        "a run that repeats up to a call",
        ["admit 1 1 a 300 1000 1000 - 0 -1:1{r100,t1000}", "advance 1 3000500", "leave 1 1", "advance 1 3000000"],
        (3001, 100, "S"),
    ),
    ("work that outlasts each period", ["admit 1 1 a 300 1000 1000 - 0 1:1{r1000000000}", "advance 1 5000000"], (5000, 300, "R+")),
]

LONG = [
    *(replayed(name, ["domain 1 1048576", *lines], *each_millisecond(*shape)) for name, lines, shape in REPEATING),
    Row("two domains for a second", "run --domains 1,1", TWO_DOMAINS, 0, trace(*two_domains()), ""),
    Row("a minute", "run", ONE_MINUTE, 0, trace(*one_minute()), ""),
]

# Keys that the profile does not have, and how they are told: what does not print is escaped, and letters of any language stand as they are.
KEYS = {
    "a line break": ("x\\ny", "x\\u000ay"),
    "U+007F": ("x\x7fy", "x\\u007fy"),
    "U+0085": ("x\u0085y", "x\\u0085y"),
    "U+009B": ("\u009b2J", "\\u009b2J"),
    "U+2028": ("x\u2028y", "x\\u2028y"),
    "U+202E": ("x\u202ey", "x\\u202ey"),
    "U+2069, by an escape": ("x\\u2069y", "x\\u2069y"),
    "letters": ("\u00e4\u4e2d\U0001f600q", "\u00e4\u4e2d\U0001f600q"),
    "200 letters": ("q" * 200, "q" * 200),
}


def keys():
    for name, (key, shown) in KEYS.items():
        yield Row(f"a key with {name}", "run", scenario(("a", f'"{key}":1')), 1, "", f"dlsim: scenario 22 key {shown}\n")


def crowds():
    """77 tasks of which none is refused: each number of clients has its threads."""
    given = scenario(*((f"t{n}", working(1024, 1000000, 1)) for n in range(77)))
    for clients in range(1, 65):
        yield Row(f"77 tasks, {clients} clients", f"run --clients {clients}", given, 0, HEADER, "")


def refused_crowd():
    """Of 90 tasks each is refused, and told."""
    given = scenario(*((f"t{n}", working(1, 1000, 1)) for n in range(90)))
    told = "".join(f"dlsim: task {n} EINVAL 22 Small\n" for n in range(1, 91))
    yield Row("90 tasks that are refused", "run", given, 0, HEADER, told)


ROWS = [*TEXTS, *AGAIN, *BAD_LINES, *NO_JSON, *COUNTS, *fronts(), *LONG, *keys(), *crowds(), *refused_crowd()]
