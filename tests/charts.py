"""The text of --print chart: spelled here from its pieces, which rows of this table have worked out by hand, and which of any other run
follow from its replies and its events text."""
import re
import xml.etree.ElementTree as xml
from typing import NamedTuple

from texts import DOMAIN, THROTTLED, Row, calls, deadline, scenario

MOST = 1 << 42
PALETTE = "#0072B2 #E4CC3C #00249C #E478B4 #C0FCA8 #241848 #3C9C24 #0C603C".split()
RAMP = "#00204d #414d6b #7b7b78 #bcae6c #ffea46".split()
STYLE = (
    "<style>.b{stroke:#333;stroke-width:.75}.b,.g,.w,.t,.x,.r,.d{vector-effect:non-scaling-stroke}.g{stroke:#bbb}"
    ".w{stroke:#555;stroke-width:1.5}.t{stroke:#b00000;stroke-width:2.5;stroke-dasharray:3 3}.x{stroke:#000;stroke-width:2}"
    ".r{stroke:#000;fill:none}.d{stroke:#b00000;fill:none}rect.b:hover{stroke:#000;stroke-width:2.5}"
    "@media(max-width:700px){text{font-size:18px}text[text-anchor=end]{font-size:15px}}@media print{.g{stroke:#888}}"
    "@page{size:landscape;margin:10mm}</style>\n"
)
# A mark: its class, how far below the top of its row it begins, its path, and what is said of it.
RELEASED, DUE, ENDED = ("r", 10, "v-8m-3 4l3 -4l3 4", "is released at"), ("d", 24, "v8m-3 -4l3 4l3 -4", "is due at"), ("x", 10, "v14", "ended at")


class Drawn(NamedTuple):
    """A row of a chart: bars of a CPU of the machine, a beginning and an end; lines from one time to another; marks, each with its time."""

    name: str
    bars: list
    throttled: list = []
    waits: list = []
    marks: list = []


# ---- the text


def escaped(text):
    return text.replace("&", "&amp;").replace("<", "&lt;").replace(">", "&gt;").replace('"', "&quot;")


def seconds(time):
    return f"{time // 1000000}" + (f".{time % 1000000:06}".rstrip("0") if time % 1000000 else "")


def millis(time):
    return f"{time // 1000}" + (f".{time % 1000:03}".rstrip("0") if time % 1000 else "")


def ticks(start, stop):
    """The times of the axis: a step of 1, 2 or 5 times a power of ten, of which ten are as long as the window."""
    step = next(digit * 10**power for power in range(14) for digit in (1, 2, 5) if 10 * digit * 10**power >= stop - start)
    return range(-(-start // step) * step, stop + 1, step)


class Sheet:
    def __init__(self, start, stop, cpus, rows):
        self.start, self.stop, self.cpus, self.rows = start, stop, cpus, rows
        self.tall = rows <= 24
        sizes = (34, 10, 14, 17, 21) if self.tall else (12, 2, 8, 6, 9) if rows <= 96 else (8, 1, 6, 4, 8)
        self.height, self.bar_top, self.bar_height, self.middle, self.foot = sizes
        self.end = 15 + rows * self.height
        self.unit, self.label = ("ms", millis) if stop - start < 1000000 else ("s", seconds)

    def pixels(self, us):
        return us * 1020 // (self.stop - self.start)

    def x(self, time):
        return 150 + self.pixels(time - self.start)

    def fill(self, cpu):
        return PALETTE[cpu] if self.cpus <= 8 else RAMP[cpu * 5 // self.cpus]

    def ink(self, cpu):
        return "#fff" if (cpu in (0, 2, 5, 7) if self.cpus <= 8 else cpu * 5 // self.cpus < 2) else "#000"

    def legend_cpus(self):
        return range(self.cpus) if self.cpus <= 8 else [-(-k * self.cpus // 5) for k in range(5)]


def name_text(sheet, place, row):
    top, size = 15 + place * sheet.height, "" if sheet.tall else ' font-size="10"'
    if place % 2 == 0:
        yield f'<rect x="0" y="{top}" width="1170" height="{sheet.height}" fill="#f4f4f4"/>\n'
    if sheet.rows <= 96 or place % 4 == 0:
        yield f'<text x="142" y="{top + sheet.foot}" text-anchor="end"{size}>{escaped(row.name)}</text>\n'


def row_text(sheet, place, row):
    top, name = place * sheet.height, escaped(row.name)
    lines = [(span, "t", "is throttled") for span in row.throttled] + [(span, "w", "wants a CPU") for span in row.waits]
    for (start, stop), kind, said in sorted(lines):
        title = f"<title>{name} {said}: {seconds(start)} to {seconds(stop)} s</title>"
        yield f'<path class="{kind}" d="M{start} {top + sheet.middle}H{stop}">{title}</path>\n'
    for cpu, start, stop in row.bars:
        box = f'x="{start}" y="{top + sheet.bar_top}" width="{stop - start}" height="{sheet.bar_height}" fill="{sheet.fill(cpu)}"'
        yield f'<rect class="b" {box}><title>{name} on CPU {cpu}: {seconds(start)} to {seconds(stop)} s, {stop - start} us</title></rect>\n'


def over_text(sheet, place, row):
    top, name = 15 + place * sheet.height, escaped(row.name)
    for cpu, start, stop in row.bars:
        start, stop = max(start, sheet.start), min(stop, sheet.stop)
        if sheet.tall and sheet.cpus > 1 and sheet.pixels(stop - start) >= (16 if cpu < 10 else 22 if cpu < 100 else 28):
            at = f'x="{sheet.x((start + stop) // 2)}" y="{top + sheet.foot}" text-anchor="middle" font-size="11" fill="{sheet.ink(cpu)}"'
            yield f'<text {at} pointer-events="none">{cpu}</text>\n'
    if sheet.tall and len(row.marks) <= 170:
        for (kind, below, path, said), time in row.marks:
            yield f'<path class="{kind}" d="M{sheet.x(time)} {top + below}{path}"><title>{name} {said} {seconds(time)} s</title></path>\n'


def axis(sheet):
    for time in ticks(sheet.start, sheet.stop):
        for y in (11, sheet.end + 16):
            yield f'<text x="{sheet.x(time)}" y="{y}" text-anchor="middle" font-size="11" fill="#333">{sheet.label(time)}</text>\n'
    yield f'<text x="142" y="11" text-anchor="end" font-size="11" fill="#333">time in {sheet.unit}</text>\n'


def legend(sheet):
    low, cpus = sheet.end + 43, sheet.legend_cpus()
    yield f'<text x="142" y="{low}" text-anchor="end" font-size="11">CPU</text>\n'
    for place, cpu in enumerate(cpus):
        x = 150 + 28 * place
        yield f'<rect x="{x}" y="{low - 11}" width="22" height="14" fill="{sheet.fill(cpu)}"/>'
        yield f'<text x="{x + 11}" y="{low}" text-anchor="middle" font-size="11" fill="{sheet.ink(cpu)}">{cpu}</text>\n'
    left = 170 + 28 * len(cpus)
    lines = ("w", 0, 39, "h30", 36, "wants a CPU"), ("t", 176, 39, "h30", 36, "throttled")
    marks = ("r", 330, 44, RELEASED[2], 10, "released"), ("d", 446, 36, DUE[2], 10, "due"), ("x", 506, 32, ENDED[2], 8, "ended")
    for kind, right, below, path, behind, said in lines + marks:
        yield f'<path class="{kind}" d="M{left + right} {sheet.end + below}{path}"/>'
        yield f'<text x="{left + right + behind}" y="{low}" font-size="11">{said}</text>\n'


def chart(start, stop, cpus, rows):
    """The text of a chart of these rows, from one time to another, on so many CPUs."""
    sheet = Sheet(start, stop, cpus, len(rows))
    total, height = sheet.end + 62, sheet.rows * sheet.height
    out = [
        f'<svg xmlns="http://www.w3.org/2000/svg" viewBox="0 0 1200 {total}" width="100%" role="img" '
        f'font-family="DejaVu Sans, Verdana, sans-serif" font-size="12">\n'
        f"<title>Which task ran where: {len(rows)} tasks on {cpus} CPUs, {seconds(start)} to {seconds(stop)} s</title>\n",
        STYLE,
        f'<rect width="1200" height="{total}" fill="#fff"/>\n',
    ]
    for place, row in enumerate(rows):
        out += name_text(sheet, place, row)
    out.append(f'<svg x="150" y="15" width="1020" height="{height}" viewBox="{start} 0 {stop - start} {height}" preserveAspectRatio="none">\n')
    out += [f'<path class="g" d="M{time} 0V{height}"/>\n' for time in ticks(start, stop)]
    for place, row in enumerate(rows):
        out += row_text(sheet, place, row)
    out.append("</svg>\n")
    for place, row in enumerate(rows):
        out += over_text(sheet, place, row)
    return "".join([*out, *axis(sheet), *legend(sheet), "</svg>\n"])


def is_picture(text):
    """The text is XML with the root that a browser draws, has no script, and every name in it is a text."""
    root = xml.fromstring(text)
    tags = {node.tag.rpartition("}")[2] for node in root.iter()}
    return root.tag == "{http://www.w3.org/2000/svg}svg" and tags <= {"svg", "title", "style", "rect", "path", "text"}


# ---- the pieces, from the replies and the events text of a run

EVENT = re.compile(r" *(.*?)-\d+ +\[(\d+)\] d..2. +(\d+)\.(\d+): (\w+): (.*)")
FIELDS = re.compile(r"(\w+)=(\S*)")


class Task:
    def __init__(self, name):
        self.name, self.deadlines, self.moments = name, [], []

    def due(self, time, in_the_end):
        """The relative deadline that the task has at a time, where a tick ends or where the next one begins."""
        return [deadline for since, deadline in self.deadlines if since < time or (since == time and not in_the_end)][-1]


def read_replies(replies):
    """The domains: the first CPU of each, its time at the end, and its tasks by number."""
    domains, cpus = [], 0
    for line in replies.splitlines():
        call, _, reply = line.partition(" = ")
        word, *fields = call.split(" ")
        if word == "domain":
            domains.append([cpus, 0, {}])
            cpus += int(fields[0])
            continue
        _, time, tasks = domain = domains[-1]
        if reply == "Admitted":
            tasks[int(fields[1])] = Task(fields[2])
            tasks[int(fields[1])].deadlines.append((-1, int(fields[4])))
        elif reply == "Changed":
            tasks[int(fields[1])].deadlines.append((time, int(fields[3])))
        elif reply in ("Left", "Departed"):
            tasks[int(fields[1])].moments.append((time, 3, "cut", None))
        elif word == "advance":
            domain[1] += int(reply.split(" ")[1])
    return domains, cpus


def read_events(events, domains):
    """Adds to each task what happens to it, and gives the switches of each CPU."""
    switches = {}
    for line in events.splitlines()[1:]:
        front, cpu, whole, part, event, rest = EVENT.fullmatch(line).groups()
        cpu, time, fields = int(cpu), int(whole + part), dict(FIELDS.findall(rest))
        tasks = [domain for domain in domains if domain[0] <= cpu][-1][2]
        if event == "sched_switch":
            prev, following = int(fields["prev_pid"]) - 1000, int(fields["next_pid"]) - 1000
            switches.setdefault(cpu, []).append((time, following))
            if prev > 0:
                tasks[prev].moments.append((time, 7, "dead" if fields["prev_state"] == "X" else "leaves", cpu))
            if following > 0:
                tasks[following].moments.append((time, 7, "comes", cpu))
            continue
        in_the_end = front != "<idle>"
        rank = {"dl_job_end": 0, "sched_wakeup": 1 if in_the_end else 5, "dl_throttle": 2 if in_the_end else 6, "dl_replenish": 4}[event]
        tasks[int(fields["pid"]) - 1000].moments.append((time, rank, event, in_the_end))
    return switches


def lines_and_marks(task, end):
    """How the task stands from one of its moments to the next, and its marks."""
    works = throttled = cut = False
    cpu, since, lines, marks = None, 0, ([], []), []
    for time, _, what, more in [*sorted(task.moments, key=lambda moment: moment[:2]), (end, 9, "end", None)]:
        if cpu is None and (works or throttled) and since < time:
            lines[0 if throttled else 1].append((since, time))
        since = time
        if what == "sched_wakeup":
            works = True
            marks += [(RELEASED, time), (DUE, time + task.due(time, more))]
        elif what == "dl_throttle":
            throttled = True
        elif what == "dl_replenish":
            throttled = False
        elif what == "dl_job_end":
            works = False
        elif what == "cut":
            works, throttled, cut = False, False, True
            marks.append((ENDED, time))
        elif what == "comes":
            cpu = more
        elif what in ("leaves", "dead"):
            cpu = None if cpu == more else cpu
            if what == "dead" and not cut:
                marks.append((ENDED, time))
    return *lines, marks


def drawn(replies, events, start=0, stop=None):
    """The chart of a run that has these replies and this events text."""
    domains, cpus = read_replies(replies)
    switches = read_events(events, domains)
    start = min(start, MOST - 1)
    stop = max(start + 1, min(max(time for _, time, _ in domains) if stop is None else stop, MOST))

    def touches(begin, end):
        return begin < end and begin < stop and start < end

    rows = []
    for place, (base, time, tasks) in enumerate(domains):
        last = domains[place + 1][0] if place + 1 < len(domains) else cpus
        for number, task in sorted(tasks.items()):
            bars = []
            for cpu in range(base, last):
                of_cpu = [*switches.get(cpu, []), (time, 0)]
                bars += [(cpu, begin, end) for (begin, who), (end, _) in zip(of_cpu, of_cpu[1:]) if who == number and touches(begin, end)]
            throttled, waits, marks = lines_and_marks(task, time)
            rows.append(Drawn(
                task.name,
                sorted(bars, key=lambda bar: (bar[1], bar[0])),
                [line for line in throttled if touches(*line)],
                [line for line in waits if touches(*line)],
                [mark for mark in marks if start <= mark[1] <= stop],
            ))
    return chart(start, stop, cpus, rows)


# ---- rows, worked out by hand

def replayed(name, lines, words, *picture, header="dlcalls 1"):
    return Row(f"a chart: {name}", f"replay --print chart{words}", calls(header, *lines), 0, chart(*picture), "")


PART = f"""\
<svg xmlns="http://www.w3.org/2000/svg" viewBox="0 0 1200 111" width="100%" role="img" font-family="DejaVu Sans, Verdana, \
sans-serif" font-size="12">
<title>Which task ran where: 1 tasks on 1 CPUs, 0.000002 to 0.000006 s</title>
{STYLE}<rect width="1200" height="111" fill="#fff"/>
<rect x="0" y="15" width="1170" height="34" fill="#f4f4f4"/>
<text x="142" y="36" text-anchor="end">a</text>
<svg x="150" y="15" width="1020" height="34" viewBox="2 0 4 34" preserveAspectRatio="none">
<path class="g" d="M2 0V34"/>
<path class="g" d="M3 0V34"/>
<path class="g" d="M4 0V34"/>
<path class="g" d="M5 0V34"/>
<path class="g" d="M6 0V34"/>
<path class="t" d="M2 17H5"><title>a is throttled: 0.000002 to 0.000005 s</title></path>
<rect class="b" x="5" y="10" width="2" height="14" fill="#0072B2"><title>a on CPU 0: 0.000005 to 0.000007 s, 2 us</title></rect>
</svg>
<path class="d" d="M915 39v8m-3 -4l3 4l3 -4"><title>a is due at 0.000005 s</title></path>
<text x="150" y="11" text-anchor="middle" font-size="11" fill="#333">0.002</text>
<text x="150" y="65" text-anchor="middle" font-size="11" fill="#333">0.002</text>
<text x="405" y="11" text-anchor="middle" font-size="11" fill="#333">0.003</text>
<text x="405" y="65" text-anchor="middle" font-size="11" fill="#333">0.003</text>
<text x="660" y="11" text-anchor="middle" font-size="11" fill="#333">0.004</text>
<text x="660" y="65" text-anchor="middle" font-size="11" fill="#333">0.004</text>
<text x="915" y="11" text-anchor="middle" font-size="11" fill="#333">0.005</text>
<text x="915" y="65" text-anchor="middle" font-size="11" fill="#333">0.005</text>
<text x="1170" y="11" text-anchor="middle" font-size="11" fill="#333">0.006</text>
<text x="1170" y="65" text-anchor="middle" font-size="11" fill="#333">0.006</text>
<text x="142" y="11" text-anchor="end" font-size="11" fill="#333">time in ms</text>
<text x="142" y="92" text-anchor="end" font-size="11">CPU</text>
<rect x="150" y="81" width="22" height="14" fill="#0072B2"/><text x="161" y="92" text-anchor="middle" font-size="11" fill="#fff">0</text>
<path class="w" d="M198 88h30"/><text x="234" y="92" font-size="11">wants a CPU</text>
<path class="t" d="M374 88h30"/><text x="410" y="92" font-size="11">throttled</text>
<path class="r" d="M528 93v-8m-3 4l3 -4l3 4"/><text x="538" y="92" font-size="11">released</text>
<path class="d" d="M644 85v8m-3 -4l3 4l3 -4"/><text x="654" y="92" font-size="11">due</text>
<path class="x" d="M704 81v14"/><text x="712" y="92" font-size="11">ended</text>
</svg>
"""
INSIDE_A_JOB = THROTTLED.splitlines()[1:]
NOBODY = Drawn("a", [])
HOSTILE = '<&">'
ONE = scenario(("a", deadline(500, 1000)))

ROWS = [
    Row("a chart: a part of a run, its whole text", "replay --print chart --from 2 --to 6", THROTTLED, 0, PART, ""),
    replayed(
        "throttled inside a job",
        INSIDE_A_JOB,
        "",
        0, 11, 1, [Drawn("a", [(0, 0, 2), (0, 5, 7)], [(2, 5)], marks=[(RELEASED, 0), (DUE, 5), (ENDED, 7)])],
    ),
    replayed("from a time on", INSIDE_A_JOB, " --from 5", 5, 11, 1, [Drawn("a", [(0, 5, 7)], marks=[(DUE, 5), (ENDED, 7)])]),
    replayed("up to a time", INSIDE_A_JOB, " --to 1", 0, 1, 1, [Drawn("a", [(0, 0, 2)], marks=[(RELEASED, 0)])]),
    replayed("to a time behind the end", INSIDE_A_JOB, " --from 7 --to 20", 7, 20, 1, [Drawn("a", [], marks=[(ENDED, 7)])]),
    replayed("behind the end", INSIDE_A_JOB, " --from 20", 20, 21, 1, [NOBODY]),
    replayed("behind the end, to a time", INSIDE_A_JOB, " --from 20 --to 50", 20, 50, 1, [NOBODY]),
    replayed("of the last microsecond", INSIDE_A_JOB, " --from 4398046511103", MOST - 1, MOST, 1, [NOBODY]),
    replayed("up to the last microsecond", INSIDE_A_JOB, " --from 4398046511103 --to 4398046511104", MOST - 1, MOST, 1, [NOBODY]),
    replayed(
        "a task wants a CPU that another one has",
        [DOMAIN, "admit 1 1 a 8 20 20 - 0 1:1{r6}", "admit 1 2 b 2 5 10 - 2 1:1{r2}", "advance 1 10"],
        "",
        0, 10, 1, [
            Drawn("a", [(0, 0, 2), (0, 4, 8)], waits=[(2, 4)], marks=[(RELEASED, 0), (ENDED, 8)]),
            Drawn("b", [(0, 2, 4)], marks=[(RELEASED, 2), (DUE, 7), (ENDED, 4)]),
        ],
    ),
    replayed(
        "two domains, whose CPUs are counted through",
        [
            DOMAIN,
            "admit 1 1 a 2 8 8 - 0 1:1{r2}",
            "advance 1 3",
            "domain 2 524288",
            "admit 1 1 a 2 8 8 - 2 1:1{r2}",
            "admit 1 2 b 2 8 8 - 2 1:1{r1}",
            "advance 1 4",
        ],
        "",
        0, 4, 3, [
            Drawn("a", [(0, 0, 2)], marks=[(RELEASED, 0), (ENDED, 2)]),
            Drawn("a", [(2, 2, 4)], marks=[(RELEASED, 2)]),
            Drawn("b", [(1, 2, 3)], marks=[(RELEASED, 2), (ENDED, 3)]),
        ],
    ),
    replayed(
        "a task that wakes on another CPU",
        ["domain 2 1048576", "admit 1 1 a 4 8 8 - 0 -1:1{r2,s2}", "admit 1 3 b 6 8 8 - 2 1:1{r5}", "advance 1 7"],
        "",
        0, 7, 2, [Drawn("a", [(1, 0, 2), (0, 4, 6)], marks=[(RELEASED, 0), (RELEASED, 4)]), Drawn("b", [(1, 2, 7)], marks=[(RELEASED, 2)])],
    ),
    replayed(
        "a leave cuts a job and its throttle",
        [DOMAIN, "admit 1 1 a 2 5 5 - 0 1:1{r100}", "advance 1 3", "leave 1 1", "advance 1 17"],
        "",
        0, 20, 1, [Drawn("a", [(0, 0, 2)], [(2, 3)], marks=[(RELEASED, 0), (DUE, 5), (ENDED, 3)])],
    ),
    replayed(
        "a name of signs that XML reads",
        [DOMAIN, f"admit 1 1 {HOSTILE} 2 8 8 - 0 1:1{{r2}}", "advance 1 5"],
        "",
        0, 5, 1, [Drawn(HOSTILE, [(0, 0, 2)], marks=[(RELEASED, 0), (ENDED, 2)])],
    ),
    replayed("no calls", ["domain 64 10485", DOMAIN], "", 0, 1, 65, []),
    Row("a chart: a run in which no time passes", "run --print chart --domains 2", ONE, 0, chart(0, 1, 2, [NOBODY]), ""),
    Row("a chart: a part of such a run", "run --print chart --from 3 --to 4", ONE, 0, chart(3, 4, 1, [NOBODY]), ""),
]

EMPTY, UNCUT = "dlsim: empty window\n", "dlsim: no chart to cut\n"
WRONG = {
    "run --print chart --to 0": EMPTY,
    "run --print chart --from 5 --to 5": EMPTY,
    "run --print chart --from 6 --to 5": EMPTY,
    "run --print chart --from 4398046511104": EMPTY,
    "run --print chart --to 0 --domains 0": EMPTY,
    "replay --print chart --to 0": EMPTY,
    "replay --print chart --from 4398046511104 --to 4398046511104": EMPTY,
    "run --from 0": UNCUT,
    "run --to 4398046511104": UNCUT,
    "run --print jobs --from 6 --to 5": UNCUT,
    "run --print promises --to 6": UNCUT,
    "run --print calls --from 1 --rt-runtime 2000000": UNCUT,
    "replay --from 1": UNCUT,
    "replay --print events --to 9": UNCUT,
    "run --print chart --from 1 --domains 0": "dlsim: bad list\n",
}
ROWS += [Row(f"words {words!r}", words, ONE, 2, "", told) for words, told in WRONG.items()]

# Words that clap refuses.
REFUSED = [
    "run --print chart --from 4398046511105",
    "run --print chart --to 4398046511105",
    "run --print chart --from -1",
    "run --print chart --from",
    "run --print chart --to ''",
    "run --print chart --from 1 --from 2",
    "replay --print chart --to 0x10",
    "replay --print charts",
]
