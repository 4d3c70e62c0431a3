"""Draws scenarios and calls texts, with what each task of a scenario may be told."""
import dataclasses
import json

UNIT = 1 << 20
# What --print takes; each of a replay is a text of a run too.
REPLAY_TEXTS = ["trace", "replies", "events", "jobs", "summary", "chart"]
RUN_TEXTS = ["calls", *REPLAY_TEXTS]


@dataclasses.dataclass
class Task:
    """A task of a scenario: times in microseconds, `cpus` a set of CPUs of the machine or None."""
    number: int
    name: str
    runtime: int
    deadline: int
    period: int
    cpus: object
    delay: int
    script: str

    def bw(self):
        return self.runtime * UNIT // self.period

    def wrong_attributes(self):
        """The kind of EINVAL, or None."""
        if self.runtime < 2:
            return "Small"
        if not self.runtime <= self.deadline <= self.period:
            return "Order"
        return "Long" if self.period > 1 << 32 else None

    def admission(self, client, reclaim):
        flag = "R" if reclaim else "-"
        times = f"{self.runtime} {self.deadline} {self.period} {flag} {self.delay}"
        return f"admit {client} {self.number} {self.name} {times} {self.script}"


@dataclasses.dataclass
class Scenario:
    """A scenario with the words of its run."""
    text: bytes
    tasks: list
    duration: int
    domains: list
    clients: int = 1
    workers: int = 1
    reclaim: bool = False
    limit: tuple = (950000, 1000000)
    printed: str = "trace"

    def words(self):
        words = ["run", "--domains", ",".join(map(str, self.domains))]
        words += ["--rt-runtime", str(self.limit[0]), "--rt-period", str(self.limit[1])]
        words += ["--clients", str(self.clients), "--workers", str(self.workers)]
        return words + ["--reclaim"] * self.reclaim + ["--print", self.printed] * (self.printed != "trace")

    def of_a_cpu(self):
        return self.limit[0] * UNIT // self.limit[1]

    def cap(self, domain):
        return self.domains[domain] * self.of_a_cpu()

    def client_of(self, number):
        return 1 + (number - 1) % self.clients

    def domain_of(self, task):
        """The domain that a task asks for, or None where its CPUs are no domain's."""
        if task.cpus is None:
            return 0
        first = 0
        for domain, cpus in enumerate(self.domains):
            if task.cpus == set(range(first, first + cpus)):
                return domain
            first += cpus
        return None

    def calls_of(self, numbers):
        """The calls text of a run in which exactly these tasks were admitted, in order of number."""
        lines = ["dlcalls 1"]
        for domain, cpus in enumerate(self.domains):
            lines.append(f"domain {cpus} {self.of_a_cpu()}")
            for task in self.tasks:
                if task.number in numbers and self.domain_of(task) == domain:
                    lines.append(task.admission(self.client_of(task.number), self.reclaim))
            if self.duration:
                lines.append(f"advance 1 {self.duration * 1000000}")
        return ("\n".join(lines) + "\n").encode()


def draw_events(rng, period, most):
    """One to four events as (letter, microseconds)."""
    events = []
    for _ in range(rng.randint(1, 4)):
        letter = rng.choice("rrst")
        events.append((letter, rng.randint(1, {"r": most, "s": period, "t": 2 * period}[letter])))
    return events


def draw_phases(rng, period, runtime):
    count = rng.choice([1, 1, 2, 3])
    return [(rng.choice([1, 1, 2, 5]), draw_events(rng, period, 2 * runtime)) for _ in range(count)]


def script_text(loop, phases):
    parts = ["%d{%s}" % (count, ",".join(f"{letter}{us}" for letter, us in events)) for count, events in phases]
    return f"{loop}:{''.join(parts)}"


def members_of(events):
    keys = {"r": "run", "s": "sleep", "t": "timer"}
    values = ({"ref": "unique", "period": us} if letter == "t" else us for letter, us in events)
    return {f"{keys[letter]}{place}": value for place, ((letter, _), value) in enumerate(zip(events, values))}


def draw_times(rng, longest):
    """Runtime, deadline and period; now and then such that they are refused."""
    period = rng.randint(10, longest)
    runtime = max(2, period // rng.choice([2, 3, 4, 8, 20, 50]))
    deadline = rng.choice([period, rng.randint(runtime, period)])
    wrong = rng.randint(1, 60)
    if wrong == 1:
        return 1, deadline, period
    if wrong == 2:
        return runtime, runtime - 1, period
    if wrong == 3:
        return runtime, deadline, (1 << 32) + period
    return runtime, deadline, period


def draw_thread(rng, domains, longest):
    """A thread as (members, instances, times, cpus, delay, script)."""
    times = draw_times(rng, longest)
    phases = draw_phases(rng, min(times[2], longest), times[0])
    loop, delay = rng.choice([-1, -1, -1, 1, 3, 20]), rng.choice([0, 0, rng.randint(0, 3 * longest)])
    members = {"policy": "SCHED_DEADLINE", "dl-runtime": times[0], "dl-deadline": times[1], "dl-period": times[2]}
    members |= {"loop": loop, "delay": delay}
    instances = rng.choice([1, 1, 2, 5, 16])
    members["instance"] = instances
    cpus = None
    if rng.randint(0, 2):
        domain = rng.randrange(len(domains))
        first = sum(domains[:domain])
        cpus = set(range(first, first + domains[domain] - (rng.randint(1, 30) == 1))) or None
    if cpus:
        members["cpus"] = rng.sample(sorted(cpus), len(cpus))
    if len(phases) == 1 and phases[0][0] == 1 and rng.randint(0, 1):
        members |= members_of(phases[0][1])
    else:
        members["phases"] = {f"p{i}": {"loop": count} | members_of(events) for i, (count, events) in enumerate(phases)}
    return members, instances, times, cpus, delay, script_text(loop, phases)


def scenario_of(threads, **words):
    """The scenario of (name, members, instances, times, cpus, delay, script)."""
    tasks, members = [], {}
    for name, value, instances, times, cpus, delay, script in threads:
        members[name] = value
        for instance in range(instances):
            full = name if instances == 1 else f"{name}-{instance}"
            tasks.append(Task(len(tasks) + 1, full[:15], *times, cpus, delay, script))
    text = json.dumps({"tasks": members, "global": {"duration": words["duration"]}}).encode()
    return Scenario(text, tasks, **words)


def draw_scenario(rng):
    """A scenario and the words of its run. Workers are started anew in each step, so more than one has few tasks."""
    domains = [rng.choice([1, 1, 2, 4, 8, 64]) for _ in range(rng.choice([1, 1, 2, 3, 8]))]
    longest = rng.choice([20000, 100000, 1000000])
    threads, count = [], 0
    for place in range(rng.choice([1, 2, 3, 8, 30])):
        thread = draw_thread(rng, domains, longest)
        if count + thread[1] <= 256:
            threads.append((f"t{place}", *thread))
            count += thread[1]
    period = rng.choice([1000000, rng.randint(100, 1000000)])
    return scenario_of(
        threads, duration=rng.choice([0, 1, 1]), domains=domains, clients=rng.choice([1, 2, 8, rng.randint(1, 64)]),
        workers=rng.choice([1, 2, rng.randint(1, 8)]) if count <= 4 and longest > 20000 else 1, reclaim=bool(rng.randint(0, 1)),
        limit=(rng.randint(-(-period // 100), period), period), printed=rng.choice(["trace"] * 5 + RUN_TEXTS))


def draw_call(rng, number, longest):
    """A line of a section, most often about one of the first tasks."""
    client = rng.randint(1, 64)
    some = rng.randint(1, max(1, number))
    runtime, deadline, period = 2, 1, 1
    while not 2 <= runtime <= deadline <= period <= 1 << 32:
        runtime, deadline, period = draw_times(rng, longest)
    times = f"{runtime} {deadline} {period} {rng.choice('-R')}"
    kind = rng.choice(["admit"] * 5 + ["advance"] * 6 + ["regrade", "regrade", "wake", "leave"])
    if kind == "admit":
        phases = draw_phases(rng, period, runtime)
        if rng.randint(0, 3) == 0:
            phases[0][1].append(("w", ""))
        script = script_text(rng.choice([-1, -1, 1, 4]), phases)
        again = rng.randint(1, 30) == 1
        return f"admit {client} {some if again else number + 1} n{number} {times} {rng.choice([0, rng.randint(0, longest)])} {script}"
    if kind == "regrade":
        word = f" busy {rng.randint(0, 1 << 26)}" if rng.randint(0, 5) == 0 else ""
        return f"regrade {client} {some} {times}{word}"
    if kind == "advance":
        return f"advance {client} {rng.randint(1, longest)}"
    return f"{kind} {client} {some}"


def draw_calls(rng):
    """A calls text of 1 to 8 sections."""
    lines = ["dlcalls 1"]
    for _ in range(rng.choice([1, 1, 1, 2, 8])):
        lines.append(f"domain {rng.choice([1, 1, 2, 3, 8, 64])} {rng.choice([UNIT, rng.randint(10485, UNIT)])}")
        longest = rng.choice([20, 200, 2000, 20000])
        number = 0
        for _ in range(rng.choice([0, 5, 30, 100, 400])):
            line = draw_call(rng, number, longest)
            number += line.startswith("admit") and line.split()[2] == str(number + 1)
            lines.append(line)
    return ("\n".join(lines) + "\n").encode()


def spoil(rng, text):
    """The text with a byte changed, left out or put in, a part cut off, or a part twice."""
    at = rng.randrange(len(text))
    end = rng.randint(at, min(len(text), at + 40))
    byte = bytes([rng.choice([rng.randrange(256), *b'{}[]":,\\ \n\r\0-019eru'])])
    return rng.choice([
        text[:at] + byte + text[at + 1:], text[:at] + text[at + 1:], text[:at] + byte + text[at:], text[:at],
        text[:end] + text[at:], text[:at] + text[end:]])
