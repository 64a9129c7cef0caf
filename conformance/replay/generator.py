"""Random scripts with a seed. The generator reads the answer to each line before it chooses the next one, so that it
knows what sleeps, what is on a wire, and what must be read: most lines do something. The same seed, profile and
program make the same script."""

import random
import subprocess
from dataclasses import dataclass

from .commands import Commands
from .pages import HIGH, PAGE
from .script import Load, Store, parse


@dataclass(frozen=True)
class Profile:
    """Weights. commands: of loads and stores. calls: of map calls. moves: of mremap calls that move pages. pushes: of
    pushes without a request. installs: of installs, for each arrival. switch: how soon the guest is switched. breaks:
    of lost channels. urgent, runs, pieces: whether these lines are in the script. odd: the share of lines that do not
    belong where they are."""

    commands: float = 6
    calls: float = 1
    moves: float = 0.2
    pushes: float = 0.6
    installs: float = 1.5
    migrates: bool = True
    switch: float = 0.2
    breaks: float = 0.0
    urgent: bool = False
    runs: bool = False
    pieces: bool = False
    odd: float = 0.02


PROFILES = {
    "maps": Profile(commands=5, calls=6, migrates=False, odd=0.08),
    "precopy": Profile(commands=8, switch=0.02),
    "postcopy": Profile(switch=0.6),
    "moves": Profile(commands=3, calls=1, moves=2, pushes=0.5, installs=0.3, switch=0.8),
    "breaks": Profile(switch=0.3, breaks=0.25),
    "urgent": Profile(switch=0.6, urgent=True, breaks=0.03),
    "runs": Profile(switch=0.1, runs=True),
    "pieces": Profile(switch=0.3, pieces=True, breaks=0.05),
    "all": Profile(calls=3, breaks=0.06, urgent=True, runs=True, pieces=True, odd=0.04),
}
ANY_STEP = (
    "start round send sread sact switch deliver back udeliver dread dact install serve end break resume progress "
    "retry@ "
    "notice|source notice|dest sendrun|3 push|0x10000 upush|0x11000 push|0x12000|9 deliver|13 back|5"
).split()


@dataclass
class Waiting:
    """A processor that sleeps or is in a call, with its command."""

    command: object
    is_in_call: bool
    is_woken: bool = False


class Program:
    """A postmig that is fed line by line."""

    def __init__(self, words, cpus):
        self.process = subprocess.Popen(
            [*words, "run", "--cpus", str(cpus)], stdin=subprocess.PIPE, stdout=subprocess.PIPE, text=True
        )

    def answer(self, line):
        self.process.stdin.write(line + "\n")
        self.process.stdin.flush()
        return self.process.stdout.readline().rstrip("\n")

    def close(self):
        self.process.stdin.close()
        self.process.wait()
        self.process.stdout.close()


class Generator:
    """What is known of the run, from the answers: estimates, which are good enough to choose by."""

    def __init__(self, seed, profile, cpus):
        self.random = random.Random(f"{seed} {profile} {cpus}")
        self.profile, self.cpus = PROFILES[profile], cpus
        self.commands = Commands(self.random, self.profile.odd)
        self.waiting = {}
        self.phase = "idle"
        self.is_up, self.paused = True, set()
        self.frames = {"forward": 0, "back": 0, "urgent": 0}
        self.messages, self.held, self.arrivals, self.to_send = 0, 0, 0, 0
        self.stored, self.owed, self.under_way = set(), set(), set()
        self.requests, self.asked = 0, []
        self.is_finishing = False

    # ---- the next line ----

    def line(self):
        if len(self.commands.pages) < 5 and self.phase == "idle":
            return f"cpu 0 {self.commands.opening().text()}"
        self.commands.favoured = self.owed | self.under_way
        if self.random.random() < self.profile.odd:
            return self.random.choice(ANY_STEP).replace("@", f" {self.random.randrange(self.cpus)}").replace("|", " ")
        choices = [choice for choice in self.choices() if choice[0] > 0]
        return self.random.choices([line for _, line in choices], [weight for weight, _ in choices])[0]

    def choices(self):
        yield from self.processor_choices()
        if not self.profile.migrates and self.phase == "idle":
            return
        yield 0.05, "progress"
        if self.phase == "idle":
            yield 0.05 + 0.15 * len(self.stored), "start"
        elif self.phase == "complete":
            yield from self.handler_choices("d")
        else:
            yield from self.channel_choices()
            yield from self.phase_choices()

    def processor_choices(self):
        runs = self.phase != "switching"
        for cpu in range(self.cpus):
            waiting = self.waiting.get(cpu)
            if not waiting and runs and not self.is_finishing:
                yield self.profile.commands / self.cpus, f"cpu {cpu} {self.commands.access().text()}"
                yield self.profile.calls / self.cpus, f"cpu {cpu} {self.commands.map_call().text()}"
                yield self.profile.moves / self.cpus, f"cpu {cpu} {self.commands.move().text()}"
            elif waiting and not waiting.is_in_call and runs:
                yield 1.5 if waiting.is_woken else 0.04, f"retry {cpu}"

    def handler_choices(self, side):
        yield min(self.messages, 4) * 1.2 + 0.02, f"{side}read"
        yield min(self.held, 4) * 1.2 + 0.02, f"{side}act"

    def channel_choices(self):
        names = {"forward": "deliver", "back": "back", "urgent": "udeliver"}
        for wire, count in self.frames.items():
            if self.profile.pieces and count and self.random.random() < 0.5:
                yield 2, f"{names[wire]} {self.random.choice((0, 1, 5, 12, 13, 100, 4000, 4108, 5000))}"
            yield min(count, 3) * (0.4 if wire == "urgent" else 1.5) + 0.02, names[wire]
        if not self.is_finishing and self.is_up:
            yield self.profile.breaks, "break"
        if not self.is_up:
            for side in ("source", "dest"):
                yield 0.05 if side in self.paused else 2, f"notice {side}"
            yield 3 if len(self.paused) == 2 else 0.1, "resume"

    def phase_choices(self):
        if self.phase == "precopy":
            yield from self.handler_choices("s")
            yield from self.precopy_choices()
        elif self.phase == "running":
            yield from self.handler_choices("d")
            yield min(self.arrivals, 3) * (1.5 if self.is_finishing else self.profile.installs) + 0.02, "install"
            yield from self.postcopy_choices()
        else:
            yield from self.postcopy_choices()

    def precopy_choices(self):
        yield 0.3 if self.to_send else 1, "round"
        yield min(self.to_send, 4) + 0.02, "send"
        if self.profile.runs:
            yield min(self.to_send, 4), f"sendrun {self.random.randrange(1, 5)}"
        yield 3 if self.is_finishing else self.profile.switch, "switch"

    def postcopy_choices(self):
        yield min(self.requests, 3) * 2 + 0.03, "serve"
        words = ("push", "upush") if self.profile.urgent else ("push",)
        for page in self.asked[:1] or self.random.sample(sorted(self.owed), min(1, len(self.owed))):
            yield (
                1.5 if self.asked or self.is_finishing else self.profile.pushes,
                f"{self.random.choice(words)} 0x{page * PAGE:x}",
            )
        yield 0.02 if self.owed else 1.0 if self.is_finishing else 0.1, "end"

    def is_done(self):
        """Whether nothing is left that would be worth a line."""
        return self.is_finishing and self.phase == "complete" and not self.waiting

    # ---- what an answer says ----

    def learn(self, line, answer):
        step = parse(line.encode())
        if answer.startswith("refused"):
            self.learn_refusal(step, answer)
        elif step.word in ("cpu", "retry"):
            self.learn_command(step, answer)
        elif answer.startswith("read "):
            self.learn_message(answer.replace(",", "").split())
        elif answer.startswith("took "):
            self.learn_frame(step, answer)
        else:
            self.learn_step(answer)

    def learn_refusal(self, step, answer):
        if answer == "refused NothingThere":
            for word, name in (("read", "messages"), ("act", "held")):
                if step.word.endswith(word):
                    setattr(self, name, 0)
            if step.word == "install":
                self.arrivals = 0
            if step.word in ("send", "sendrun"):
                self.to_send = 0
        if step.word in ("push", "upush"):
            self.owed.discard(step.arguments[0])
            self.asked = [page for page in self.asked if page != step.arguments[0]]

    def learn_command(self, step, answer):
        cpu = step.arguments[0]
        command = step.arguments[1] if step.word == "cpu" else self.waiting[cpu].command
        reply = answer.split(" ", 2)[2]
        if reply == "asleep":
            self.waiting[cpu] = Waiting(command, False)
            self.messages += 1
        elif reply.startswith("in call"):
            self.waiting[cpu] = Waiting(command, True)
            self.messages += int(reply.split()[2])
            self.take_effect(command, "at 0x0" if getattr(command, "target", 1) is None else None)
        else:
            self.waiting.pop(cpu, None)
            self.take_effect(command, reply)

    def take_effect(self, command, reply):
        """reply: None where the call still waits and has a target of its own."""
        if isinstance(command, Store):
            if reply == "done":
                self.stored.add(command.addr // PAGE)
            return
        if command is None or isinstance(command, Load) or reply and reply.startswith(("refused", "segv", "bad")):
            return
        place = getattr(command, "target", None) or getattr(command, "addr", None)
        if reply and reply.startswith("at 0x") and reply != "at 0x0":
            place = int(reply[5:], 16)
        self.commands.apply(command, place)

    def learn_message(self, words):
        self.messages = max(0, self.messages - 1)
        start = int(words[2], 16)
        if words[1] == "fault":
            self.held += 1
            return
        self.wake(start, start + int(words[4]) if words[1] == "remap" else int(words[3], 16))
        if "cpu" in words:
            self.waiting.pop(int(words[words.index("cpu") + 1]), None)

    def wake(self, start, end):
        for waiting in self.waiting.values():
            if not waiting.is_in_call and start <= waiting.command.addr < end:
                waiting.is_woken = True

    def learn_frame(self, step, answer):
        wire = {"deliver": "forward", "back": "back", "udeliver": "urgent"}[step.word]
        self.frames[wire] = max(0, self.frames[wire] - 1)
        words = answer.split()
        if words[1] in ("page", "zero") and self.phase == "running":
            self.arrivals += 1
        elif words[1] == "package":
            self.phase, self.messages, self.held = "running", 0, 0
            self.wake(0, HIGH)
        elif words[1] == "end":
            self.frames["back"] += 1
        elif words[1] == "resume":
            self.frames["back"] += 1
            self.paused.discard("dest")
        elif words[1] == "request":
            self.requests += 1
        elif words[1] == "recv":
            self.learn_report(words)
        elif words[1] == "done":
            self.phase = "complete"

    def learn_report(self, words):
        self.paused.discard("source")
        self.requests, self.asked = 0, []
        self.owed = set(self.stored) if int(words[3]) or self.phase == "switching" else set()
        if self.phase == "switching":
            self.frames["forward"] += 2
        if words[2] == "ended":
            self.phase = "complete"

    def learn_step(self, answer):
        words = answer.split()
        if words[0] == "started":
            self.phase = "precopy"
            self.frames["forward"] += 1
        elif words[0] == "round":
            self.to_send = int(words[3])
        elif words[0] == "sent":
            self.learn_sent(words)
        elif words[0] == "switched":
            self.phase, self.owed = "switching", set(self.stored) | set(self.commands.pages)
            self.frames["forward"] += 2
        elif words[0] in ("unprotected", "zeroed", "woke", "forgot", "requested"):
            self.held = max(0, self.held - 1)
            if words[0] == "requested":
                self.frames["back"] += 1
            else:
                self.wake_page(words[1])
        elif words[0] in ("installed", "dropped"):
            self.arrivals = max(0, self.arrivals - 1)
            self.under_way.discard(int(words[-1], 16) // PAGE)
            self.wake_page(words[1])
        elif words[0] == "asked":
            self.requests = max(0, self.requests - 1)
            self.asked.append(int(words[1], 16) // PAGE)
        else:
            self.learn_of_channel(words)

    def wake_page(self, word):
        self.wake(int(word, 16), int(word, 16) + PAGE)

    def learn_sent(self, words):
        if self.phase == "precopy":
            self.to_send = max(0, self.to_send - (int(words[3]) if words[1] == "run" else 1))
        else:
            page = int(words[2], 16) // PAGE
            self.owed.discard(page)
            self.under_way.add(page)
            self.asked = [asked for asked in self.asked if asked != page]

    def learn_of_channel(self, words):
        if words[0] == "broken":
            self.is_up, self.frames = False, dict.fromkeys(self.frames, 0)
        elif words[0] == "paused":
            self.paused.add(words[1])
        elif words[0] == "resumed":
            self.is_up = True
            self.frames["forward"] += 1
        elif words[0] == "end":
            self.frames["forward"] += 1


def generate(program, seed, profile, cpus, steps):
    """The lines of a script and their answers. In its last third a script finishes what it has begun."""
    generator, lines, answers = Generator(seed, profile, cpus), [], []
    process = Program(program, cpus)
    try:
        for number in range(steps):
            generator.is_finishing = generator.profile.migrates and number > steps * 2 // 3 and seed % 3 > 0
            if generator.is_done():
                break
            line = generator.line()
            answer = process.answer(line)
            generator.learn(line, answer)
            if line.startswith(("push", "upush")) and answer.startswith("sent"):
                generator.frames["urgent" if line.startswith("u") else "forward"] += 1
            elif line.startswith("send") and answer.startswith("sent"):
                generator.frames["forward"] += 1
            lines.append(line)
            answers.append(answer)
    finally:
        process.close()
    return lines, answers
