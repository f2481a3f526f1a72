#!/usr/bin/env python3
"""Writes what the trial has to print. It follows the trial by lengths alone: no octet is coded, sent or received."""

STRETCHES = 40
FRAME_MEMORY = 3000
JOBS = 5


class Numbers:
    """The trial's numbers: PCG32 (XSH RR), and ranges by Canon's method."""

    MULTIPLIER = 6364136223846793005

    def __init__(self, stream):
        self.increment = 2 * stream + 1
        self.state = 1 + self.increment
        self.step()

    def step(self):
        self.state = (self.state * self.MULTIPLIER + self.increment) % 2**64

    def word(self):
        turn = self.state >> 59
        word = ((self.state >> 18 ^ self.state) >> 27) % 2**32
        self.step()
        return (word >> turn | word << (32 - turn)) % 2**32

    def between(self, least, most):
        width = most - least + 1
        whole, fraction = divmod(self.word() * width, 2**32)
        if fraction > 2**32 - width:
            whole += (fraction + (self.word() * width >> 32)) >> 32
        return least + whole

    def bit(self):
        return self.word() >= 2**31


class Session:
    def __init__(self, plop, limit, stream):
        self.plop = plop
        self.limit = limit
        self.numbers = Numbers(stream)
        self.jobs = []
        self.finished = []  # the codeblocks of each candidate in the hold
        self.overfull = self.octets = self.sent = self.back = self.early = 0

    def some_frame(self):
        length = self.numbers.between(1, min(7 * self.limit, 1024))
        self.numbers.between(0, FRAME_MEMORY - length)
        return length

    def release_early(self):
        self.finished.pop(0)
        self.back += 1
        self.early += 1

    def carry(self, octets, codeblocks=None):
        """So many octets, of which the first are the CLTU of a frame of so many codeblocks, if any."""
        cut = self.numbers.between(0, octets)
        self.numbers.bit()
        coming = [] if codeblocks is None else [codeblocks]
        if coming and cut >= 2 + 8 * codeblocks + 8:
            self.finished.append(coming.pop())
        if self.finished and self.numbers.bit():
            self.release_early()
        self.numbers.bit()
        self.finished += coming
        self.octets += octets

    def idle(self):
        self.carry(self.numbers.between(1, 60))

    def send(self):
        length, idle = (self.some_frame(), 0) if self.numbers.bit() else self.jobs.pop(0)
        codeblocks = -(-length // 7)
        while self.finished and self.limit - sum(self.finished) < codeblocks:
            self.release_early()
        self.sent += 1
        self.carry(2 + 8 * codeblocks + 8 + (self.plop - 1) + idle, codeblocks)
        return codeblocks

    def stretch(self):
        while len(self.jobs) < JOBS:
            self.jobs.append((self.some_frame(), 1000 * self.numbers.between(0, 2)))
        self.carry(self.numbers.between(16, 255))
        codeblocks = 0
        for _ in range(1 if self.plop == 1 else 4):
            if self.numbers.bit():
                self.idle()
            codeblocks += self.send()
        if self.plop == 1:
            self.idle()
        self.overfull += codeblocks > self.limit
        self.back += len(self.finished)
        self.finished = []


def refused(plop):
    """In a stretch: acquisitions, idle, no job, frames by themselves and as jobs, jobs, and idle behind the frame."""
    return 10 + 8 + 2 + 2 * (14 + 4) + 8 + (8 if plop == 1 else 0)


stream = 0
for plop in 1, 2:
    for randomizer in "off", "on":
        for idle in "55", "AA":
            for mode, limit in ("correcting", 147), ("detecting", 37):
                stream += 1
                session = Session(plop, limit, stream)
                for _ in range(STRETCHES):
                    session.stretch()
                print(
                    f"PLOP-{plop}, randomizer {randomizer}, idle {idle}, {mode}, L {limit}: "
                    f"{STRETCHES} stretches, {session.overfull} of them more than the hold takes, "
                    f"{session.octets} octets, {session.sent} frames sent, {session.back} back, "
                    f"{session.early} of them before the break, {STRETCHES * refused(plop)} calls refused"
                )
print("differences: 0")
