"""A program that does the rounds that it is asked for: its time, its processor time and its context switches."""
import os
import select
import subprocess
import time

PATIENCE = 120  # seconds that a round may take


class Lost(Exception):
    """A program ended, or gave no answer in time."""


class Program:
    """A running program. A line asks for a round, and the next line of its output says that the round is over."""

    def __init__(self, words):
        self.words = words
        self.process = subprocess.Popen(words, stdin=subprocess.PIPE, stdout=subprocess.PIPE, bufsize=0)

    def ask(self, line):
        """Asks for a round. Gives the answer, and the seconds by the clock and of processor time that it took."""
        output = self.process.stdout.fileno()
        processor = self.processor_seconds()
        began = time.perf_counter()
        try:
            os.write(self.process.stdin.fileno(), line.encode() + b"\n")
        except BrokenPipeError as error:
            raise Lost(f"{self.words[0]} has ended") from error
        answer = b""
        while not answer.endswith(b"\n"):
            if not select.select([output], [], [], PATIENCE)[0]:
                raise Lost(f"{self.words[0]} gives no answer to: {line}")
            read = os.read(output, 4096)
            if not read:
                raise Lost(f"{self.words[0]} ended at: {line}")
            answer += read
        return answer.decode().strip(), time.perf_counter() - began, self.processor_seconds() - processor

    def processor_seconds(self):
        """The processor time of all its threads so far, ended ones too: the process's clock, as of <linux/posix-timers.h>."""
        return time.clock_gettime((~self.process.pid << 3) | 2)

    def peak_bytes(self):
        """The most memory that it has had so far."""
        return self.status_bytes("VmHWM:")

    def resident_bytes(self):
        """The memory that it has now."""
        return self.status_bytes("VmRSS:")

    def status_bytes(self, name):
        """A number of bytes that the kernel tells of it by this name."""
        with open(f"/proc/{self.process.pid}/status", encoding="ascii") as status:
            return next(int(line.split()[1]) * 1024 for line in status if line.startswith(name))

    def end(self):
        """Ends it, and gives its context switches: all that its threads made."""
        self.process.stdin.close()
        try:
            _, _, usage = os.wait4(self.process.pid, 0)
        except ChildProcessError:
            return 0
        self.process.returncode = 0
        self.process.stdout.close()
        return usage.ru_nvcsw + usage.ru_nivcsw

    def kill(self):
        """Ends it at once."""
        self.process.kill()
        self.end()
