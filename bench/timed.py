"""How long a program takes, how much time of the processors, and how much memory."""
import os
import resource
import subprocess
import sys
import time


def run(words, given):
    began = time.perf_counter()
    ran = subprocess.run(words, input=given, capture_output=True, text=True)
    seconds = time.perf_counter() - began
    if ran.returncode:
        sys.exit(f"{words}: status {ran.returncode}\n{ran.stdout}{ran.stderr}")
    return seconds, ran.stdout.strip()


def run_on_files(words, given):
    """As `run`, but the input and the output are files, so that no reader of the output is waited for. Told are the seconds from the
    start to the end, those that processors were busy, and the output.
    """
    with open("asked", "w") as it:
        it.write(given)
    with open("asked") as asked, open("told", "w") as told, open("faults", "w") as faults:
        began = time.perf_counter()
        ran = subprocess.Popen(words, stdin=asked, stdout=told, stderr=faults)
        _, status, used = os.wait4(ran.pid, 0)
        seconds = time.perf_counter() - began
    ran.returncode = os.waitstatus_to_exitcode(status)
    with open("told") as told, open("faults") as faults:
        text = told.read()
        if ran.returncode:
            sys.exit(f"{words}: status {ran.returncode}\n{text[:1000]}{faults.read()}")
    return seconds, used.ru_utime + used.ru_stime, text


class Talk:
    """A program that is given its lines one at a time. Its output is a file, so that no reader of the output is waited for."""

    def __init__(self, words):
        self.told, self.faults = open("told", "w+b"), open("faults", "w+b")
        self.ran = subprocess.Popen(words, stdin=subprocess.PIPE, stdout=self.told, stderr=self.faults)
        self.begun = 0

    def of_tasks(self, file):
        """A file that the system has of each thread."""
        tasks = f"/proc/{self.ran.pid}/task"
        for task in os.listdir(tasks):
            with open(f"{tasks}/{task}/{file}") as it:
                yield it.read()

    def busy(self):
        """The seconds that the threads that there are were busy, to the nanosecond."""
        return sum(int(it.split()[0]) for it in self.of_tasks("schedstat")) / 1e9

    def waits(self):
        return all(it.rsplit(")", 1)[1].split()[0] == "S" for it in self.of_tasks("stat"))

    def ask(self, line, end=".\n"):
        """Gives a line, waits until the reply ends so and the program waits for more, and returns the seconds that it was busy, and the reply."""
        before = self.busy()
        self.ran.stdin.write(line.encode())
        self.ran.stdin.flush()
        while True:
            if self.ran.poll() is not None:
                self.faults.seek(0)
                sys.exit(f"{line}: status {self.ran.returncode}\n{self.faults.read().decode()}")
            size = os.fstat(self.told.fileno()).st_size
            if size > self.begun and os.pread(self.told.fileno(), len(end), size - len(end)) == end.encode() and self.waits():
                break
            time.sleep(0.0005)
        told = os.pread(self.told.fileno(), size - self.begun, self.begun).decode()
        self.begun = size
        return self.busy() - before, told

    def end(self):
        self.ran.stdin.close()
        self.ran.wait()


def busy(words, given):
    """The seconds that processors were busy in a run, over all of its threads: the best of three."""
    taken = []
    for _ in range(3):
        before = resource.getrusage(resource.RUSAGE_CHILDREN)
        run(words, given)
        after = resource.getrusage(resource.RUSAGE_CHILDREN)
        taken.append(after.ru_utime + after.ru_stime - before.ru_utime - before.ru_stime)
    return min(taken)


def memory(words, given):
    run(["time", "-o", "memory", "-f", "%M", *words], given)
    with open("memory") as it:
        return int(it.read()) / 1024
