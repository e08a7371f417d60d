#!/usr/bin/env python3
"""A client of a run over two pipes, and a few lines asked of it: client.py PROGRAM PATH."""
import subprocess
import sys


class Run:
    """A run of the program on a repository. One line goes out, whole and by one write, and its reply comes back."""

    def __init__(self, program, path):
        # A session of its own, so that an interrupt at the terminal does not end the run. Its pipes are blocking, and no other child gets them.
        self.process = subprocess.Popen([program, path, "run"], stdin=subprocess.PIPE, stdout=subprocess.PIPE, bufsize=0, start_new_session=True)
        self.replies = open(self.process.stdout.fileno(), "rb", closefd=False)

    def ask(self, line):
        """The reply to a line, without its newline. Where the run has ended it has none: what the line did is open until the next run."""
        try:
            self.process.stdin.write(line.encode("ascii") + b"\n")
        except BrokenPipeError:
            pass
        reply = self.replies.readline().decode("ascii")
        if not reply.endswith("\n"):
            raise EOFError(f"the run ended with status {self.process.wait()}")
        return reply[:-1]

    def collect(self):
        """Steps of the collector until one finds nothing that it can do."""
        while (reply := self.ask("gc")).split()[2] not in ("idle", "blocked"):
            yield reply
        yield reply

    def close(self):
        """Ends the script, and waits for the last sync: only after status 0 does all that was written last."""
        self.process.stdin.close()
        return self.process.wait()


if __name__ == "__main__":
    run = Run(*sys.argv[1:3])
    for line in sys.stdin.read().splitlines():
        for reply in run.collect() if line == "collect" else [run.ask(line)]:
            print(line, "->", reply)
    print("status", run.close())
