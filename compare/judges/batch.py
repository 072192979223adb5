"""A running process that answers sheets with entry calls, one block after the other."""
import subprocess


class Ended(Exception):
    """The process ended."""


class Batch:
    def __init__(self, path):
        self.path = path
        self.start()

    def start(self):
        self.process = subprocess.Popen([self.path, "--batch"], stdin=subprocess.PIPE, stdout=subprocess.PIPE)

    def send(self, sheet, calls, word=b"sheet", questions=None):
        """A sheet and calls, each (axis, line, name as bytes); of what answers them, questions too."""
        rows = b"".join(b"%s\t%d\t%s\n" % (letter.encode(), line, name) for letter, line, name in calls)
        asked = b"" if questions is None else b"ask %d\n" % len(questions) + b"".join(row.encode() + b"\n" for row in questions)
        self.process.stdin.write(b"%s %d\n%senter %d\n%s%s" % (word, len(sheet), sheet, len(calls), rows, asked))

    def read_answer(self):
        """The answer as lines."""
        self.process.stdin.flush()
        header = self.process.stdout.readline().split()
        if not header:
            raise Ended
        return self.process.stdout.read(int(header[1])).decode("latin-1").split("\n")[:-1]

    def close(self):
        self.process.stdin.close()
        self.process.wait()
