"""A store for Python: a process of the program kv, which is sent lines and answers them as docs/KV.md says."""
import subprocess


class Refused(Exception):
    """A line that kv refused: its name, and a sentence."""


class Store:
    def __init__(self, file, *options, kv="kv"):
        self.process = subprocess.Popen([kv, *options, file], stdin=subprocess.PIPE, stdout=subprocess.PIPE, text=True)
        self.read()

    def read(self):
        line = self.process.stdout.readline()
        if not line.endswith("\n"):
            raise EOFError("kv has ended: what it answered is kept")
        return line[:-1]

    def answer(self, line):
        """The answer to a line that was sent: a text, or the lines of a list, or why it was refused."""
        found = [self.read()]
        if found[0].startswith("refused "):
            return Refused(*found[0].split(" ", 2)[1:])
        if line.split()[0] not in ("scan", "tables", "stat", "dump", "help"):
            return found[0]
        while not found[-1].startswith("end "):
            found.append(self.read())
        return found[:-1]

    def ask_all(self, *lines):
        """The answers to lines that are sent together: some hundred at most, or both wait."""
        self.process.stdin.write("".join(line + "\n" for line in lines))
        self.process.stdin.flush()
        return [self.answer(line) for line in lines]

    def ask(self, line):
        [answer] = self.ask_all(line)
        if isinstance(answer, Refused):
            raise answer
        return answer

    def close(self):
        """The exit status, once the file is closed."""
        self.process.stdin.close()
        self.read()
        return self.process.wait()
