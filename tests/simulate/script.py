"""Scripts for `wbl lives`: what they print by the engine in Python, and what of a script is needed to show a difference."""
from device import CHOICES, Geometry
from engine import lived


class Life:
    """A life of a script: after how many operations its device fails, which survivors its stop leaves, and its lines."""

    def __init__(self, fuse, choice, lines):
        self.fuse, self.choice, self.lines = fuse, choice, lines

    def text(self):
        return "\n".join([f"life {'-' if self.fuse is None else self.fuse} {self.choice}", *self.lines])


class Script:
    """A geometry, and lives over one device."""

    def __init__(self, slots, places, window, lives):
        self.geometry, self.lives = (slots, places, window), lives

    def text(self):
        return "\n".join([f"geometry {' '.join(map(str, self.geometry))}", *(life.text() for life in self.lives), ""])

    def with_lives(self, lives):
        return Script(*self.geometry, lives)

    def printed(self):
        """Returns what it prints, and how many operations its lives make."""
        words, lines, operations = Geometry(*self.geometry).formatted(), [], 0
        for number, life in enumerate(self.lives, 1):
            printed, words, made = lived(words, life.lines, life.fuse, CHOICES[life.choice])
            lines += [f"life {number}", *printed]
            operations += made
        return "\n".join([*lines, ""]), operations


def parsed(text):
    """Returns the script that a text spells."""
    lines = [line for line in text.splitlines() if line and not line.startswith("#")]
    lives = []
    for line in lines[1:]:
        words = line.split()
        if words[0] == "life":
            lives.append(Life(None if words[1] == "-" else int(words[1]), words[2], []))
        else:
            lives[-1].lines.append(line)
    return Script(*map(int, lines[0].split()[1:]), lives)


def shorter_lists(items):
    """Yields the list without some of its items: first halves, then quarters, and so on to one alone."""
    size = len(items) // 2
    while size > 0:
        for at in range(0, len(items), size):
            yield items[:at] + items[at + size:]
        size //= 2


def shorter_scripts(script):
    """Yields scripts with less than this one: without some lives, then without some lines of one."""
    for lives in shorter_lists(script.lives):
        if lives:
            yield script.with_lives(lives)
    for at, life in enumerate(script.lives):
        for lines in shorter_lists(life.lines):
            changed = Life(life.fuse, life.choice, lines)
            yield script.with_lives([*script.lives[:at], changed, *script.lives[at + 1:]])


def shrunk(script, differs, tries=2_000):
    """Returns the least script that was found of those that still differ."""
    while tries > 0:
        for shorter in shorter_scripts(script):
            tries -= 1
            if differs(shorter):
                script = shorter
                break
            if tries <= 0:
                return script
        else:
            return script
    return script
