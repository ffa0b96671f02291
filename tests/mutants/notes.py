"""The notes of what was seen refused. They are kept on the machine beside what `rt ci` keeps, and in no checkout, so
that each checkout finds those of all others: a line a mutant and a state in which it was refused, with its crate
and name, the sum of its crate, its own sum, and the second at which it was seen."""
import contextlib
import fcntl
import os
import shutil
import stat

# How many states of one mutant are kept, the newest.
MOST_STATES = 8


def is_usable(folder):
    """Returns whether a folder stands there, is this user's and can be written; makes it where nothing stands."""
    try:
        os.makedirs(folder, 0o700, exist_ok=True)
        found = os.lstat(folder)
    except OSError:
        return False
    is_own = stat.S_ISDIR(found.st_mode) and found.st_uid == os.geteuid()
    return is_own and os.access(folder, os.W_OK | os.X_OK)


def store():
    """Returns the folder of the notes: beside the kit, or else among what this user's programs keep; or nothing."""
    kit = os.path.dirname(os.path.dirname(os.path.realpath(shutil.which("rt") or "/")))
    state = os.environ.get("XDG_STATE_HOME") or os.path.expanduser("~/.local/state")
    folders = f"{os.path.dirname(kit)}/rattle-kept-pulsefarm", f"{state}/pulsefarm"
    return next((it for it in folders if is_usable(it)), None)


class Notes:
    """What was seen refused: for each mutant, the second of each state, the sum of its crate with its own."""

    def __init__(self, folder):
        self.folder, self.seen = folder, {}
        for key, own, total, time in lines_of(folder):
            self.seen.setdefault(key, {})[own, total] = int(time)

    def of_crate(self, crate):
        """Returns the mutants of a crate that were seen refused, in any state."""
        return [key for key in self.seen if key.startswith(f"{crate}/")]

    def knows(self, crate, own):
        """Returns whether one of a crate was seen refused while the crate had this sum."""
        return any(state[0] == own for key in self.of_crate(crate) for state in self.seen[key])

    def time(self, key, own, total):
        """Returns when one was seen refused in this state, or nothing."""
        return self.seen.get(key, {}).get((own, total))

    def last_time(self, key):
        """Returns when one was seen refused in any state, or 0."""
        return max(self.seen.get(key, {}).values(), default=0)

    def add(self, key, own, total, time):
        """Notes that one was seen refused in this state, and forgets the oldest states past the most."""
        states = {**self.seen.get(key, {}), (own, total): time}
        self.seen[key] = dict(sorted(states.items(), key=lambda it: it[1])[-MOST_STATES:])

    def drop(self, crate):
        """Forgets all of a crate."""
        for key in self.of_crate(crate):
            del self.seen[key]

    def write(self):
        """Writes the notes apart and then puts them in place, so that no other run reads half of them."""
        lines = [f"{key} {own} {total} {time}\n" for key in self.seen for (own, total), time in self.seen[key].items()]
        with open(f"{self.folder}/new", "w", encoding="utf-8") as file:
            file.writelines(sorted(lines))
        os.replace(f"{self.folder}/new", f"{self.folder}/refused")


@contextlib.contextmanager
def changing(folder):
    """Gives the notes to change, while no other run may, and writes them; where there is no store they are lost."""
    if folder is None:
        print("there is no folder in which to note what was refused: all mutants stay due")
        yield Notes(None)
        return
    with open(f"{folder}/lock", "w", encoding="utf-8") as lock:
        fcntl.flock(lock, fcntl.LOCK_EX)
        noted = Notes(folder)
        yield noted
        noted.write()


def lines_of(folder):
    """Returns the lines of the notes in a folder, each as its four words."""
    if folder is None or not os.path.exists(f"{folder}/refused"):
        return []
    with open(f"{folder}/refused", encoding="utf-8") as file:
        return [words for words in map(str.split, file) if len(words) == 4 and words[3].isdigit()]
