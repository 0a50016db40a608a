"""Tries the front door of `corr`, contrib/door.bash, over a script in the program's place, at pipes and at terminals, and the completion in a
bash that somebody types in."""
import os
import pty
import select
import shutil
import signal
import subprocess
import tempfile
import time
from pathlib import Path

ROOT = Path(__file__).resolve().parent.parent

USAGE = "usage: corr solve|check|gen|work [--notion efce|efcce|nfcce] [--kind public|dilemma|chain] [--n N] [--seed N]\n"

# Prints its words, and what it reads. `gen` waits first, for as many seconds as its second word says; `work` gets the signal of that number.
PROGRAM = r"""#!/bin/bash
case $1 in
  gen)
    trap '' PIPE
    echo $$ > "$0.$3"
    exec {never}<> <(:)
    read -r -t "$3" -u "$never"
    ;;
  work) kill -s "$3" $$ ;;
esac
{ printf '<%s>' "$@" && echo; } || exit 74
case $1 in
  solve | check) cat || exit 72 ;;
esac
[ "$2" != --end ] || exit "$3"
"""


class Door:
    """A folder with an installed command over the script, a report and a game."""

    def __init__(self, folder):
        self.folder = Path(folder)
        for name in ("contrib/door.bash", "contrib/corr-start", "CHANGELOG.md"):
            shutil.copy2(ROOT / name, folder)
        self.program = self.folder / "corr_cli"
        self.program.write_text(PROGRAM)
        self.program.chmod(0o755)
        (self.folder / "corr").symlink_to("corr-start")
        (self.folder / "a game.efg").write_text("GAME\n")
        (self.folder / "report").write_text("REPORT\n")

    def start(self, *words, **more):
        return subprocess.Popen(["./corr", *words], cwd=self.folder, start_new_session=True, preexec_fn=hear_signals, **more)

    def run(self, *words, given="INPUT\n"):
        """What it writes to both its outputs, and its status."""
        ended = self.start(*words, stdin=subprocess.PIPE, stdout=subprocess.PIPE, stderr=subprocess.PIPE, universal_newlines=True)
        out, err = ended.communicate(given)
        return out, err, ended.returncode

    def forget(self, seconds):
        """Before a program is to be found by `started`."""
        Path(f"{self.program}.{seconds}").write_text("")

    def started(self, seconds):
        """The process of the program that waits so long."""
        path = Path(f"{self.program}.{seconds}")
        until(path.read_text)
        return int(path.read_text())


def hear_signals():
    """A check that runs in the background may ignore signals, which what it starts would do too."""
    for number in (signal.SIGINT, signal.SIGTERM, signal.SIGHUP):
        signal.signal(number, signal.SIG_DFL)


def until(holds):
    """Waits up to ten seconds."""
    for _ in range(1000):
        if holds():
            return True
        time.sleep(0.01)
    return False


def is_running(process):
    """Whether a process runs; one that ended may still be listed."""
    try:
        return Path(f"/proc/{process}/stat").read_text().rsplit(")", 1)[1].split()[0] != "Z"
    except OSError:
        return False


# Words and files

TAKEN = [
    ("solve", "<solve>\nINPUT\n"),
    ("solve -", "<solve>\nINPUT\n"),
    ("solve --notion efce", "<solve><--notion><efce>\nINPUT\n"),
    ("solve|a game.efg", "<solve>\nGAME\n"),
    ("solve --notion=efce|a game.efg", "<solve><--notion><efce>\nGAME\n"),
    ("solve|a game.efg|--notion nfcce", "<solve><--notion><nfcce>\nGAME\n"),
    ("solve --notion=", "<solve><--notion><>\nINPUT\n"),
    ("solve --|a game.efg", "<solve>\nGAME\n"),
    ("check", "<check>\nINPUT\n"),
    ("check report|a game.efg", "<check>\nREPORT\nGAME\n"),
    ("check -|a game.efg", "<check>\nINPUT\nGAME\n"),
    ("check report -", "<check>\nREPORT\nINPUT\n"),
    ("gen --n=0 --kind=chain --seed 3", "<gen><--n><0><--kind><chain><--seed><3>\n"),
]
REFUSED = [
    ("", "a command is missing; 'corr help' lists them"),
    ("slove report", "there is no command 'slove'; 'corr help' lists them"),
    ("report", "a command is missing before the file: corr solve report"),
    ("--notion efce solve", "the command comes first; 'corr help' lists them"),
    ("solve it", "there is no file 'it'; 'corr help solve' says what solve takes"),
    ("solve -x", "there is no file '-x'; 'corr help solve' says what solve takes"),
    ("solve report report", "solve takes one game, not 2 files"),
    ("check report", "check takes a report and its game: corr check report game.efg"),
    ("check - -", "standard input can be read only once: give the report or the game as a file"),
    ("gen report", "gen reads no file, and 'report' is none of its options"),
    ("help it", "there is no help on 'it'; 'corr help' lists the commands"),
    ("help solve it", "there is no help on 'solve it'; 'corr help' lists the commands"),
]
HELPS = {"help": "solve", "--help": "solve", "-h": "gen", "help help": "check"}
HELPS.update({f"{words}": name for name in ("solve", "check", "gen", "work") for words in (f"help {name}", f"{name} --help")})


def split(words):
    """Words between spaces; a bar stands round a name with a space in it."""
    return [word for k, part in enumerate(words.split("|")) for word in ([part] if " game" in part else part.split())]


def words(door):
    for line, wanted in TAKEN:
        yield f"corr {line}", door.run(*split(line)), (wanted, "", 0)
    for line, reason in REFUSED:
        yield f"corr {line}, refused", door.run(*split(line)), (USAGE, f"corr: {reason}\n", 64)
    for line, name in HELPS.items():
        out, err, status = door.run(*split(line))
        seen = out.startswith("usage: corr "), f"corr {name} " in out, max(map(len, out.splitlines())) < 80, err, status
        yield f"corr {line}", seen, (True, True, True, "", 0)
    version = next(line for line in (ROOT / "CHANGELOG.md").read_text().splitlines() if line.startswith("## ")).split()[1]
    yield "the version", door.run("--version"), (f"corr {version}\n", "", 0)


# Ends

LINES = {
    0: "",
    2: "",
    3: "",
    64: "corr: 'corr help solve' says which words it takes\n",
    70: "corr: there was not enough memory\n",
    71: "corr: the system gave the program no words\n",
    72: "corr: standard input could not be read\n",
    74: "corr: standard output could not be written\n",
}


def ends(door):
    for status, line in LINES.items():
        out = f"<solve><--end><{status}>\nINPUT\n"
        yield f"status {status}", door.run("solve", "--end", str(status)), (out, line, status)
    yield "the name of what wasn't read", door.run("solve", "--end", "72", "report")[1], "corr: what report holds could not be read\n"
    yield "a folder", door.run("solve", "/"), ("", "corr: the folder '/' could not be read\n", 72)
    yield "a folder beside a file", door.run("check", "report", "/"), ("", "corr: the folder '/' could not be read\n", 72)
    for number in (signal.SIGSEGV, signal.SIGABRT, signal.SIGKILL, signal.SIGPIPE):
        yield f"a program that {number.name} ends", door.run("work", "--n", str(int(number)))[1:], ("", -number)
    full = door.start("help", stdout=open("/dev/full", "w"), stderr=subprocess.PIPE)
    yield "help at a full disk", (full.communicate()[1], full.returncode), (b"corr: standard output could not be written\n", 74)
    yield from streams(door)
    for number in (signal.SIGTERM, signal.SIGHUP, signal.SIGINT, signal.SIGKILL):
        yield f"a door that gets {number.name}", interrupted(door, number), (-number, b"", True)
    door.program.rename(f"{door.program}.away")
    out, err, status = door.run("solve")
    yield "no program", (out, err.endswith("corr_cli is missing\n"), err.count("\n"), status), ("", True, 1, 69)
    Path(f"{door.program}.away").rename(door.program)


def streams(door):
    """Streams that end early, are full, or are closed."""
    unwritten = b"corr: standard output could not be written"
    with open("/dev/full", "w") as disk:
        ended = door.start("gen", "--n", "0", stdout=disk, stderr=subprocess.PIPE)
    yield "a full disk", (ended.communicate()[1].splitlines()[-1], ended.returncode), (unwritten, 74)
    ended = door.start("gen", "--n", "0.3", stdout=subprocess.PIPE, stderr=subprocess.PIPE)
    ended.stdout.close()
    yield "a pipe that nobody reads", (ended.stderr.read().splitlines()[-1], ended.wait()), (unwritten, 74)
    for redirection, wanted in (("<&-", "corr: standard input could not be read\n"), (">&-", "corr: standard output could not be written\n")):
        way = ["bash", "-c", f"./corr solve {redirection}"]
        ended = subprocess.run(way, cwd=door.folder, stdin=subprocess.DEVNULL, capture_output=True, check=False)
        yield f"a closed stream, {redirection}", ended.stderr.decode().splitlines(True)[-1:], [wanted]
        yield f"its status, {redirection}", ended.returncode, 72 if redirection == "<&-" else 74


def interrupted(door, number):
    """How the door ends where it gets a signal, what it says, and whether the program is gone then."""
    door.forget(60)
    running = door.start("gen", "--n", "60", stdout=subprocess.DEVNULL, stderr=subprocess.PIPE)
    program = door.started(60)
    running.send_signal(number)
    said = running.communicate()[1]
    return running.returncode, said, until(lambda: not is_running(program))


# Terminals


class Terminal:
    """A command at a terminal, what somebody types there, and what comes."""

    def __init__(self, command, folder, **environment):
        self.process, self.screen = pty.fork()
        if self.process == 0:
            os.chdir(folder)
            hear_signals()
            os.execvpe(command[0], command, {**os.environ, "TERM": "dumb", **environment})
        self.text = b""

    def type(self, keys):
        os.write(self.screen, keys.encode())

    def read(self, seconds):
        """Whether something came within this time."""
        if not select.select([self.screen], [], [], seconds)[0]:
            return False
        try:
            came = os.read(self.screen, 4096)
        except OSError:
            came = b""
        self.text += came
        return bool(came)

    def wait_for(self, text, seconds=20):
        """Whether the text came within this time."""
        end = time.time() + seconds
        while text.encode() not in self.text and time.time() < end and self.read(end - time.time()):
            pass
        return text.encode() in self.text

    def end(self):
        """Reads to the end, and gives what stands on the screen and the status."""
        while self.read(20):
            pass
        return shown(self.text.decode()), os.waitpid(self.process, 0)[1]


def shown(text):
    """The lines that a text leaves on a screen, where a return goes back to a line's first place."""
    lines = []
    for line in text.replace("\r\n", "\n").split("\n"):
        cells = []
        for part in line.split("\r"):
            cells[: len(part)] = part
        lines.append("".join(cells).rstrip())
    return lines[:-1] if lines[-1] == "" else lines


WAITING = {
    "solve": "corr: reads a game from the terminal, up to Ctrl-D; 'corr solve game.efg' reads a file",
    "check": "corr: reads a report and its game from the terminal, up to Ctrl-D; 'corr check report game.efg' reads files",
}


def terminals(door):
    for command, line in WAITING.items():
        at = Terminal(["./corr", command], door.folder)
        yield f"{command} at a terminal", (at.wait_for(line), at.wait_for(f"<{command}>\r\n")), (True, True)
        at.type("typed\n\x04")
        yield f"{command} at a terminal, ended", at.end(), ([line, f"<{command}>", "typed", "typed"], 0)
    yield "a file at a terminal", Terminal(["./corr", "solve", "report"], door.folder).end(), (["<solve>", "REPORT"], 0)
    yield from long_runs(door)


def long_runs(door):
    """Three runs side by side, each of which takes so long that it tells its time."""
    door.forget(60)
    both = Terminal(["./corr", "gen", "--n", "9"], door.folder)
    errors_alone = Terminal(["bash", "-c", "./corr gen --n 10 > out"], door.folder)
    stopped = Terminal(["./corr", "gen", "--n", "60"], door.folder)
    time_told = "\rcorr: running for 0 min 0"
    yield "a long run tells its time", both.wait_for(time_told), True
    yield "and takes it away before it prints", both.end(), (["<gen><--n><9>"], 0)
    yield "a long run that prints into a file", errors_alone.wait_for(time_told), True
    yield "takes the time away at its end", errors_alone.end(), ([], 0)
    yield "the file", (door.folder / "out").read_text(), "<gen><--n><10>\n"
    yield "a long run that is interrupted", stopped.wait_for(time_told), True
    program = door.started(60)
    stopped.type("\x03")
    yield "takes the time away too", stopped.end(), ([], signal.SIGINT)
    yield "and ends the program", until(lambda: not is_running(program)), True


# Completion

# What somebody types before the tabulator key, and what then stands on the line.
TYPED = [
    ("corr so", "solve "),
    ("corr --v", "--version "),
    ("corr help w", "help work "),
    ("corr solve chicken.e", "solve chicken.efg "),
    ("corr solve < chicken.e", "solve < chicken.efg "),
    ("corr solve <chicken.e", "solve <chicken.efg "),
    ("corr solve --notion efce < chicken.e", "solve --notion efce < chicken.efg "),
    ("corr solve --notion=n", "solve --notion=nfcce "),
    ("corr solve --notion n", "solve --notion nfcce "),
    ("corr solve --n", "solve --notion "),
    ("corr check chicken.r", "check chicken.report "),
    ("corr check chicken.report chicken.e", "check chicken.report chicken.efg "),
    ("corr gen --kind=d", "gen --kind=dilemma "),
    ("corr gen --kind chain > chicken.e", "gen --kind chain > chicken.efg "),
    ("corr-plot --notion=n", "--notion=nfcce "),
    ("corr-plot --game chicken.e", "--game chicken.efg "),
    ("corr-plot --game=chicken.e", "--game=chicken.efg "),
    ("corr-names --game chicken.efg chicken.r", "--game chicken.efg chicken.report "),
    ("corr-welfare < chicken.r", "< chicken.report "),
    ("corr-where chicken.e", "chicken.efg "),
]


def completions(door):
    for name in ("chicken.efg", "chicken.report"):
        (door.folder / name).write_text("")
    at = Terminal(["bash", "--norc", "--noprofile", "-i"], door.folder, PS1="$ ", HISTFILE="")
    at.type(f". '{ROOT / 'contrib' / 'corr.bash'}'\n")
    for number, (line, wanted) in enumerate(TYPED):
        at.text = b""
        at.type(f"{line}\t")
        came = at.wait_for(wanted, 5)
        at.type(f"\x15echo done {number}\n")
        yield f"{line} and a tabulator", (came, at.wait_for(f"done {number}\r\n")), (True, True)
    at.type("exit\n")
    yield "the shell ends", at.end()[1], 0


def door_tests():
    with tempfile.TemporaryDirectory() as folder:
        door = Door(folder)
        for part in (words, ends, terminals, completions):
            yield from part(door)
