"""The listing of files of windows: what was found in each window, and what was done to find it.

    decode [OPTIONS] [FILE ...]

Without a file, and for the file -, standard input is read. Of several files the listings come one after another. docs/WINDOWS.md
says what a file holds and what a line says. Without an option the listing is printed as the proved program writes it, byte for byte.

{options}
  --help      this text

Status 0: every listing is whole. 1: a file was refused; standard error says which and why, and the lines before the refusal stand.
2: a wrong call, a file that cannot be read, a program that is not built or did not end well, or a listing that cannot be written.
The greatest applies. Nothing but lines goes to standard output.

The program is built where it is not yet: everything that it needs is proved first, which takes some minutes and needs the Rattle
toolchain, the command rt.

With --slowly, where standard error is a terminal, a sentence there says how long a window takes, and a line that is written over at
which window it is.
"""
import os
import select
import signal
import stat
import struct
import subprocess
import sys
import textwrap

from built import build, ended, heard, put, to_run
from call import NAME, Words, say

WHOLE, REFUSED, FAILED = 0, 1, 2
# What is printed, by its name in a sentence.
PRINTED = "the listing"
# What the program's refusals say: docs/WINDOWS.md has them too.
REFUSALS = {
    "4": "the level is not 0, 1 or 2",
    "5": "a threshold is infinite or no number",
    "6": "the index of a window is below 128 or above 2^63",
    "10": "it is malformed: it ends early, a count is wrong, or it goes on behind the last window",
}


def decimal(bits):
    """the shortest decimal that is this float and no other"""
    number = struct.unpack(">f", bytes.fromhex(bits))[0]
    if number != number:
        return "no number"
    if number in (float("inf"), float("-inf")):
        return "infinite" if number > 0 else "minus infinite"
    texts = (f"{number:.{digits}g}" for digits in range(1, 10))
    return next(text for text in texts if struct.pack(">f", float(text)).hex().upper() == bits)


def avr(fields, line):
    """the message of a line, where it has one"""
    return fields[3] + "\n" if len(fields) > 3 else ""


def plain(fields, line):
    """the line, with its two floats in decimals behind it"""
    return f"{line[:-1]} (fraction {decimal(fields[2])}, cn0 {decimal(fields[7])} dB Hz)\n" if len(fields) > 3 else line


# An option names the program that writes the listing, or what is printed of each of its lines; without one it is this program, and all.
# One whose program takes its time also has the words for that: they are told on a terminal, and then where in the file it is.
PROGRAM = "windows"
OPTIONS = {
    "--avr": {"shown": avr, "text": "the messages alone, a line each, as display programs take them: decode --avr FILE | nc HOST 30001"},
    "--plain": {"shown": plain, "text": "the listing, with fraction and cn0 in decimals behind each message, for people"},
    "--slowly": {"program": "windows_slowly", "told": "every repair is found by trial: about an eighth of a second a window at level 2",
                 "text": "the same listing, with every repair found by trial: each position is turned over, then each pair; "
                         "about an eighth of a second a window at level 2"},
}


class Progress:
    """a line on the terminal of standard error that is written over and at last taken away, or nothing where it is none"""

    def __init__(self, wanted):
        self.wanted, self.text = wanted, ""

    def show(self, text=""):
        """this text in place of the one before; without one the line is empty, so that others can be written"""
        if self.wanted and text != self.text:
            taken_away = f"\r{' ' * len(self.text)}\r" if self.text else ""
            try:
                os.write(2, (taken_away + text).encode("utf-8", "surrogateescape"))
            except OSError:
                self.wanted = False
            self.text = text


# ---- A file

INPUT = "-"


def opened(name):
    """the number of the open file, or None and why there is none"""
    try:
        file = 0 if name == INPUT else os.open(name, os.O_RDONLY)
        if stat.S_ISDIR(os.fstat(file).st_mode):
            return None, "it is a directory"
        return file, None
    except FileNotFoundError:
        return None, "there is no such file"
    except PermissionError:
        return None, "it may not be read (permission denied)"
    except OSError as error:
        return None, f"it cannot be read: {error.strerror}"


def unreadable(file):
    """why a read fails where the program stopped, or None: to the program that is an early end"""
    try:
        if select.select([file], [], [], 0)[0]:
            os.read(file, 1)
    except OSError as error:
        return error.strerror
    return None


def listing_of(name, program, shown, progress):
    """prints the listing of one file, line by line as it comes, and answers the status"""
    said = "standard input" if name == INPUT else name
    file, why = opened(name)
    if why:
        say(f"{said}: {why}")
        return FAILED
    windows, listed, refused = None, 0, None
    run = subprocess.Popen(to_run(program), stdin=file, stdout=subprocess.PIPE)
    try:
        for line in run.stdout:
            line = line.decode("ascii", "replace")
            fields = line.split()
            if line.startswith("windows "):
                windows = int(fields[1])
            elif line.startswith("refused "):
                refused = fields[1]
            elif line[:1].isdecimal():
                listed = int(fields[0]) + 1
            progress.show()
            put(PRINTED, shown(fields, line) if shown else line)
            if windows is not None and refused is None and listed < windows:
                progress.show(f"{NAME}: window {listed + 1} of {windows}")
    except SystemExit:
        run.kill()
        raise
    progress.show()
    status = run.wait()
    failure = unreadable(file) if refused == "10" else None
    if file:
        os.close(file)
    if status != 0 or refused is None and listed != windows:
        say(f"{said}: the listing is not whole: the program ended {ended(status)}")
        return FAILED
    if failure:
        say(f"{said}: it cannot be read: {failure}")
        return FAILED
    if refused:
        say(f"{said}: refused with {refused}: {REFUSALS[refused]}")
        return REFUSED
    return WHOLE


def asked(words):
    """the program, what is printed of its lines, what is told of it, and the files; two options that name the same are a wrong call"""
    for option in OPTIONS:
        words.add_argument(option, dest="options", action="append_const", const=option)
    words.add_argument("files", nargs="*")
    given = words.parse_intermixed_args()
    choice = {"program": PROGRAM, "shown": None, "told": None}
    for part in choice:
        named = sorted({option for option in given.options or [] if part in OPTIONS[option]})
        if len(named) > 1:
            words.error(f"{' and '.join(named)} exclude each other")
        if named:
            choice[part] = OPTIONS[named[0]][part]
    return *choice.values(), given.files or [INPUT]


def main():
    signal.signal(signal.SIGINT, signal.SIG_DFL)
    options = "\n".join(textwrap.fill(f"  {option:10}  {says['text']}", 132, subsequent_indent=14 * " ") for option, says in OPTIONS.items())
    program, shown, told, files = asked(Words(__doc__.replace("{options}", options)))
    heard(PRINTED, os.fstat, 1)
    build(program)
    if INPUT in files and os.isatty(0):
        say("a file of windows is read from the terminal; --help says how to name one")
    progress = Progress(told and os.isatty(2))
    if progress.wanted:
        say(told)
    status = max([listing_of(name, program, shown, progress) for name in files])
    heard(PRINTED, os.close, 1)
    sys.exit(status)


if __name__ == "__main__":
    main()
