"""A message mended: its remainder, and the fewest positions that clear it, found by trial and looked up in the tables.

    mend [OPTIONS] MESSAGE

MESSAGE is hex digits in either case, two for each byte, 64 bytes at most; `*` before them and `;` behind them may stand there. For the
message - standard input is read, one message a line, and each is answered as it comes. docs/TRAINEE.md is a walk with this command.

  --level N         the most positions that are turned over, 0 to 2 (2); it is passed on up to 255, so that a refusal can be seen
  --damage J,K,...  positions of the message that are turned over first, any number of them; 0 is its first bit
  --remainder       the remainder alone, neither repair
  --slowly          the repair by trial alone: no position, each in turn, each pair, until the remainder is 0
  --tables          the repair by the tables alone
  --help            this text

Of each message these lines are printed; the first has the message with its damage, and the last two the positions that are turned
over, written as in a listing, and the message that comes of it:

    message   8D4840D6000CC371C32CE0576098
    remainder EEFFA9
    slowly    2:34,42  8D4840D6202CC371C32CE0576098
    tables    2:34,42  8D4840D6202CC371C32CE0576098

Status 0: every message is clear or mended, by each repair that was asked for. 1: nothing clears one, or it is refused; its line says so.
2: a wrong call, an input that cannot be read or has a line that is no message, a program that is not built or did not end well, or lines
that cannot be written. The greatest applies. Nothing but these lines goes to standard output.

The program is built where it is not yet: everything that it needs is proved first, which takes some minutes and needs the Rattle
toolchain, the command rt.
"""
import argparse
import os
import re
import signal
import subprocess
import sys

from built import build, ended, heard, put, to_run
from call import Words, say, stop, whole

MENDED, NOT_MENDED, FAILED = 0, 1, 2
PROGRAM, INPUT = "mend", "-"
# What is printed, by its name in a sentence.
PRINTED = "the answer"
# The most bytes that the program takes.
MOST = 64
# The lines that each choice leaves, in the order of the program's.
ASKED = {None: ("remainder", "slowly", "tables"), "--remainder": ("remainder",), "--slowly": ("remainder", "slowly"), "--tables": ("remainder", "tables")}
# What the program's refusals say.
REFUSALS = {"2": "a message has 14 bytes", "4": "the level is not 0, 1 or 2"}


class NoMessage(Exception):
    """why a text is no message, or cannot be damaged so"""


def positions(text):
    """the type of --damage: different positions"""
    found = [whole(0)(part) for part in text.split(",")]
    if len(set(found)) != len(found):
        raise argparse.ArgumentTypeError(f"{text!r} names a position twice")
    return found


def message_of(text, damage):
    """the bytes of a text, with the positions turned over"""
    found = re.fullmatch(r"\*([0-9A-Fa-f]*);|([0-9A-Fa-f]*)", text)
    if not found or len(text) % 2:
        raise NoMessage(f"{text!r} is no message: that is hex digits, two for each byte, alone or between * and ;")
    message = bytearray.fromhex(found[1] or found[2] or "")
    if len(message) > MOST:
        raise NoMessage(f"a message has {MOST} bytes at most, and this one {len(message)}")
    for j in damage:
        if j >= 8 * len(message):
            raise NoMessage(f"argument --damage: {j} is no position of a message of {8 * len(message)} bits")
        message[j // 8] ^= 128 >> j % 8
    return bytes(message)


def program_lines(level, message):
    """what the program says of a message: the rest of each line behind its first word"""
    run = subprocess.run(to_run(PROGRAM), input=bytes([level]) + message, stdout=subprocess.PIPE)
    lines = dict(line.split(" ", 1) for line in run.stdout.decode("ascii", "replace").splitlines() if " " in line)
    if run.returncode != 0 or tuple(lines) != ASKED[None]:
        stop(f"the answer is not whole: the program ended {ended(run.returncode)}")
    return lines


def shown(text):
    """what stands behind `slowly` or `tables`, and whether the message is clear then"""
    first, _, rest = text.partition(" ")
    if first == "refused":
        return f"{text}: {REFUSALS[rest]}", NOT_MENDED
    return (text, NOT_MENDED) if first == "nothing" else (f"{first}  {rest}", MENDED)


def answer(level, message, asked):
    """prints the lines of one message, and answers the status"""
    said, status = program_lines(level, message), MENDED
    lines = [("message", message.hex().upper()), ("remainder", said["remainder"])]
    for name in ASKED[asked][1:]:
        text, state = shown(said[name])
        lines.append((name, text))
        status = max(status, state)
    put(PRINTED, "".join(f"{name:10}{text}".rstrip() + "\n" for name, text in lines))
    return status


def input_lines():
    """those of standard input, as they come"""
    try:
        with open(0, "rb", closefd=False) as file:
            yield from file
    except OSError as error:
        stop(f"standard input: it cannot be read: {error.strerror}")


def answers(given):
    """prints the lines of each message of standard input, and answers the greatest status"""
    status = MENDED
    for number, line in enumerate(input_lines(), 1):
        try:
            message = message_of(line.decode("ascii", "backslashreplace").strip(), given.damage)
        except NoMessage as why:
            say(f"line {number}: {why}")
            status = FAILED
        else:
            status = max(status, answer(given.level, message, given.asked))
    return status


def main():
    signal.signal(signal.SIGINT, signal.SIG_DFL)
    words = Words(__doc__)
    words.add_argument("--level", type=whole(0, 255), default=2)
    words.add_argument("--damage", type=positions, default=[])
    words.one_of("--remainder", "--slowly", "--tables")
    words.add_argument("message", metavar="MESSAGE")
    given = words.parse_args()
    if given.message != INPUT:
        try:
            message = message_of(given.message, given.damage)
        except NoMessage as why:
            words.error(str(why))
    heard(PRINTED, os.fstat, 1)
    build(PROGRAM)
    if given.message == INPUT:
        if os.isatty(0):
            say("messages are read from the terminal, one a line; --help says how to name one")
        status = answers(given)
    else:
        status = answer(given.level, message, given.asked)
    heard(PRINTED, os.close, 1)
    sys.exit(status)


if __name__ == "__main__":
    main()
