"""How every tool is called: `--help` prints the text at the tool's top, and a wrong call is one line and status 2."""
import argparse
import importlib.machinery
import importlib.util
import os
import shutil
import subprocess
import sys

HERE = os.path.dirname(os.path.realpath(__file__))
ROOT = os.path.dirname(HERE)
NAME = os.path.basename(sys.argv[0]).removesuffix(".py")


def say(text):
    """a line on standard error, if there is one"""
    try:
        os.write(2, f"{NAME}: {text}\n".encode("utf-8", "surrogateescape"))
    except OSError:
        pass


def stop(why):
    """the call cannot be met: one line, status 2"""
    say(why)
    sys.exit(2)


def needs(*commands):
    """that these commands are at hand"""
    for name in commands:
        if not shutil.which(name):
            stop(f"no command '{name}' on the PATH")


def run(*words, cwd=ROOT, **more):
    """the output of a command that must succeed"""
    done = subprocess.run(words, cwd=cwd, stdout=subprocess.PIPE, text=True, **more)
    if done.returncode != 0:
        sys.exit(f"{done.stdout}{NAME}: failed: {' '.join(words)}")
    return done.stdout


def whole(least, most=None):
    """the type of an option that is a whole number from `least` to `most`"""
    limits = f"a whole number from {least}" + ("" if most is None else f" to {most}")

    def number(text):
        try:
            n = int(text)
        except ValueError:
            n = None
        if n is None or n < least or most is not None and n > most:
            raise argparse.ArgumentTypeError(f"{text!r} is not {limits}")
        return n
    return number


class Words(argparse.ArgumentParser):
    def __init__(self, text):
        super().__init__(prog=NAME, allow_abbrev=False)
        self.text = text

    def one_of(self, *options, needed=False):
        """options that exclude each other; the field `asked` is the one that is given, or None"""
        group = self.add_mutually_exclusive_group(required=needed)
        for option in options:
            group.add_argument(option, dest="asked", action="store_const", const=option)

    def add_source(self):
        self.add_argument("--source", default=os.path.join(os.path.dirname(ROOT), "shared", "docs", "src"))

    def format_help(self):
        return self.text.lstrip("\n")

    def error(self, message):
        stop(f"{message} (--help says how it is called)")


def one_of(text, *options, needed=True):
    """the one word of a call that has no others"""
    words = Words(text)
    words.one_of(*options, needed=needed)
    return words.parse_args().asked


def source_of(given):
    """the folder src of the Rust, which the call names or which lies beside this repository"""
    if not os.path.isfile(os.path.join(given.source, "receiver.rs")):
        stop(f"argument --source: no receiver.rs in {given.source}: name the Rust's folder src")
    return os.path.abspath(given.source)


def tool(name):
    """another tool of this folder, as a module"""
    sys.dont_write_bytecode = True
    loader = importlib.machinery.SourceFileLoader(name.replace("-", "_"), os.path.join(HERE, name))
    module = importlib.util.module_from_spec(importlib.util.spec_from_loader(loader.name, loader))
    loader.exec_module(module)
    return module
