"""What the tools share that reckon a program's output from the documents, apart from the library, and hold it to that.

Standard library only. Exit status of these tools: 0 no difference; 1 the program failed or differs; 2 bad input.
"""
import argparse
import os
import subprocess
import sys

ROOT = os.path.dirname(os.path.dirname(os.path.realpath(__file__)))
SECONDS = 20


class Trouble(Exception):
    """One line for standard error, and the exit status."""

    def __init__(self, line, status=2):
        super().__init__(line)
        self.status = status


class Arguments(argparse.ArgumentParser):
    # argparse prints its usage above the message; one line is asked for here.
    def error(self, message):
        raise Trouble(message)


def arguments(name, description):
    """What every such tool takes: --check N SEED, and the program to be checked."""
    parser = Arguments(prog=name, description=description)
    parser.add_argument("--check", metavar=("N", "SEED"), nargs=2, type=int, help="hold the program to N drawn texts and N others")
    parser.add_argument("--program", metavar="PATH", help="the program, where it is not the one below target/bin")
    return parser


def program_of(name, given):
    path = given or os.path.join(ROOT, "target", "bin", name)
    if not os.path.isfile(path):
        raise Trouble("no program at %s; to build it: tools/build %s" % (given or os.path.join("target", "bin", name), name))
    return os.path.abspath(path)


def printed(program, text):
    try:
        run = subprocess.run([program], input=text, stdout=subprocess.PIPE, timeout=SECONDS)
    except (OSError, subprocess.TimeoutExpired) as error:
        raise Trouble("%s: %s" % (program, error), 1)
    if run.returncode != 0:
        raise Trouble("%s: exit status %d for %r" % (program, run.returncode, text[:60]), 1)
    return run.stdout


def differing(program, texts, answer):
    """Holds the program to the answer of every text. Says how many there were and how many differ, which is answered."""
    refused = wrong = 0
    for text in texts:
        right = answer(text)
        refused += right.count(b"refused ")
        if printed(program, text) != right:
            wrong += 1
            print("differs: %r" % text[:60])
    print("%d texts, %d refusals: %d differ" % (len(texts), refused, wrong))
    return wrong


def check(program, lists, answer):
    """Holds the program to every list of texts."""
    if sum([differing(program, texts, answer) for texts in lists]):
        raise Trouble("the program differs from what is reckoned here", 1)


def run(name, main):
    """Runs a tool; trouble is one line."""
    try:
        main()
    except Trouble as trouble:
        print("%s: %s" % (name, trouble), file=sys.stderr)
        sys.exit(trouble.status)
