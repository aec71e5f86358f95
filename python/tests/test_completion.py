"""Compares the words that the shells complete with the words in the commands' help."""
import os
import pathlib
import re
import shutil
import subprocess
import sys
import unittest

TOP = pathlib.Path(__file__).resolve().parents[2]
BIN = pathlib.Path(os.environ.get("MCF_BIN", TOP / "bin"))
HELP = {"-h", "--help"}
# The lines whose last word a shell completes: a command and its subcommand.
LINES = (
    ("mcf",),
    ("mcf", "solve"),
    ("mcfplan",),
    ("mcfplan", "flow"),
    ("mcfplan", "pairs"),
    ("mcf_plan",),
    ("mcf_plan", "flow"),
    ("mcf_plan", "pairs"),
    ("mcf_plan", "diff"),
    ("mcf_plan", "compare"),
    ("mcf_plan", "verify"),
    ("mcf_explain",),
)
BASH = """
. "$0"; COMP_WORDS=("$@"); COMP_CWORD=$(($# - 1)); _mcf "$1" "${!#}" "${@:$#-1:1}"; printf '%s\\n' "${COMPREPLY[@]}"
"""  # noqa: E501
# The completion of zsh passes its offers to _arguments, which prints them here.
ZSH = """
_arguments() { print -rl -- "$@" }; file=$1; shift; words=("$@"); CURRENT=$#; service=$1; . $file
"""


def said(*words):
    """The output of a command."""
    return subprocess.run(
        [str(word) for word in words], stdout=subprocess.PIPE, check=True, timeout=60
    ).stdout.decode()


def helped(command, *words):
    """The options of a command in its help, each with its values if the help lists them."""
    if command in ("mcf", "mcfplan"):
        text = said(BIN / command, *words, "--help").split("\nOptions:")[1].split("\n\n")[0]
        values = re.findall(r"(--[a-z-]+) <\w+> .*\[possible values: ([^]]*)\]", text)
        return set(options_in(text)), {option: named.split(", ") for option, named in values}
    text = said(sys.executable, TOP / "tools" / command, *words, "--help")
    values = {option: named for option, named in re.findall(r"(--[a-z-]+) \{(\S*)\}", text)}
    return set(options_in(text)), {
        option: [",", "."] if named == ",,." else named.split(",")
        for option, named in values.items()
    }


def options_in(text):
    """The words of a text that look like options."""
    return re.findall(r"(?<![\w'-])--?[A-Za-z][a-z-]*", text)


def bash(*words):
    """The words that bash offers for the last of some words."""
    return said("bash", "-c", BASH, TOP / "completion" / "mcf.bash", *words).split()


def zsh(*words):
    """The words that zsh offers after some words: options, each with its values if they are listed,
    and subcommands."""
    lines = said("zsh", "-f", "-c", ZSH, "zsh", TOP / "completion" / "_mcf", *words).splitlines()
    options, values, subcommands = set(), {}, []
    for line in lines:
        option = re.match(r"(?:\(.*?\)|\*)?(--?[A-Za-z][a-z-]*)", line)
        if option:
            options.add(option.group(1))
        named = re.search(r":\w+:\((.*)\)$", line)
        if named and option:
            values[option.group(1)] = named.group(1).split()
        elif named:
            subcommands = named.group(1).split()
    return options, values, subcommands


@unittest.skipUnless(shutil.which("bash"), "bash isn't there")
class Bash(unittest.TestCase):
    """The completion of bash."""

    def test_options_and_values(self):
        for line in LINES:
            options, values = helped(*line)
            self.assertEqual(set(bash(*line, "-")), options, line)
            for option in options:
                self.assertEqual(bash(*line, option, ""), values.get(option, []), option)

    def test_options_of_one(self):
        options, values = helped("mcf", "solve")
        self.assertEqual(set(bash("mcf_one", "a.min", "--")), options - HELP)
        self.assertEqual(bash("mcf_one", "a.min", "--engine", ""), values["--engine"])

    def test_parts_of_words(self):
        self.assertEqual(bash("/usr/bin/mcf", "s"), ["solve"])
        self.assertEqual(bash("mcf", "solve", "--engine", "s"), ["simplex", "scaling", "sap"])
        self.assertEqual(bash("mcf", "solve", "--pricing", "=", "b"), ["best", "block"])
        self.assertEqual(bash("mcf", "solve", "--form", "="), ["full", "sparse", "1", "2"])
        self.assertEqual(bash("mcf_plan", ""), ["flow", "pairs", "diff", "compare", "verify"])
        for words in (
            ("mcfcheck", ""),
            ("mcfcheck", "-"),
            ("mcf", "solve", ""),
            ("mcf_one", ""),
            ("mcf_plan", "flow", "-o", ""),
        ):
            self.assertEqual(bash(*words), [], words)


@unittest.skipUnless(shutil.which("zsh"), "zsh isn't there")
class Zsh(unittest.TestCase):
    """The completion of zsh."""

    def test_options_and_values(self):
        for line in LINES:
            self.assertEqual(zsh(*line, "-")[:2], helped(*line), line)

    def test_options_of_one(self):
        options, values = helped("mcf", "solve")
        self.assertEqual(zsh("mcf_one", "a.min", "--")[:2], (options - HELP, values))

    def test_subcommands(self):
        for command in ("mcf", "mcf_plan", "mcf_explain", "mcfcheck"):
            self.assertEqual(zsh(command, "")[2], bash(command, ""), command)
