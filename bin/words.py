#!/usr/bin/env python3
"""Answers a command line of relay or shot for which nothing has to run.

bin/words.py NAME [WORDS]    writes what the program NAME answers to words that ask for help or for the version, or that
                             are no command line, and ends with its status; to words that can be run it writes nothing,
                             and ends with status 3

The answers come from the stored texts crates/NAME/data/help and version, which say each option: bin/runs compares both
texts, and the answers to the words that crates/NAME/data/runs.cases has, with those of the program. The program may
besides name an option that is like one that it doesn't know.
"""
import re
import sys
from dataclasses import dataclass
from pathlib import Path

ROOT = Path(__file__).resolve().parent.parent
TO_RUN = 3
BAD_OUTPUT = "the value of '--output <NAME>' has no place for a number, as %04d"
# A name with a place for a number.
NUMBERED = re.compile(r"[^%]*%0[1-9]d")
BAD_SECONDS = "the value of '--{} <SECONDS>' is no decimal number of seconds from 0 on, or too large, or a step of none"
HINT = "\n\nFor more information, try '--help'.\n"
# Options that exclude others, which a program checks once it has read all words.
CONFLICTS = {("relay", "live"): ("every", "show")}
# Values that a program checks once it has read all words, and not where they stand.
LATE = {("relay", "terminal")}
# What may be a number of seconds, and a step of none.
SECONDS, NONE = re.compile(r"[0-9.]+([eE][+-]?[0-9]+)?"), re.compile(r"0+\.?0*|0*\.0+")
# What an option of seconds takes from the next word, to refuse it then.
NEGATIVE = re.compile(r"-[0-9]+(\.[0-9]*)?([eE][0-9]+)?")


@dataclass
class Option:
    """An option as the help text says it: its name, the name of its value, its range and its possible values."""

    name: str
    value: str
    most: int
    choices: list

    @property
    def shown(self):
        return f"--{self.name} <{self.value}>" if self.value else f"--{self.name}"

    @property
    def told_choices(self):
        return f"\n  [possible values: {', '.join(self.choices)}]" if self.choices else ""


class BadWords(Exception):
    """Words that are no command line, with the program's text."""


def options_in(help_text):
    """Returns the options by their names, and those of one letter by that."""
    found = {}
    for letter, name, value, text in re.findall(r"^ +(?:-(\w), )?--(\w+)(?: <(\w+)>)? +(.*)$", help_text, re.M):
        most, choices = re.search(r"\b1 to (\d+)", text), re.search(r"\[possible values: (.*?)\]", text)
        option = Option(name, value, int(most[1]) if most else 0, choices[1].split(", ") if choices else [])
        found[f"--{name}"] = option
        if letter:
            found[f"-{letter}"] = option
    return found


def fault_of_number(option, text):
    """Returns why a text is no number of an option, or an empty text."""
    if not text:
        return "cannot parse integer from empty string"
    if not re.fullmatch(r"[+-]?[0-9]+", text):
        return "invalid digit found in string"
    number = int(text)
    if abs(number) >= 2**63:
        return f"number too {'large' if number > 0 else 'small'} to fit in target type"
    return "" if 1 <= number <= option.most else f"{number} is not in 1..={option.most}"


def check_value(option, text):
    """Refuses a value that its option doesn't take."""
    if option.choices and text not in option.choices:
        raise BadWords(f"error: invalid value '{text}' for '{option.shown}'{option.told_choices}{HINT}")
    fault = option.most and fault_of_number(option, text)
    if fault:
        raise BadWords(f"error: invalid value '{text}' for '{option.shown}': {fault}{HINT}")


def fault_of_seconds(given):
    """Returns the name of the first option that has no number of seconds, or an empty text."""
    for name in ("at", "step"):
        text = given.get(name)
        if text is not None and (not SECONDS.fullmatch(text) or name == "step" and NONE.fullmatch(text)):
            return name
    return ""


def is_value(option, word):
    """Whether a word may be the value of an option before it."""
    is_negative = option.value == "SECONDS" and NEGATIVE.fullmatch(word)
    return not word.startswith("-") or word == "-" or bool(is_negative)


class Reading:
    """A command line that is read from its first word to its last."""

    def __init__(self, name, help_text, version):
        self.name, self.help_text, self.version = name, help_text, version
        self.usage = re.search(r"^Usage: (.*)", help_text, re.M)[1]
        self.options, self.files = options_in(help_text), self.usage.count("[FILE]")
        self.given = {}

    def refuse(self, fault, usage=""):
        raise BadWords(f"error: {fault}" + (f"\n\nUsage: {usage}" if usage else "") + HINT)

    def read_file(self, word):
        if not self.files:
            self.refuse(f"unexpected argument '{word}' found", self.usage)
        self.files -= 1

    def named(self, word):
        """Returns the option that a word names, as it names it, with its `=` and what is after that."""
        key, sign, value = word.partition("=") if word.startswith("--") else (word[:2], "", "")
        if key not in self.options:
            tip = f"\n\n  tip: to pass '{key}' as a value, use '-- {key}'" if self.files else ""
            self.refuse(f"unexpected argument '{key}' found{tip}", self.usage)
        return self.options[key], key, sign, value

    def value_for(self, option, left):
        """Takes the value of an option from the words that are left."""
        if left and is_value(option, left[0]):
            return left.pop(0)
        if left and left[0] != "--":
            self.named(left[0])
        self.refuse_none(option)

    def refuse_none(self, option):
        """Refuses an option without a value; what a program checks late has no choices yet."""
        choices = "" if self.is_late(option) else option.told_choices
        self.refuse(f"a value is required for '{option.shown}' but none was supplied{choices}")

    def is_late(self, option):
        return (self.name, option.name) in LATE

    def check_conflicts(self):
        """Refuses an option that is given with one that it excludes."""
        for (name, given), excluded in CONFLICTS.items():
            if name == self.name and given in self.given and any(it in self.given for it in excluded):
                shown = [f"'{self.options[f'--{it}'].shown}'" for it in excluded]
                self.refuse(f"the argument '--{given}' cannot be used with {' or '.join(shown)}", self.usage)

    def read_option(self, word, left):
        """Reads an option, and its value from the words that are left; returns what is shown in place of a run."""
        option, key, sign, value = self.named(word)
        if sign and not option.value:
            fault = f"unexpected value '{value}' for '{key}' found; no more were expected"
            self.refuse(fault, f"{self.name} {key}" + (" [FILE]" if "[FILE]" in self.usage else ""))
        if option.name in ("help", "version"):
            return self.help_text if option.name == "help" else self.version
        if option.value and not sign:
            value = self.value_for(option, left)
        if option.name in self.given:
            self.refuse(f"the argument '{option.shown}' cannot be used multiple times", self.usage)
        if not self.is_late(option):
            if option.choices and not value:
                self.refuse_none(option)
            check_value(option, value)
        self.given[option.name] = value
        return ""

    def read(self, words):
        """Reads the words; returns what is shown in place of a run."""
        left, trailing = [*words], False
        while left:
            word = left.pop(0)
            if trailing or not word.startswith("-") or word == "-":
                self.read_file(word)
            elif word == "--":
                trailing = True
            else:
                shown = self.read_option(word, left)
                if shown:
                    return shown
        for name, value in self.given.items():
            check_value(self.options[f"--{name}"], value)
        self.check_conflicts()
        bad = fault_of_seconds(self.given)
        if bad:
            self.refuse(BAD_SECONDS.format(bad))
        if not NUMBERED.match(self.given.get("output", "%01d")):
            self.refuse(BAD_OUTPUT)
        return ""


def answer(name, words):
    """Returns what a program answers to words: its status, what it writes and what it tells; None to words to run."""
    stored = [(ROOT / "crates" / name / "data" / it).read_text() for it in ("help", "version")]
    try:
        shown = Reading(name, *stored).read(words)
    except BadWords as bad:
        return 2, "", str(bad)
    return (0, shown, "") if shown else None


def main(words):
    found = answer(words[0], words[1:]) if words else sys.exit(__doc__)
    if not found:
        return TO_RUN
    status, shown, told = found
    sys.stdout.write(shown)
    sys.stderr.write(told)
    return status


if __name__ == "__main__":
    sys.exit(main(sys.argv[1:]))
