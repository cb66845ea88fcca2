#!/usr/bin/env python3
"""Compares the commands and options of the program with those of its man page and its completions.

    words.py              the program's words are those of crates/avro_tool/src/grammar.rt
    words.py PROGRAM      also those of the usage texts of a program that was built
    words.py --codes      prints the section CODES of the man page, made from docs/COMMANDS.md

Each command's arguments, and its options in their order, are to be the same in the man page's synopsis; its options in
the man page's sections, and its options and the commands in the completions. What a command does is to have the same
words in the program's help, the man page and the completions. The bash completion is run, the other two are read. The codes in the man page
are to be those of docs/COMMANDS.md. Each difference has a line, and the last line is 'N commands, M options, L codes, K
differences'.
"""

import os
import re
import subprocess
import sys

ROOT = os.path.join(os.path.dirname(os.path.abspath(__file__)), "..")
GRAMMAR = "crates/avro_tool/src/grammar.rt"
MAN = "man/avro.1"
COMMANDS = "docs/COMMANDS.md"
BASH, ZSH, FISH = (f"completions/avro.{shell}" for shell in ("bash", "zsh", "fish"))
# The words that the parser of command lines adds.
HELP = "help"
# What stands for the program without a command.
NONE = ""

CONSTANT = re.compile(r"^(?:const|static) (\w+): [^=]*=\s(.*?);$", re.MULTILINE | re.DOTALL)
# An argument or a command where it is written, or the name of the constant that has it.
TAKES = r'Takes::(\w+)(?:\(\s*"([^"]*)"(?:,\s*Choice::\w+(?:\([^()]*\))?)?,?\s*\))?'
ARGUMENT = re.compile(rf'\(\s*"([\w-]+)",\s*{TAKES},\s*"[^"]*",?\s*\)|\b([A-Z_]+)\b')
COMMAND = re.compile(r'\(\s*"(\w+)",\s*"([^"]*)",\s*&(\w+),?\s*\)|\b([A-Z_]+)\b')


def text_of(path):
    with open(os.path.join(ROOT, path), encoding="utf-8") as file:
        return file.read()


class Usage:
    """The arguments of a command, and its options with their values, in order."""

    def __init__(self, arguments=(), options=()):
        self.arguments, self.options = list(arguments), list(options)

    def line(self):
        options = [f"[--{name}{' ' + value if value else ''}]" for name, value in self.options]
        return " ".join([*self.arguments, *options])

    def names(self):
        return sorted(name for name, _ in self.options)


class Source:
    """The grammar of the program's source: constants of arguments, and of commands."""

    def __init__(self, text):
        self.text = text
        self.items = dict(CONSTANT.findall(text))
        known = len(re.findall(r"^(?:const|static) ", text, re.MULTILINE))
        if known != len(self.items):
            sys.exit(f"{GRAMMAR}: {len(self.items)} of {known} constants can be read")

    def usages(self):
        """Each command, by its name."""
        found = {NONE: Usage(options=[("version", None)] if ".version(" in self.text else [])}
        for name, _, arguments in self.commands("COMMANDS"):
            found[name] = self.command(arguments)
        return found

    def deeds(self):
        """What each command does, as the completions have it."""
        return {name: deed[:1].lower() + deed[1:] for name, deed, _ in self.commands("COMMANDS")}

    def commands(self, item):
        """The name of each command of a constant, what it does, and the name of its arguments."""
        for name, deed, arguments, other in COMMAND.findall(self.items[item]):
            yield from self.commands(other) if other else [(name, deed, arguments)]

    def arguments(self, item):
        """Each argument of a constant: its name, what it takes, and the word for that."""
        for name, takes, word, other in ARGUMENT.findall(self.items[item]):
            yield from self.arguments(other) if other else [(name, takes, word)]

    def command(self, item):
        """The arguments in the order in which a command takes them."""
        usage = Usage()
        for name, takes, word in self.arguments(item):
            if takes in ("Word", "Words"):
                usage.arguments.append(f"{word}..." if takes == "Words" else word)
            else:
                usage.options.append((name, word or None))
        return usage


def usages_of_program(program):
    """What the usage texts of a program tell."""

    def usage(*words):
        text = subprocess.run([program, *words, "--help"], capture_output=True, text=True).stderr
        line = re.search(r"^Usage: avro(?: \w+)?(.*)$", text, re.MULTILINE)
        if line is None:
            sys.exit(f"{program}: no text of usage for {' '.join(words) or 'the program'}")
        arguments = [name + dots for name, dots in re.findall(r"<(\w+)>(\.\.\.)?", line[1]) if name != "COMMAND"]
        options = [(name, value or None) for name, value in re.findall(r"^ +(?:-\w, )?--([\w-]+)(?: <(\w+)>)?", text, re.MULTILINE)]
        return Usage(arguments, [it for it in options if it[0] != HELP]), text

    whole, text = usage()
    commands = re.search(r"^Commands:\n((?:  .*\n)+)", text, re.MULTILINE)[1]
    names = [name for name in re.findall(r"^  (\w+)", commands, re.MULTILINE) if name != HELP]
    return {NONE: whole, **{name: usage(name)[0] for name in names}}


def synopsis_of_man(text):
    """The lines of the synopsis, by command."""
    found = {}
    for name, body in re.findall(r'^\.SY "?avro ?(\w*)"?\n(.*?)^\.YS', text, re.MULTILINE | re.DOTALL):
        usage = Usage()
        for macro, rest in re.findall(r"^\.(\w+) (.*)$", body.replace("\\-", "-"), re.MULTILINE):
            if macro == "OP":
                option, *value = rest.split()
                usage.options.append((option.removeprefix("--"), value[0] if value else None))
            else:
                usage.arguments += re.sub(r" \.\.\.", "...", rest).split()
        found[name] = usage
    return found


def sections_of_man(text):
    """The options that each command's section tells of."""
    sections = re.split(r"^\.S[SH] ", text, flags=re.MULTILINE)
    found = {}
    for section in sections:
        name, _, body = section.partition("\n")
        options = re.findall(r"^\.TP\n\.B[I]? --([\w-]+)", body.replace("\\-", "-"), re.MULTILINE)
        if name.islower() or name == "OPTIONS":
            found[NONE if name == "OPTIONS" else name] = sorted(options)
    return found


def completed_by_bash(*words):
    """What the completion of bash answers for a list of words."""
    script = 'source "$0"; COMP_WORDS=(avro "$@"); COMP_CWORD=$#; _avro; printf "%s\\n" "${COMPREPLY[@]}"'
    done = subprocess.run(["bash", "-c", script, os.path.join(ROOT, BASH), *words], capture_output=True, text=True, check=True)
    return done.stdout.split()


def words_of_bash(commands):
    """The commands and options of bash's completion."""
    first = completed_by_bash("")
    options = {name: completed_by_bash(name, "--") for name in commands}
    options[NONE] = [word for word in first if word.startswith("--")]
    return [word for word in first if not word.startswith("--")], stripped(options)


def stripped(options):
    return {name: [word.removeprefix("--") for word in words] for name, words in options.items()}


def words_of_zsh():
    """The commands and options of zsh's completion."""
    text = text_of(ZSH)
    commands = re.findall(r'^        "(\w+):', text, re.MULTILINE)
    options = {name: re.findall(r"'--([\w-]+)\[", body) for name, body in re.findall(r"^        (\w+)\)\n(.*?);;", text, re.MULTILINE | re.DOTALL)}
    options.pop(HELP, None)
    options[NONE] = re.findall(r"--(\w+):", text)
    return commands, options


def words_of_fish():
    """The commands and options of fish's completion."""
    text = text_of(FISH)
    commands = re.findall(r"__fish_use_subcommand -a (\w+)", text)
    every = re.findall(r"^complete -c avro -l (\w+)", text, re.MULTILINE)
    options = {name: list(every) for name in commands if name != HELP}
    options[NONE] = every + re.findall(r"__fish_use_subcommand -l (\w+)", text)
    for name, option in re.findall(r"__fish_seen_subcommand_from (\w+)' -l ([\w-]+)", text):
        options.setdefault(name, []).append(option)
    return commands, options


def deeds_of_man(text):
    """What each command does: the first line of its section, as the completions have it."""
    lines = re.findall(r"^\.SS (\w+)\n(.*)$", text, re.MULTILINE)
    return {name: line[:1].lower() + line[1:].rstrip(".,:;") for name, line in lines if name.islower()}


def deeds_of_completions():
    """The same of the completions of zsh and of fish, without that of `help`."""
    zsh = dict(re.findall(r'^        "(\w+):(.*)"$', text_of(ZSH), re.MULTILINE))
    fish = dict(re.findall(r"__fish_use_subcommand -a (\w+) -d '(.*)'$", text_of(FISH), re.MULTILINE))
    return [{name: deed for name, deed in deeds.items() if name != HELP} for deeds in (zsh, fish)]


def tables_of_codes(text):
    """Each table whose first column is a code or a fault: its title, what its last column begins with, and its rows."""
    for title, body in re.findall(r"^## (.*)\n((?:(?!## ).*\n)*)", text, re.MULTILINE):
        head = re.search(r"^\| (?:Code|Fault) \| (.*) \|$", body, re.MULTILINE)
        if head:
            yield title, head[1], re.findall(r"^\| `?([A-Z]\w*(?: N)?)`? \| (.*) \|$", body[head.end() :], re.MULTILINE)


def section_of_codes(text):
    """The section CODES of the man page, for the tables of docs/COMMANDS.md."""
    lines = [".SH CODES"]
    for title, head, rows in tables_of_codes(text):
        lines += [f".SS {title}", f"{head}:"]
        for code, words in rows:
            lines += [".TP", f".B {code}", re.sub(r"`([^`]*)`", r"\\fB\1\\fR", words).replace("-", "\\-")]
    return "\n".join(lines) + "\n"


def codes_of(section):
    """The words for each code of a section CODES."""
    return dict(re.findall(r"^\.TP\n\.B (.*)\n(.*)$", section, re.MULTILINE))


def compare_codes(man):
    """Compares the man page's section with the one that is made from docs/COMMANDS.md."""
    made = section_of_codes(text_of(COMMANDS))
    found = re.search(r"^\.SH CODES\n(?:(?!\.SH ).*\n)*", man, re.MULTILINE)
    section = found[0] if found else ""
    wanted, differences = codes_of(made), 0
    for code, words in {**codes_of(section), **wanted}.items():
        one, other = wanted.get(code, "nothing"), codes_of(section).get(code, "nothing")
        if one != other:
            differences += 1
            print(f"{MAN}: {code}: {other}, and {COMMANDS} has {one}")
    if differences == 0 and section != made:
        differences = 1
        print(f"{MAN}: the section CODES is not what --codes prints")
    return len(wanted), differences


def compare(what, wanted, found, of="the program"):
    """Tells each key whose value differs, and answers how many there are."""
    differences = 0
    for name in [*wanted, *(it for it in found if it not in wanted)]:
        one, other = wanted.get(name, "nothing"), found.get(name, "nothing")
        if one != other:
            differences += 1
            print(f"{what}: avro {name}: {other}, and {of} has {one}")
    return differences


def compare_completion(what, usages, commands, options):
    wanted = sorted([name for name in usages if name != NONE] + [HELP])
    differences = compare(what, {"COMMAND": wanted}, {"COMMAND": sorted(commands)})
    with_help = {name: sorted([*usage.names(), HELP]) for name, usage in usages.items()}
    return differences + compare(what, with_help, {name: sorted(words) for name, words in options.items()})


def main(words):
    if words == ["--codes"]:
        print(section_of_codes(text_of(COMMANDS)), end="")
        return 0
    if len(words) > 1 or any(word.startswith("-") for word in words):
        sys.exit(__doc__)
    source = Source(text_of(GRAMMAR))
    usages = source.usages()
    lines = {name: usage.line() for name, usage in usages.items()}
    man = text_of(MAN)
    differences = compare(MAN, lines, {name: usage.line() for name, usage in synopsis_of_man(man).items()})
    told = {name: usage.names() if name else sorted([*usage.names(), HELP]) for name, usage in usages.items()}
    differences += compare(MAN, told, sections_of_man(man))
    differences += compare_completion(BASH, usages, *words_of_bash([name for name in usages if name != NONE]))
    differences += compare_completion(ZSH, usages, *words_of_zsh())
    differences += compare_completion(FISH, usages, *words_of_fish())
    differences += compare(MAN, source.deeds(), deeds_of_man(man))
    for shell, deeds in zip((ZSH, FISH), deeds_of_completions()):
        differences += compare(shell, source.deeds(), deeds)
    codes, wrong = compare_codes(man)
    differences += wrong
    if words:
        printed = usages_of_program(os.path.abspath(words[0]))
        differences += compare(words[0], lines, {name: usage.line() for name, usage in printed.items()})
    options = sum(len(usage.options) for usage in usages.values())
    print(f"{len(usages) - 1} commands, {options} options, {codes} codes, {differences} differences")
    return 1 if differences else 0


if __name__ == "__main__":
    sys.exit(main(sys.argv[1:]))
