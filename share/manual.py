#!/usr/bin/env python3
"""Writes a page of the manual from Markdown on standard input:

    share/manual.py NAME VERSION SUMMARY <PAGE.md >NAME.1

It knows headings, paragraphs, tables, indented and fenced code, links, and words that are code, bold or slanted."""
import re
import sys

BLOCK = re.compile(r"^```\n(?P<fenced>(?s:.*?))^```$|(?P<indented>(?:^    .*\n|\n(?=    ))+)|^(?P<heading>#+) (?P<title>.*)$|"
                   r"(?P<table>(?:^\|.*\n)+)|(?P<paragraph>(?:^.+\n)+)", re.MULTILINE)
# How words are set, but for code.
SET = ((re.compile(r"\*\*([^*]+)\*\*"), r"\\fB\1\\fR"), (re.compile(r"\*([^*]+)\*"), r"\\fI\1\\fR"))
LINK = re.compile(r"!?\[([^]]*)\]\([^)]*\)")


def plain(text):
    """A line that is no request, and whose hyphens are those of options."""
    text = text.replace("\\", "\\e").replace("-", "\\-")
    return "\\&" + text if text.startswith((".", "'")) else text


def words(text):
    made = ""
    for number, part in enumerate(LINK.sub(r"\1", text).split("`")):
        part = plain(part)
        for pattern, instead in SET if number % 2 == 0 else ():
            part = pattern.sub(instead, part)
        made += f"\\fB{part}\\fR" if number % 2 else part
    return made


def code(text):
    return [".PP", ".RS 4", ".nf", *map(plain, text.strip("\n").split("\n")), ".fi", ".RE"]


def table(text):
    """Each row is an entry: its first cell, and below that the others, all but one with their titles."""
    [_, *titles], _, *rows = ([cell.strip() for cell in line.strip("|").split("|")] for line in text.splitlines())
    for first, second, *others in rows:
        yield from (".TP", words(first), words(second))
        for title, cell in zip(titles[1:], others):
            yield from (".IP", words(f"*{title}:* {cell}"))


def requests(text):
    for found in BLOCK.finditer(text):
        if found["fenced"] or found["indented"]:
            yield from code(found["fenced"] or re.sub("^    ", "", found["indented"], flags=re.MULTILINE))
        elif found["heading"]:
            # The title of the page stands in its first line.
            yield {"#": ".SH DESCRIPTION", "##": f".SH {words(found['title'].upper())}"}.get(
                found["heading"], f".SS {words(found['title'])}")
        elif found["table"]:
            yield from table(found["table"])
        else:
            yield from (".PP", words(" ".join(found["paragraph"].split())))


def main(name, version, summary):
    print(f'.TH {plain(name.upper())} 1 "" "spbags {version}"', ".SH NAME", rf"{plain(name)} \- {summary}",
          *requests(sys.stdin.read()), sep="\n")


main(*sys.argv[1:])
