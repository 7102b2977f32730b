"""What a traced program says of its run: a line for each record, `NAME [WORD ..]: TEXT`, in the pipe that SPBAGS_SAYS
names. spbags-run goes by the names and the words; the text is for people. In a text `<code 0x..>` stands for the line
of the source that has this code.

    fault                 there is no answer, and the text says why
    fault closed          the same, since nobody read the trace any more
    end signal NUMBER     the run was cut short, and what came before is there: by a signal,
    end limit BYTES       by the limit of the trace's size,
    end exec              by another program in place of this one,
    end daemon            or since the program became a daemon
    unit BYTES            accesses don't fill their units, and this unit tells neighbours apart
    depth NUMBER          procedures nest deeper than `spbags` takes by default
    course RECORDS DIGEST GUARDS
                          what the run did, and what it held, without a text: another run with these did the same
    ran SPAWNS ACCESSES   what the detector inside has taken, without a text
    stuck CODE ..         the program may wait for ever, and the stack; it doesn't wait for the report
    unseen CALLS LIBRARY  a function of which nothing is known, whose name is the text
    incomplete            something wasn't seen or modelled
    waits                 the same, but another run may model it, by the file that SPBAGS_WAITED names
    others CONSTRUCT      the same, by SPBAGS_OTHERS, which has these with commas between
    seeming               some of the races may be none
    note                  what the report doesn't say
"""
from __future__ import annotations

TYPE_CHECKING = False
if TYPE_CHECKING:
    from collections.abc import Iterable


class Record:
    def __init__(self, name: str, words: list[str], text: str) -> None:
        self.name, self.words, self.text = name, words, text


def record_of(line: str) -> Record:
    head, _, text = line.partition(": ")
    name, *words = head.removesuffix(":").split(" ")
    return Record(name, words, text)


def texts_of(records: Iterable[Record], name: str) -> list[str]:
    return [record.text for record in records if record.name == name]


def with_lines(program: str, texts: list[str]) -> list[str]:
    """The texts with lines of the source in place of codes, each once."""
    if any("<code " in text for text in texts):
        from report import source_lines

        texts = source_lines.with_lines(program, texts)
    return list(dict.fromkeys(texts))
