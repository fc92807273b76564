"""Writes the books of the benchmarks into a folder. The same books come out each time.

    generate.py FOLDER              the books of bench/outline.sh
        text.book  16,000,000 bytes, most of it text: chapters, pages and paragraphs of a few lines
        tags.book   1,000,000 bytes, most of it tags, of ten names
        names.book  like tags.book, with 1,000 different names
    generate.py FOLDER finder       the books of bench/finder, and beside each NAME.book its patterns as NAME.patterns
        text-MB-NAMES.book  as text.book, with so many million bytes and names
        tags-MB-NAMES.book  as tags.book; where there would be too many elements, with longer names
"""
import random
import re
import sys
from pathlib import Path

WORDS = (
    "A AND AS AT BE BUT BY CAN DAY FOR FROM GO HAD HAS HE HER HIS HOW I IF IN IS IT LONG MADE MANY MAY MORE NO NOT NOW OF ON "
    "ONE OR OUT PART SHE SO SOME THAN THAT THE THEIR THEM THEN THERE THESE THEY THIS TIME TO TWO UP WAS WATER WAY WE WERE WHAT "
    "WHEN WHICH WHO WILL WITH WORD WOULD WRITE YEAR YOU YOUR GARDEN BROOK LETTER READING TEACHER ISLAND SENTENCE MOUNTAIN "
    "QUESTION BEAUTIFUL GOVERNMENT TEMPERATURE MULTIPLICATION"
).split()


class Writer:
    """A book text under construction."""

    def __init__(self):
        self.parts = []
        self.length = 0
        # only random() is sure to give the same numbers in every version of Python
        self.random = random.Random(1).random

    def below(self, n):
        return int(self.random() * n)

    def put(self, part):
        self.parts.append(part)
        self.length += len(part)

    def save(self, path):
        path.write_bytes("".join(self.parts).encode("ascii"))


def line(w):
    """A line of 30 to 200 bytes of text."""
    most = 30 + w.below(171)
    words = []
    length = -1
    while True:
        word = WORDS[w.below(len(WORDS))]
        if length + 1 + len(word) > most:
            break
        words.append(word)
        length += 1 + len(word)
    text = " ".join(words)
    return text + "4" * max(1, 30 - len(text)) if len(text) < most else text


def lines(w, count):
    return "\n".join(line(w) for _ in range(count))


def same(name):
    return name


def text_book(size, name_of=same):
    """Chapters, pages and paragraphs; name_of gives a name for a note, an item or a paragraph, which may differ each time."""
    w = Writer()
    w.put("<book>\n<title>A LONG READER</title>\n")
    page = 0
    while w.length < size - 40_000:
        w.put("<chapter>\n<title>" + line(w) + "</title>\n")
        for _ in range(8 + w.below(9)):
            page += 1
            w.put(f"<page><num>{page}</num>\n")
            for _ in range(4 + w.below(5)):
                kind = w.below(12)
                if kind == 0:
                    w.put("<blank/>\n")
                elif kind == 1:
                    note = name_of("note")
                    w.put(f"<{note}>" + lines(w, 1) + f"</{note}>\n")
                elif kind == 2:
                    w.put("<list>\n")
                    for _ in range(2 + w.below(3)):
                        item = name_of("item")
                        w.put(f"<{item}>" + lines(w, 1 + w.below(2)) + f"</{item}>\n")
                    w.put("</list>\n")
                else:
                    par = name_of("par")
                    w.put(f"<{par}>" + lines(w, 3 + w.below(4)) + f"</{par}>\n")
            w.put("</page>\n")
        w.put("</chapter>\n")
    tail = "</par>\n</book>\n"
    w.put("<par>")
    while w.length < size - len(tail) - 231:
        w.put(line(w) + "\n")
    w.put("4" * (size - len(tail) - w.length) + tail)
    return w


TEN = ["book", "part", "unit", "page", "list", "item", "line", "word", "num", "gap"]


def tags_book(size, name_of):
    """A tree of eight levels with little text in it; name_of gives a name for the kind of an element, by its number in TEN."""
    w = Writer()

    def element(kind):
        name = name_of(kind)
        if kind == 9:
            w.put(f"<{name}/>")
        elif kind >= 7:
            w.put(f"<{name}>{w.below(900_000) + 100_000}</{name}>")
        else:
            w.put(f"<{name}>")
            for _ in range(1 + w.below(4)):
                # mostly the next kind; now and then one of the smallest
                element(kind + 1 if w.below(4) else 7 + w.below(3))
            w.put(f"</{name}>")

    top = name_of(0)
    tail = f"</{top}>\n"
    w.put(f"<{top}>")
    while w.length < size - 20_000:
        element(1)
    while w.length < size - len(tail) - 50:
        element(7)
    w.put("4" * (size - len(tail) - w.length) + tail)
    return w


def ten_names(kind):
    return TEN[kind]


def thousand_names():
    """One name for the top element, and 111 in turn for each of the nine other kinds."""
    turns = [0] * 10

    def name_of(kind):
        turns[kind] = (turns[kind] + 1) % 111
        return f"{'abcdefghij'[kind]}{turns[kind]:03}"

    return name_of


TEXT_PATTERNS = """
//chapter/title
/book/chapter/page/num
//chapter//note
//page[num]/note
//page[note]/par
//page/list/item
//chapter[title]/page[num]/list/item
//chapter[.//note]/page/blank
//page[list/item]/par
//page[note][list]/blank
/book//list[item]/item
//chapter/page[num][.//item]/par
""".split()

TAGS_PATTERNS = """
//part/unit
/book/part/unit/page
//part//word
//unit[num]/page
//page[gap]/list/item
//list[item][num]/gap
//unit//item[num]/line
//line[word]/num
//book//page[word]//line/gap
//part[gap]/unit//line
//item[line/word]/line/num
//part/unit[word]//list[num]/item//gap
""".split()


def padded(name):
    """A name of 28 bytes."""
    return name + "-" + "x" * (27 - len(name))


def finder_books(folder):
    def save(name, w, patterns):
        w.save(folder / f"{name}.book")
        (folder / f"{name}.patterns").write_text("\n".join(patterns) + "\n")

    for size in 1, 4, 16:
        for names in 10, 1024:
            of = same if names == 10 else counted_names(names, ["note", "item", "par"])
            save(f"text-{size}-{names}", text_book(size * 1_000_000, of), TEXT_PATTERNS)
    for size, of in (1, same), (4, padded):
        for names in 10, 1024:
            kinds = counted_names(names, TEN[1:]) if names > 10 else same
            patterns = TAGS_PATTERNS if of is same else [re.sub("[a-z]+", lambda m: padded(m[0]), p) for p in TAGS_PATTERNS]
            save(f"tags-{size}-{names}", tags_book(size * 1_000_000, lambda kind: of(kinds(TEN[kind]))), patterns)


def counted_names(most, kinds):
    """Names by their kind: half of the time the kind itself, and otherwise in turn one of those that make up `most` with the ten kinds."""
    turns = dict.fromkeys(kinds, 0)
    each, rest = divmod(most - 10, len(kinds))
    others = {kind: each + (k < rest) for k, kind in enumerate(kinds)}

    def name_of(kind):
        if kind not in turns:
            return kind
        turns[kind] += 1
        return kind if turns[kind] % 2 else f"{kind}{turns[kind] // 2 % others[kind]:03}"

    return name_of


def main():
    folder = Path(sys.argv[1])
    if sys.argv[2:] == ["finder"]:
        finder_books(folder)
        return
    text_book(16_000_000).save(folder / "text.book")
    tags_book(1_000_000, ten_names).save(folder / "tags.book")
    tags_book(1_000_000, thousand_names()).save(folder / "names.book")


main()
