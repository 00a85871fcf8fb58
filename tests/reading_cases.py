#!/usr/bin/env python3
"""The cases of the program test_reading: declarations read by the book of the names EMPTY, a, b, c and d, with what is
due of each.

The reader and the writer here are written from paper 01 and from requests U1 and U5 of paper 02 alone. Without an
argument the script writes crates/test_reading/stdin and stdout; with --check it says whether they are as written here.
The program takes a text as a line. A line feed in a text is the byte 1F in its line, in both files, so no text here has
a byte 1F of its own. First come two lines of texts that the program has itself, with books that are refused: one is
cut short (2), and one has a name that no block uses (17). A line of output has the refusal's number, the parent's
number, the count of factors and the text byte of the record; then, behind bars, the factor of each of the five names
and the mode of each of the first five factors; and the text between `[` and `]`:

  0 4 1 1 | 255 0 0 255 255 | 3 0 0 0 0 [<!ELEMENT d (#PCDATA|b|a)*>]
"""
import pathlib
import random
import re
import sys
from collections import namedtuple

FOLDER = pathlib.Path(__file__).resolve().parent.parent / "crates" / "test_reading"
NAMES = [b"EMPTY", b"a", b"b", b"c", b"d"]
MARKS = [b"", b"?", b"+", b"*"]
NONE = 255
PLACES = 64
FEED = b"\x1f"

# What the reader answers: the refusal's number, the parent, and the count, text byte and rows of the record.
Answer = namedtuple("Answer", "number parent count text factor mode")

# The grammar of requests U1 and U5. A name is the longest run of its bytes, so one of 33 bytes is no name.
WHITE = " \t\r\n"
S = f"[{WHITE}]"
NAME = r"[A-Za-z_][A-Za-z0-9._-]{0,31}(?![A-Za-z0-9._-])"
MARK = r"[?+*]?"
GROUP = rf"\({S}*{NAME}(?:{S}*\|{S}*{NAME})*{S}*\)"
FACTOR = rf"(?:{NAME}|{GROUP}){MARK}"
FACTORS = rf"\({S}*{FACTOR}(?:{S}*,{S}*{FACTOR})*{S}*\)"
MIXED = rf"\({S}*#PCDATA(?:{S}*\)\*?|(?:{S}*\|{S}*{NAME})+{S}*\)\*)"
CONTENT = rf"(?:EMPTY|(?P<mixed>{MIXED})|(?P<group>{GROUP}{MARK})|(?P<factors>{FACTORS}))"
TEXT = re.compile(rf"<!ELEMENT{S}+(?P<parent>{NAME}){S}+{CONTENT}{S}*>".encode())


def factors_of(text):
    """The parent, the text byte, and each factor as names and mark, or None where the text has not the form."""
    form = TEXT.fullmatch(text)
    if form is None:
        return None
    if form["mixed"]:
        names = re.findall(NAME.encode(), form["mixed"].replace(b"#PCDATA", b""))
        return form["parent"], 1, [(names, b"*")] if names else []
    if form["group"]:
        parts = [form["group"]]
    else:
        parts = form["factors"][1:-1].split(b",") if form["factors"] else []
    # no name has a byte of a mark, and a factor has no other mark than its own
    factors = [(re.findall(NAME.encode(), part), b"".join(re.findall(rb"[?+*]", part))) for part in parts]
    return form["parent"], 0, factors


def refused(number):
    """A refusal, with parent 0 and the empty model."""
    return Answer(number, 0, 0, 0, [NONE] * PLACES, [0] * PLACES)


def read(text):
    form = factors_of(text)
    if form is None:
        return refused(13)
    parent, has_text, factors = form
    names = [x for group, _ in factors for x in group]
    if any(x not in NAMES for x in [parent] + names):
        return refused(14)
    if len(set(names)) < len(names):
        return refused(15)
    factor, mode = [NONE] * PLACES, [0] * PLACES
    for i, (group, mark) in enumerate(factors):
        for x in group:
            factor[NAMES.index(x)] = i
        mode[i] = MARKS.index(mark)
    return Answer(0, NAMES.index(parent), len(factors), has_text, factor, mode)


def house(answer):
    """The house spelling of the parent and the record of an answer that is no refusal."""
    groups = [[NAMES[x] for x in range(len(NAMES)) if answer.factor[x] == i] for i in range(answer.count)]
    if answer.text:
        model = b"(" + b"|".join([b"#PCDATA"] + sum(groups, [])) + (b")*" if groups else b")")
    else:
        factors = [(names[0] if len(names) == 1 else b"(" + b"|".join(names) + b")") + MARKS[answer.mode[i]]
                   for i, names in enumerate(groups)]
        model = b"(" + b",".join(factors) + b")" if factors else b"EMPTY"
    return b"<!ELEMENT " + NAMES[answer.parent] + b" " + model + b">"


def line(text, answer):
    rows = [" ".join(str(v) for v in row[:len(NAMES)]) for row in (answer.factor, answer.mode)]
    head = f"{answer.number} {answer.parent} {answer.count} {answer.text} | {rows[0]} | {rows[1]} "
    return head.encode() + b"[" + text.replace(b"\n", FEED) + b"]\n"


# The forms of requests U1 and U5, each text with its house spelling. tests/xmllint_check.py gives these to libxml2.
FORMS = [
    # one group of one or more names as the whole model
    (b"<!ELEMENT d (a)>", b"<!ELEMENT d (a)>"),
    (b"<!ELEMENT d (a)?>", b"<!ELEMENT d (a?)>"),
    (b"<!ELEMENT d (a)+>", b"<!ELEMENT d (a+)>"),
    (b"<!ELEMENT d (a)*>", b"<!ELEMENT d (a*)>"),
    (b"<!ELEMENT d (a )*>", b"<!ELEMENT d (a*)>"),
    (b"<!ELEMENT d ( a)? >", b"<!ELEMENT d (a?)>"),
    (b"<!ELEMENT d (a|b)>", b"<!ELEMENT d ((a|b))>"),
    (b"<!ELEMENT d (a|b)?>", b"<!ELEMENT d ((a|b)?)>"),
    (b"<!ELEMENT d (a|b)+>", b"<!ELEMENT d ((a|b)+)>"),
    (b"<!ELEMENT d (a|b)*>", b"<!ELEMENT d ((a|b)*)>"),
    (b"<!ELEMENT d (c|a|b)>", b"<!ELEMENT d ((a|b|c))>"),
    (b"<!ELEMENT d (c|a|b)*>", b"<!ELEMENT d ((a|b|c)*)>"),
    (b"<!ELEMENT d ( a\n|\tb )+>", b"<!ELEMENT d ((a|b)+)>"),
    (b"<!ELEMENT d\n(\r\n\tb |\r\n\ta\r\n)?\r\n>", b"<!ELEMENT d ((a|b)?)>"),
    # a factor of one name in its own brackets
    (b"<!ELEMENT d ((a))>", b"<!ELEMENT d (a)>"),
    (b"<!ELEMENT d ( (a) )>", b"<!ELEMENT d (a)>"),
    (b"<!ELEMENT d ((a)?)>", b"<!ELEMENT d (a?)>"),
    (b"<!ELEMENT d ((a)+)>", b"<!ELEMENT d (a+)>"),
    (b"<!ELEMENT d ((a)*)>", b"<!ELEMENT d (a*)>"),
    (b"<!ELEMENT d ((a),b)>", b"<!ELEMENT d (a,b)>"),
    (b"<!ELEMENT d ((a)?,b)>", b"<!ELEMENT d (a?,b)>"),
    (b"<!ELEMENT d (b,(a)+)>", b"<!ELEMENT d (b,a+)>"),
    (b"<!ELEMENT d ((c),(a)*,(b)?)>", b"<!ELEMENT d (c,a*,b?)>"),
    (b"<!ELEMENT d ((c)+,(b|a)*)>", b"<!ELEMENT d (c+,(a|b)*)>"),
    (b"<!ELEMENT d (\t( a\r)? ,\n( b\n)\n)>", b"<!ELEMENT d (a?,b)>"),
    # a group inside the model's brackets, as before
    (b"<!ELEMENT d ((a|b))>", b"<!ELEMENT d ((a|b))>"),
    (b"<!ELEMENT d ((a|b)*)>", b"<!ELEMENT d ((a|b)*)>"),
    (b"<!ELEMENT d ( (b|a)+ )>", b"<!ELEMENT d ((a|b)+)>"),
    (b"<!ELEMENT d (\n\t(b|a)*,\n\tc?\n)>", b"<!ELEMENT d ((a|b)*,c?)>"),
    # white space of each kind, and in each place where it may stand
    (b"<!ELEMENT d EMPTY\n>", b"<!ELEMENT d EMPTY>"),
    (b"<!ELEMENT\td\tEMPTY\t>", b"<!ELEMENT d EMPTY>"),
    (b"<!ELEMENT\rd\rEMPTY\r>", b"<!ELEMENT d EMPTY>"),
    (b"<!ELEMENT\nd\nEMPTY\n>", b"<!ELEMENT d EMPTY>"),
    (b"<!ELEMENT \t\r\n d \t\r\n EMPTY \t\r\n >", b"<!ELEMENT d EMPTY>"),
    (b"<!ELEMENT\td\t(\ta?\t,\t(\tb\t|\tc\t)*\t)\t>", b"<!ELEMENT d (a?,(b|c)*)>"),
    (b"<!ELEMENT\rd\r(\ra?\r,\r(\rb\r|\rc\r)*\r)\r>", b"<!ELEMENT d (a?,(b|c)*)>"),
    (b"<!ELEMENT\nd\n(\na?\n,\n(\nb\n|\nc\n)*\n)\n>", b"<!ELEMENT d (a?,(b|c)*)>"),
    (b"<!ELEMENT\r\nd\r\n(\r\na?\r\n,\r\n(\r\nb\r\n|\r\nc\r\n)*\r\n)\r\n>", b"<!ELEMENT d (a?,(b|c)*)>"),
    (b"<!ELEMENT d\t(a,\n\t\tb+)>", b"<!ELEMENT d (a,b+)>"),
    # text alone
    (b"<!ELEMENT d (#PCDATA)>", b"<!ELEMENT d (#PCDATA)>"),
    (b"<!ELEMENT d (#PCDATA)*>", b"<!ELEMENT d (#PCDATA)>"),
    (b"<!ELEMENT d ( #PCDATA )>", b"<!ELEMENT d (#PCDATA)>"),
    (b"<!ELEMENT\td\n(\r#PCDATA\t)*\n>", b"<!ELEMENT d (#PCDATA)>"),
    # text and names, in any order
    (b"<!ELEMENT d (#PCDATA|a)*>", b"<!ELEMENT d (#PCDATA|a)*>"),
    (b"<!ELEMENT d (#PCDATA|a|b)*>", b"<!ELEMENT d (#PCDATA|a|b)*>"),
    (b"<!ELEMENT d (#PCDATA|b|a)*>", b"<!ELEMENT d (#PCDATA|a|b)*>"),
    (b"<!ELEMENT d (#PCDATA|c|a|b)*>", b"<!ELEMENT d (#PCDATA|a|b|c)*>"),
    (b"<!ELEMENT d ( #PCDATA | a )* >", b"<!ELEMENT d (#PCDATA|a)*>"),
    (b"<!ELEMENT\nd\t(\r\n#PCDATA\n|\tc\r|\na\t)*\r\n>", b"<!ELEMENT d (#PCDATA|a|c)*>"),
]

# Other texts that are read, each with its house spelling: each mode, the parent's own name, names of a group in any
# order, EMPTY as a name.
READ = [
    (b"<!ELEMENT a EMPTY>", b"<!ELEMENT a EMPTY>"),
    (b"<!ELEMENT EMPTY EMPTY>", b"<!ELEMENT EMPTY EMPTY>"),
    (b"<!ELEMENT d (EMPTY)>", b"<!ELEMENT d (EMPTY)>"),
    (b"<!ELEMENT d (EMPTY)*>", b"<!ELEMENT d (EMPTY*)>"),
    (b"<!ELEMENT d ((EMPTY))>", b"<!ELEMENT d (EMPTY)>"),
    (b"<!ELEMENT EMPTY\n(a|EMPTY)>", b"<!ELEMENT EMPTY ((EMPTY|a))>"),
    (b"<!ELEMENT a (a)>", b"<!ELEMENT a (a)>"),
    (b"<!ELEMENT a (a)*>", b"<!ELEMENT a (a*)>"),
    (b"<!ELEMENT a ((a),b)>", b"<!ELEMENT a (a,b)>"),
    (b"<!ELEMENT a (b?)>", b"<!ELEMENT a (b?)>"),
    (b"<!ELEMENT a (b+)>", b"<!ELEMENT a (b+)>"),
    (b"<!ELEMENT a (b*)>", b"<!ELEMENT a (b*)>"),
    (b"<!ELEMENT a (d,c,b,a)>", b"<!ELEMENT a (d,c,b,a)>"),
    (b"<!ELEMENT a ((b|c|d)*)>", b"<!ELEMENT a ((b|c|d)*)>"),
    (b"<!ELEMENT a ((d|b|c)*)>", b"<!ELEMENT a ((b|c|d)*)>"),
    (b"<!ELEMENT a (d|EMPTY|a|c|b)+>", b"<!ELEMENT a ((EMPTY|a|b|c|d)+)>"),
    (b"<!ELEMENT a ((c|a)?,EMPTY+,(d|b))>", b"<!ELEMENT a ((a|c)?,EMPTY+,(b|d))>"),
    (b"<!ELEMENT   a   ( ( c | a )? , EMPTY+ , ( d | b ) ) >", b"<!ELEMENT a ((a|c)?,EMPTY+,(b|d))>"),
    (b"<!ELEMENT c (a,b?,(c|EMPTY)+,d*)>", b"<!ELEMENT c (a,b?,(EMPTY|c)+,d*)>"),
    (b"<!ELEMENT EMPTY (#PCDATA)>", b"<!ELEMENT EMPTY (#PCDATA)>"),
    (b"<!ELEMENT a (#PCDATA|a)*>", b"<!ELEMENT a (#PCDATA|a)*>"),
    (b"<!ELEMENT a (#PCDATA|EMPTY)*>", b"<!ELEMENT a (#PCDATA|EMPTY)*>"),
    (b"<!ELEMENT a (#PCDATA|d|EMPTY|a|c|b)*>", b"<!ELEMENT a (#PCDATA|EMPTY|a|b|c|d)*>"),
]

NOT_THE_FORM = [
    b"",
    b"<!ELEMENT",
    b"<!ELEMENT a>",
    b"<!ELEMENT a (b,b",
    b"<!ELEMENT e (1)>",
    b"<!ELEMENT a (" + 33 * b"x" + b")>",
    b"<!ELEMENT a (" + 33 * b"x" + b")*>",
    b"<!ELEMENT a ((" + 33 * b"x" + b"),b)>",
    # a mark behind brackets round a model that is no group, and a second mark
    b"<!ELEMENT d ((a|b))*>",
    b"<!ELEMENT d ((a))?>",
    b"<!ELEMENT d ( (a) )*>",
    b"<!ELEMENT d ((a)*)*>",
    b"<!ELEMENT d (a,b)+>",
    b"<!ELEMENT d ((a),b)+>",
    b"<!ELEMENT d (a?)*>",
    b"<!ELEMENT d (a?)>*",
    b"<!ELEMENT d (a)**>",
    b"<!ELEMENT d (a)?+>",
    b"<!ELEMENT d (a|b)**>",
    b"<!ELEMENT d ((a)??,b)>",
    b"<!ELEMENT d EMPTY*>",
    # white space before a mark
    b"<!ELEMENT d (a) *>",
    b"<!ELEMENT d (a)\t*>",
    b"<!ELEMENT d (a)\r*>",
    b"<!ELEMENT d (a)\n*>",
    b"<!ELEMENT d (a|b) *>",
    b"<!ELEMENT d (a|b)\n+>",
    b"<!ELEMENT d ((a) ?,b)>",
    b"<!ELEMENT d ((a)\n?,b)>",
    b"<!ELEMENT d ((a|b)\t*)>",
    b"<!ELEMENT a (b ?)>",
    b"<!ELEMENT a (b\n?)>",
    # a mark or brackets within a group, and brackets round brackets
    b"<!ELEMENT d ((a?),b)>",
    b"<!ELEMENT d ((a?))>",
    b"<!ELEMENT d (a?|b)>",
    b"<!ELEMENT d (a|b*)>",
    b"<!ELEMENT d ((a|b?)*)>",
    b"<!ELEMENT d ((a)|b)>",
    b"<!ELEMENT d (a|(b))>",
    b"<!ELEMENT d ((a)|(b))*>",
    b"<!ELEMENT d ((a|b)|c)>",
    b"<!ELEMENT d (((a)))>",
    b"<!ELEMENT d (((a|b)))>",
    b"<!ELEMENT d (((a)),b)>",
    b"<!ELEMENT d ((a,b))>",
    b"<!ELEMENT d ((a,b),c)>",
    # commas and bars at one level
    b"<!ELEMENT d (a|b,c)>",
    b"<!ELEMENT d (a,b|c)>",
    b"<!ELEMENT d ((a),b|c)>",
    b"<!ELEMENT d (a|b),c>",
    b"<!ELEMENT d (a)|(b)>",
    b"<!ELEMENT d (a)(b)>",
    b"<!ELEMENT d (a|b)*(c)>",
    # text with another mark, or names without the star
    b"<!ELEMENT d (#PCDATA)+>",
    b"<!ELEMENT d (#PCDATA)?>",
    b"<!ELEMENT d (#PCDATA)**>",
    b"<!ELEMENT d (#PCDATA) *>",
    b"<!ELEMENT d (#PCDATA)\n*>",
    b"<!ELEMENT d (#PCDATA*)>",
    b"<!ELEMENT d (#PCDATA|a)>",
    b"<!ELEMENT d (#PCDATA|a|b)>",
    b"<!ELEMENT d (#PCDATA|a)+>",
    b"<!ELEMENT d (#PCDATA|a)?>",
    b"<!ELEMENT d (#PCDATA|a)**>",
    b"<!ELEMENT d (#PCDATA|a) *>",
    b"<!ELEMENT d (#PCDATA|a*)>",
    # text in another place than the first, in brackets of its own, or twice
    b"<!ELEMENT d #PCDATA>",
    b"<!ELEMENT d #PCDATA*>",
    b"<!ELEMENT d (a|#PCDATA)*>",
    b"<!ELEMENT d (a|#PCDATA|b)*>",
    b"<!ELEMENT d (a,#PCDATA)>",
    b"<!ELEMENT d (#PCDATA,a)>",
    b"<!ELEMENT d (#PCDATA,a)*>",
    b"<!ELEMENT d (#PCDATA|a,b)*>",
    b"<!ELEMENT d (#PCDATA,(a|b)*)>",
    b"<!ELEMENT d (#PCDATA a)*>",
    b"<!ELEMENT d ((#PCDATA))>",
    b"<!ELEMENT d ((#PCDATA)*)>",
    b"<!ELEMENT d ((#PCDATA))*>",
    b"<!ELEMENT d ((#PCDATA|a)*)>",
    b"<!ELEMENT d ((#PCDATA)|a)*>",
    b"<!ELEMENT d ((#PCDATA),a)>",
    b"<!ELEMENT d (#PCDATA|(a))*>",
    b"<!ELEMENT d (#PCDATA|(a|b))*>",
    b"<!ELEMENT d (#PCDATA|a?)*>",
    b"<!ELEMENT d (#PCDATA?|a)*>",
    b"<!ELEMENT d (#PCDATA|#PCDATA)*>",
    b"<!ELEMENT d (#PCDATA#PCDATA)>",
    b"<!ELEMENT d (#PCDATA)(a)>",
    b"<!ELEMENT d (#PCDATA)|a>",
    b"<!ELEMENT #PCDATA EMPTY>",
    b"<!ELEMENT #PCDATA (a)>",
    # not the keyword
    b"<!ELEMENT d (#PCDATAx)>",
    b"<!ELEMENT d (#PCDATA-)>",
    b"<!ELEMENT d (#PCDATAx|a)*>",
    b"<!ELEMENT d (#PCDAT)>",
    b"<!ELEMENT d (#pcdata)>",
    b"<!ELEMENT d (#Pcdata|a)*>",
    b"<!ELEMENT d (# PCDATA)>",
    b"<!ELEMENT d (#\nPCDATA|a)*>",
    b"<!ELEMENT d (#PC DATA)>",
    b"<!ELEMENT d (##PCDATA)>",
    b"<!ELEMENT d (a#PCDATA)>",
    b"<!ELEMENT d (#)>",
    b"<!ELEMENT d (#a)>",
    b"<!ELEMENT d (#EMPTY)>",
    b"<!ELEMENT d (%PCDATA)>",
    # names and bars that are missing or bad behind #PCDATA
    b"<!ELEMENT d (#PCDATA|)*>",
    b"<!ELEMENT d (#PCDATA||a)*>",
    b"<!ELEMENT d (|#PCDATA)*>",
    b"<!ELEMENT d (#PCDATA|a|)*>",
    b"<!ELEMENT d (#PCDATA|1)*>",
    b"<!ELEMENT d (#PCDATA|a b)*>",
    b"<!ELEMENT d (#PCDATA|" + 33 * b"x" + b")*>",
    b"<!ELEMENT d(#PCDATA)>",
    b"<!ELEMENT d (#PCDATA",
    b"<!ELEMENT d (#PCDATA|",
    b"<!ELEMENT d (#PCDATA)",
    b"<!ELEMENT d (#PCDATA)*",
    b"<!ELEMENT d (#PCDATA|a",
    b"<!ELEMENT d (#PCDATA|a)*",
    b"<!ELEMENT d (#PCDATA>",
    b"<!ELEMENT d (#PCDATA*>",
    b"<!ELEMENT d (#PCDATA|a*>",
    b"<!ELEMENT d (#PCDATA))>",
    b"<!ELEMENT d (#PCDATA)>\n",
    b"<!ELEMENT d (#PCDATA|a)*>*",
    # brackets, bars and commas that lack a neighbour
    b"<!ELEMENT d ()>",
    b"<!ELEMENT d ( )>",
    b"<!ELEMENT d ()*>",
    b"<!ELEMENT d (())>",
    b"<!ELEMENT d ((),a)>",
    b"<!ELEMENT d (a|)>",
    b"<!ELEMENT d (|a)>",
    b"<!ELEMENT d (a||b)>",
    b"<!ELEMENT d (a,)>",
    b"<!ELEMENT d ((a),)>",
    b"<!ELEMENT d (?)>",
    b"<!ELEMENT d (a\nb)>",
    b"<!ELEMENT d (a|b\nc)>",
    b"<!ELEMENT d (a(b))>",
    b"<!ELEMENT d ((a)b)>",
    b"<!ELEMENT d (a|b>",
    b"<!ELEMENT d (a|b*>",
    b"<!ELEMENT d a|b)>",
    b"<!ELEMENT d (a|b))>",
    b"<!ELEMENT d (a|b)*)>",
    b"<!ELEMENT d ((a)>",
    b"<!ELEMENT d ((a)*>",
    # texts that end early
    b"<!ELEMENT d (",
    b"<!ELEMENT d ((",
    b"<!ELEMENT d (a",
    b"<!ELEMENT d (a|",
    b"<!ELEMENT d (a|b",
    b"<!ELEMENT d (a|b)",
    b"<!ELEMENT d (a|b)*",
    b"<!ELEMENT d (a|b)*\n",
    b"<!ELEMENT d ((a)",
    b"<!ELEMENT d EMPTY\n",
    # something before <!ELEMENT or behind >
    b" <!ELEMENT d (a)?>",
    b"\t<!ELEMENT d (a)?>",
    b"\r<!ELEMENT d (a)?>",
    b"\n<!ELEMENT d (a)?>",
    b"\xef\xbb\xbf<!ELEMENT d (a)?>",
    b"x<!ELEMENT d (a)?>",
    b"<!ELEMENT a (b)> ",
    b"<!ELEMENT d (a)?>\t",
    b"<!ELEMENT d (a)?>\r",
    b"<!ELEMENT d (a)?>\n",
    b"<!ELEMENT d (a)?>\r\n",
    b"<!ELEMENT d EMPTY>\n",
    b"<!ELEMENT d (a,b)>\n",
    b"<!ELEMENT d (a)?>>",
    b"<!ELEMENT d (a)?>*",
    b"<!ELEMENT d (a)>\n<!ELEMENT c (a)>",
    # white space that is missing, and white space within a keyword
    b"<!ELEMENT a(b)>",
    b"<!ELEMENT d(a)?>",
    b"<!ELEMENTd (a)?>",
    b"<!ELEMENT dEMPTY>",
    b"<!ELE\nMENT d (a)?>",
    b"<!\tELEMENT d (a)?>",
    b"<\n!ELEMENT d (a)?>",
    b"<!ELEMENT d EMP\tTY>",
    # no white space in XML 1.0: vertical tab, form feed, U+0085 and U+00A0 in UTF-8 and as one byte, U+2028, U+3000
    b"<!ELEMENT\x0bd (a)>",
    b"<!ELEMENT d (a\x0b)>",
    b"<!ELEMENT\x0cd (a)>",
    b"<!ELEMENT d (a,\x0cb)>",
    b"<!ELEMENT d EMPTY\x0c>",
    b"<!ELEMENT\xc2\x85d (a)>",
    b"<!ELEMENT d (a,\xc2\x85b)>",
    b"<!ELEMENT d\x85(a)>",
    b"<!ELEMENT\xc2\xa0d (a)>",
    b"<!ELEMENT d (a\xc2\xa0|b)*>",
    b"<!ELEMENT d\xa0EMPTY>",
    b"<!ELEMENT d (a)\xe2\x80\xa8>",
    b"<!ELEMENT d (\xe3\x80\x80a)>",
    # before 14 and 15
    b"<!ELEMENT d (e) *>",
    b"<!ELEMENT e (e,e)+>",
    b"<!ELEMENT d (a|a) *>",
    b"<!ELEMENT d (a|a",
    b"<!ELEMENT d (#PCDATA|e)>",
    b"<!ELEMENT d (#PCDATA|a|a)>",
    b"<!ELEMENT e (#PCDATA|a|a)+>",
]

UNKNOWN = [
    # the parent
    b"<!ELEMENT e EMPTY>",
    b"<!ELEMENT e EMPTY\n>",
    b"<!ELEMENT e (a)>",
    b"<!ELEMENT e (a)?>",
    b"<!ELEMENT empty (a)>",
    # a name of the model
    b"<!ELEMENT a (e)>",
    b"<!ELEMENT a (aa)>",
    b"<!ELEMENT a (" + 32 * b"x" + b")>",
    b"<!ELEMENT d (e)*>",
    b"<!ELEMENT d ((e))>",
    b"<!ELEMENT d ((e)?,a)>",
    b"<!ELEMENT d (a,(e)+)>",
    b"<!ELEMENT d (e|a)>",
    b"<!ELEMENT d (a\n|\te)*>",
    b"<!ELEMENT d (" + 32 * b"x" + b")*>",
    b"<!ELEMENT d ((" + 32 * b"x" + b"),a)>",
    # beside text; PCDATA alone is a name
    b"<!ELEMENT e (#PCDATA)>",
    b"<!ELEMENT e (#PCDATA|a)*>",
    b"<!ELEMENT d (#PCDATA|e)*>",
    b"<!ELEMENT d ( #PCDATA | a | e )*>",
    b"<!ELEMENT d (#PCDATA|PCDATA)*>",
    b"<!ELEMENT d (PCDATA)>",
    b"<!ELEMENT PCDATA (#PCDATA)>",
    b"<!ELEMENT d (#PCDATA|" + 32 * b"x" + b")*>",
    # before 15
    b"<!ELEMENT e (a,a)>",
    b"<!ELEMENT e (#PCDATA|a|a)*>",
    b"<!ELEMENT d (#PCDATA|a|a|e)*>",
    b"<!ELEMENT d (#PCDATA|e|e)*>",
    b"<!ELEMENT e (a|a)>",
    b"<!ELEMENT a (b,b,e)>",
    b"<!ELEMENT a (e,b,b)>",
    b"<!ELEMENT a ((b|e|b))>",
    b"<!ELEMENT a (e,e)>",
    b"<!ELEMENT d (e|e)>",
    b"<!ELEMENT d (a|a|e)*>",
    b"<!ELEMENT d (e|a|a)*>",
    b"<!ELEMENT d ((a),(a),e)>",
    b"<!ELEMENT d ((e),a,(a))>",
    b"<!ELEMENT a (" + b",".join([b"a"] * 300) + b",e)>",
    b"<!ELEMENT a (" + b"|".join([b"a"] * 300) + b"|e)*>",
]

TWICE = [
    # in one group
    b"<!ELEMENT a ((b|b)*)>",
    b"<!ELEMENT a ((b|c|b)*)>",
    b"<!ELEMENT d (a|a)>",
    b"<!ELEMENT d (a|a)?>",
    b"<!ELEMENT d (a\n|\ta)>",
    b"<!ELEMENT d (a|b|a)*>",
    # beside text
    b"<!ELEMENT d (#PCDATA|a|a)*>",
    b"<!ELEMENT d (#PCDATA|a|b|a)*>",
    b"<!ELEMENT a ( #PCDATA | a\n| a )*>",
    b"<!ELEMENT a (#PCDATA|a|b|c|d|EMPTY|EMPTY)*>",
    b"<!ELEMENT a (#PCDATA|" + b"|".join([b"a"] * 300) + b")*>",
    # in two factors
    b"<!ELEMENT a (b,b)>",
    b"<!ELEMENT a ((b|c),d,(EMPTY|b)?)>",
    b"<!ELEMENT a (a,a)>",
    b"<!ELEMENT a (EMPTY,EMPTY)>",
    b"<!ELEMENT d ((a),a)>",
    b"<!ELEMENT d (a,(a)?)>",
    b"<!ELEMENT d ((a),(a))>",
    b"<!ELEMENT d ((a)*,b,(c|a)+)>",
    # more names than the book has
    b"<!ELEMENT a (a,b,c,d,EMPTY,a)>",
    b"<!ELEMENT a (a|b|c|d|EMPTY|a)>",
    b"<!ELEMENT a (" + b",".join([b"a", b"b", b"c", b"d"] * 40) + b")>",
    b"<!ELEMENT a (" + b",".join([b"a"] * 300) + b")>",
    b"<!ELEMENT a (" + b",".join([b"(a)"] * 300) + b")>",
    b"<!ELEMENT a ((" + b"|".join([b"a"] * 300) + b")+)>",
    b"<!ELEMENT a (" + b"|".join([b"a"] * 300) + b")+>",
]

# Into each of these, one byte of white space of each kind is put in each place.
TIGHT = [b"<!ELEMENT a EMPTY>", b"<!ELEMENT a (b|c)+>", b"<!ELEMENT a ((b)?,(c|d)*,a+)>", b"<!ELEMENT a (#PCDATA)*>",
         b"<!ELEMENT a (#PCDATA|c)*>"]

# Each byte is once where white space must be, once where it may be, and at each end of #PCDATA. The byte 1F cannot be
# given.
ANY_BYTE = [(b"<!ELEMENT", b"a (b)>"), (b"<!ELEMENT a (b", b"|c)*>"), (b"<!ELEMENT a (", b"PCDATA)>"),
            (b"<!ELEMENT a (#PCDATA", b"b)*>")]


def some_white(chance, least=0):
    size = least + (chance.random() < 0.15) + (chance.random() < 0.05)
    return bytes(chance.choice(b"    \t\r\n") for _ in range(size))


def some_group(chance, names):
    gap = lambda: some_white(chance)
    return b"(" + gap() + b"".join((gap() + b"|" + gap() if i else b"") + x for i, x in enumerate(names)) + gap() + b")"


def some_mixed(chance, names):
    gap = lambda: some_white(chance)
    inside = b"".join(gap() + b"|" + gap() + x for x in names)
    return b"(" + gap() + b"#PCDATA" + inside + gap() + b")" + (b"*" if names else chance.choice([b"", b"*"]))


def some_text(chance):
    """A text that has the form, with names of the book, now and then another name, and now and then a name twice."""
    pool = NAMES + ([b"e", b"ab"] if chance.random() < 0.2 else [])
    chance.shuffle(pool)
    used = pool[:chance.randint(1, len(pool))]
    if chance.random() < 0.2:
        used.append(chance.choice(used))
    gap = lambda: some_white(chance)
    mark = lambda: chance.choice([b"", b"", b"?", b"+", b"*"])
    parent = chance.choice(NAMES + [b"a", b"b", b"e"])
    head = b"<!ELEMENT" + some_white(chance, 1) + parent + some_white(chance, 1)
    if chance.random() < 0.05:
        return head + b"EMPTY" + gap() + b">"
    if chance.random() < 0.2:
        return head + some_group(chance, used[:chance.choice([1, 2, 3, 6])]) + mark() + gap() + b">"
    if chance.random() < 0.25:
        return head + some_mixed(chance, used[:chance.choice([0, 1, 2, 3, 6])]) + gap() + b">"
    parts = []
    while used:
        take = min(len(used), chance.choice([1, 1, 2, 3]))
        group, used = used[:take], used[take:]
        bare = take == 1 and chance.random() < 0.6
        parts.append((group[0] if bare else some_group(chance, group)) + mark())
    body = b"".join((gap() + b"," + gap() if i else b"") + part for i, part in enumerate(parts))
    return head + b"(" + gap() + body + gap() + b")" + gap() + b">"


def damaged(chance, text):
    """The text with one byte removed, put in or replaced, mostly behind `<!ELEMENT`."""
    at = chance.randrange(0 if chance.random() < 0.15 else len(b"<!ELEMENT"), len(text))
    kind = chance.random()
    put = bytes([chance.choice(b" \t\r\n(),|>?+*#ab-1.\x0b\xa0")])
    if kind < 0.4:
        return text[:at] + text[at + 1:]
    if kind < 0.8:
        return text[:at] + put + text[at:]
    return text[:at] + put + text[at + 1:]


def chosen():
    """The texts whose answers are written down above; they have to be those of the reader and of the writer."""
    for text, due in FORMS + READ:
        answer = read(text)
        assert answer[0] == 0 and house(answer) == due, (text, answer)
        yield text
    for number, texts in ((13, NOT_THE_FORM), (14, UNKNOWN), (15, TWICE)):
        for text in texts:
            assert read(text)[0] == number, (text, number)
            yield text


def cases():
    chance = random.Random(20)
    texts = list(chosen())
    for text in TIGHT:
        texts += [text[:at] + bytes([white]) + text[at:] for at in range(len(text) + 1) for white in WHITE.encode()]
    for _ in range(250):
        text = some_text(chance)
        assert read(text)[0] != 13, text
        texts.append(text)
        texts.append(damaged(chance, text))
    for before, behind in ANY_BYTE:
        texts += [before + bytes([b]) + behind for b in range(256) if b != FEED[0]]
    for text in texts:
        answer = read(text)
        assert answer[0] != 0 or read(house(answer)) == answer, text
    return texts


def files():
    texts = cases()
    assert not any(FEED in t for t in texts)
    # The second text is not whole: 17 comes before 13.
    due = line(b"<!ELEMENT a (b)>", refused(2)) + line(b"<!ELEMENT a (b", refused(17))
    due += b"".join(line(t, read(t)) for t in texts)
    return {"stdin": b"".join(t.replace(b"\n", FEED) + b"\n" for t in texts), "stdout": due}


def main():
    wanted = files()
    assert len(wanted["stdin"]) < 65536
    if sys.argv[1:] == ["--check"]:
        for name, text in wanted.items():
            if (FOLDER / name).read_bytes() != text:
                sys.exit(f"{FOLDER / name} is not what {sys.argv[0]} writes")
        return
    for name, text in wanted.items():
        (FOLDER / name).write_bytes(text)


if __name__ == "__main__":
    main()
