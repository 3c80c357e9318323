"""Writes crates/text_tests/src/mutations.rt: texts with the place of their first fault, by its kind.

The faults come from the reference implementation, which stands outside of this repository: run

    PYTHONPATH=FOLDER_OF_THE_REFERENCE python3 bench/text_faults.py COUNT SEED > mutations.rt

where FOLDER has the package `oracle`. Each text is a mutation of one of the whole texts below, or of two
that stand side by side: bytes are cut off, left out, doubled or replaced. There are COUNT texts of each kind.
"""

import random
import sys

from oracle.faults import Fault
from oracle.text import elements

WHOLE = [
    b"<?xml version='1.0'?>\n<!-- c --><a b=\"1\" c='&lt;2'>t&#65;<d/>&amp;<e f='x'>u</e ></a >\n<!---->",
    b"\xef\xbb\xbf<?xml ?><a>\xc3\xa9\xef\xbf\xbd&apos;&quot;&gt;</a>",
    b"<a x = '&#x1F600;' y='\xf0\x9f\x98\x80'><b><c>&#9;&#xA;</c></b><!--<b>&--></a>",
    b"<_1.-><a/><a/></_1.->",
    b"<a><![CDATA[x]]></a>",
    b"<!DOCTYPE a><a/>",
    b"<a><?x y?></a>",
    b"<a:b c:d='e'/>",
    b"<a b='1' b='2'/>",
    b"<a b='1' b:c='2'></a>",
    b"<a><b></c></a>",
    b"<a></a:b>",
    b"<a>&nbsp;&#0;&#x110000;&#xD800;</a>",
    b"<a/><a/>",
    b"<a>" * 31 + b"<b/><b></b>" + b"</a>" * 31,
    b"<a>" * 32 + b"<b/>" + b"</a>" * 32,
    b"<a>" * 32 + b"<!----></b>",
    b"<a b='<' c='>'/>",
]

BYTES = b"<>/!?-=&#;:x'\" \n\tab1D[\x00\x1f\x80\xbe\xbf\xc3\xef\xff"


def mutation(random_):
    text = random_.choice(WHOLE)
    if random_.random() < 0.1:
        text = text + random_.choice(WHOLE)
    for _ in range(random_.choice([0, 1, 1, 1, 2, 3])):
        at = random_.randrange(len(text) + 1)
        way = random_.randrange(6)
        if way == 0:
            text = text[:at]
        elif way == 1:
            text = text[:at] + text[at + 1:]
        elif way == 2:
            text = text[:at] + text[at:at + 4] + text[at:]
        elif way == 3:
            text = text[:at] + bytes([random_.choice(BYTES)]) + text[at:]
        elif way == 4:
            text = text[:at] + bytes([random_.choice(BYTES)]) + text[at + 1:]
        else:
            to = random_.randrange(at, len(text) + 1)
            text = text[:at] + text[to:]
    return text


def fault_of(text):
    try:
        elements(text)
    except Fault as fault:
        return fault.kind, fault.at
    return None


def spelled(text):
    out = []
    for byte in text:
        if byte == 0x0A:
            out.append("\\n")
        elif byte == 0x09:
            out.append("\\t")
        elif byte in b"\"\\":
            out.append("\\" + chr(byte))
        elif 0x20 <= byte < 0x7F:
            out.append(chr(byte))
        else:
            out.append("\\x%02x" % byte)
    return "".join(out)


NAMES = {1: "NOT_UTF8", 2: "BAD_MARKUP", 3: "MISMATCHED_END", 4: "BAD_REFERENCE", 5: "UNSUPPORTED", 6: "TOO_DEEP"}


def main():
    count, seed = int(sys.argv[1]), int(sys.argv[2])
    random_ = random.Random(seed)
    rows = {kind: {} for kind in NAMES}
    while any(len(found) < count for found in rows.values()):
        text = mutation(random_)
        fault = fault_of(text)
        if fault is None or len(text) > 160 or len(rows[fault[0]]) == count:
            continue
        rows[fault[0]][text] = fault[1]
    print("//! Texts that were made from whole ones by cutting, leaving out, doubling and replacing bytes, each")
    print("//! with the place of its first fault, by the kind of that fault. Made by bench/text_faults.py.")
    for kind, name in NAMES.items():
        print()
        print("pub const %s: &[(&[u8], u64)] = &[" % name)
        for text, at in sorted(rows[kind].items(), key=lambda row: row[1]):
            print('    (b"%s", %d),' % (spelled(text), at))
        print("];")


main()
