# files.py - writes the type files and documents of the benchmark into a folder: python3 files.py FOLDER
import os
import sys

folder = sys.argv[1]
os.makedirs(folder, exist_ok=True)


def write(name, text, suffix=".type"):
    with open(os.path.join(folder, name + suffix), "w") as f:
        f.write(text)


def tokens(first, count, connector, suffix=""):
    return connector.join("N%d%s" % (first + i, suffix) for i in range(count))


def model(count, outer, inner, suffix=""):
    """A content model of `count` content tokens: groups of up to 31 names, each group a token itself."""
    groups, left, first = [], count, 0
    while left > 1:
        n = min(31, left - 1)
        groups.append("(" + tokens(first, n, inner, suffix) + ")")
        left -= n + 1
        first += n
    return "(" + outer.join(groups) + ")"


def elements(n, content):
    return "".join("<!ELEMENT E%d - O %s>\n" % (k, content) for k in range(n))


write("T", "<!ELEMENT LIST O O (ITEM+)><!ELEMENT ITEM O O (NAME,QTY?)><!ELEMENT NAME O O (#PCDATA)><!ELEMENT QTY - O (#PCDATA)>")
write("par", "<!ELEMENT LIST O O (ITEM+)><!ELEMENT ITEM O O (NAME,QTY?)><!ELEMENT NAME O O (#PCDATA)><!ELEMENT QTY - O (#PCDATA)>"
      "<!ATTLIST ITEM PAR NUMBER #REQUIRED UNIT (ea|bx|pk) #IMPLIED>")
typical = "<!-- a catalogue -->\n<!ELEMENT LIST O O (HEAD?,(SECTION|ITEM)+)>\n<!ELEMENT HEAD - O (#PCDATA)>\n"
for k in range(38):
    typical += "<!ELEMENT P%d - O (NAME%d,(QTY%d|UNIT%d)*,NOTE%d?)>\n" % ((k,) * 5)
write("typical", typical + "<!ELEMENT ITEM O O (NAME,QTY?,PAR?)>\n")
# A type of about 2 KB for short documents in a batch: T and more.
write("night", "<!ELEMENT LIST O O (ITEM+)><!ELEMENT ITEM O O (NAME,QTY?)><!ELEMENT NAME O O (#PCDATA)><!ELEMENT QTY - O (#PCDATA)>" +
      "".join("<!ELEMENT P%d - O (NAME%d,(QTY%d|UNIT%d)*,NOTE%d?)>\n" % ((k,) * 5) for k in range(38)), ".dtd")
write("largest-sequence", elements(64, model(96, ",", ",")))
write("largest-choice", elements(64, model(96, ",", "|")))
write("largest-optional", elements(64, model(96, ",", ",", "?")))
write("largest-repeated", elements(64, model(96, "|", "|") + "+"))


def three_groups(connector, suffix=""):
    """A content model of three groups of 32, two of them in the third, all joined by the connector."""
    inner = ["(" + tokens(32 * g, 32, connector, suffix) + ")" for g in range(2)]
    return "(" + connector.join(inner + [tokens(64, 30, connector, suffix)]) + ")"


write("three-of-32-sequence", elements(64, three_groups(",")))
write("three-of-32-and", elements(64, three_groups("&")))
# Names that stand in each of 32 groups: the rows leave pairs of them open, and the judge looks at each.
write("shared-and", elements(64, "(" + ",".join("(A&N%d)" % k for k in range(32)) + ")"))
write("shared-sequence", elements(64, "(" + ",".join("(A,N%d)" % k for k in range(32)) + ")"))
for n in (8, 16, 32, 64, 96):
    write("tokens-%02d" % n, elements(64, model(n, ",", "|")))


# Documents under T: as SGML with most tags left out, and as XML with all of them.
WARES = ("artery clamp small", "adhesive tape", "gauze swab 10x10", "hollow needle")


def catalogue(limit):
    """Items as (name, quantity), so many that the document of them has at most `limit` bytes."""
    items, left = [], limit + len("<ITEM>")
    while True:
        item = (WARES[len(items) % 4], str(10 + len(items) % 90))
        left -= len("<ITEM><QTY>") + len(item[0]) + len(item[1])
        if left < 0:
            return items
        items.append(item)


def document(name, items):
    left_out = "<ITEM>".join(n + (q and "<QTY>" + q) for n, q in items)
    full = "".join("<ITEM><NAME>%s</NAME>%s</ITEM>" % (n, q and "<QTY>" + q + "</QTY>") for n, q in items)
    write(name, left_out, ".sgm")
    write(name, "<LIST>" + full + "</LIST>", ".xml")


document("catalogue", catalogue(65000))
document("tiny", [("clamp", "40"), ("tape", "")])
document("short", catalogue(310))
document("plain", [(("gauze swab 10x10 and adhesive tape; " * 2000)[:65000], "")])
for n in (1, 2, 4, 8, 16, 32, 65):
    document("growth-%02d" % n, catalogue(n * 1000))

# A catalogue under par: each item with two attributes.
items, left = [], 65000
while True:
    k = len(items)
    item = ' PAR="%d" UNIT="%s">' % (10 + k % 90, ("ea", "bx", "pk")[k % 3]), WARES[k % 4], str(10 + k % 90)
    left -= len("<ITEM<QTY>") + sum(len(part) for part in item)
    if left < 0:
        break
    items.append(item)
write("par", "".join("<ITEM%s%s<QTY>%s" % item for item in items), ".sgm")
write("par", "<LIST>" + "".join("<ITEM%s<NAME>%s</NAME><QTY>%s</QTY></ITEM>" % item for item in items) + "</LIST>", ".xml")

# The same documents under "," groups and under "&" groups: small groups, groups of 32, and groups in groups.
def supply(name, model_of, item, children, size=36000):
    """Types with the model joined by "," and by "&", and a document of items that both accept, of so many bytes."""
    for connector, kind in ((",", "sequence"), ("&", "and")):
        head = "<!ELEMENT LIST O O (ITEM+)>\n<!ELEMENT ITEM - O %s>\n" % model_of(connector)
        write("supply-%s-%s" % (name, kind), head + children, ".dtd")
    write("supply-" + name, item * (size // len(item)), ".sgm")


def empty(n):
    return "".join("<!ELEMENT N%d - O EMPTY>\n" % k for k in range(n))


TEXTS = "".join("<!ELEMENT %s - O (#PCDATA)>\n" % n for n in ("NAME", "QTY", "UNIT"))
supply("small", lambda c: "(" + c.join(("NAME", "QTY", "UNIT?")) + ")", "<ITEM><NAME>tape</NAME><QTY>40</QTY><UNIT>m</UNIT></ITEM>", TEXTS)
supply("wide", lambda c: "(" + tokens(0, 32, c) + ")", "<ITEM>" + "".join("<N%d>" % k for k in range(32)), empty(32))
supply("optional", lambda c: "(" + tokens(0, 32, c, "?") + ")", "<ITEM><N3><N17><N30>", empty(32))
supply("nested", lambda c: "(" + c.join("(" + tokens(10 * g, 10, c) + ")" for g in range(3)) + ")", "<ITEM>" + "".join("<N%d>" % k for k in range(30)), empty(30))


def deep(c):
    group = "N0"
    for k in range(1, 16):
        group = "(%s%sN%d)" % (group, c, k)
    return group


supply("deep", deep, "<ITEM>" + "".join("<N%d>" % k for k in range(16)), empty(16))


def records(name, items):
    """A catalogue with a record end after each tag and each text."""
    lines = ["<LIST>"]
    for n, q in items:
        lines += ["<ITEM>", "<NAME>", n, "</NAME>", "<QTY>", q, "</QTY>", "</ITEM>"]
    with open(os.path.join(folder, name + ".sgm"), "w", newline="") as f:
        f.write("\r\n".join(lines + ["</LIST>", ""]))


records("records", catalogue(24000))


# Optional members in groups in each other: items that take the innermost alone, or it and the outermost.
def spare(n):
    def model_of(c):
        group = "N0?"
        for k in range(1, n):
            group = "(%s%sN%d?)" % (group, c, k)
        return group
    return model_of


supply("spare-06", spare(6), "<ITEM><N0>", empty(6))
supply("spare-16", spare(16), "<ITEM><N0>", empty(16))
supply("spare-far", spare(16), "<ITEM><N0><N15>", empty(16))


# A member far out that is awaited while optional ones are taken from the inside outwards; and groups that each have a further group behind them, of which the
# innermost and the outermost member are taken. Names have one letter: these take the most time beside "," of all that were tried.
LETTERS = "ABCDEFGHIJKLMNOPQRSTUVWXYZ"


def lettered(names):
    return "".join("<!ELEMENT %s - O EMPTY>\n" % n for n in names)


def awaited(n):
    def model_of(c):
        group = "A?"
        for k in range(1, n):
            group = "(%s%s%s?)" % (group, c, LETTERS[k])
        return "(%s%sZ)" % (group, c)
    return model_of


def beside(n):
    def model_of(c):
        group = "(A?%sB?)" % c
        for k in range(1, n):
            group = "(%s%s(%s?%s%s?))" % (group, c, LETTERS[2 * k], c, LETTERS[2 * k + 1])
        return group
    return model_of


for n in (5, 14):
    names = LETTERS[:n] + "Z"
    supply("awaited-%02d" % n, awaited(n), "<ITEM>" + "".join("<%s>" % k for k in names), lettered(names), 24000)
supply("beside", beside(12), "<ITEM><A><X>", lettered(LETTERS[:24]), 24000)
