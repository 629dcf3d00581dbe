"""What dev/player-test tries: files of other kinds, bad words, patterns that are made for it, and what hands do."""
import gzip
import json

from blifww.program import printed

HEAD = "x = 9, y = 9, rule = WireWorld\n"
TABLE = "#C BLIFWW 2 P 32 L 0 C 1\n"
# Files of other kinds, and a word of the message that says so.
KINDS = {
    gzip.compress((HEAD + "C!").encode(), mtime=0).decode("latin-1"): "gzip",
    ("#C a\n" + HEAD + "C!").encode("utf-16").decode("latin-1"): "UTF-16",
    ("#C a\n" + HEAD + "C!").encode("utf-16-le").decode("latin-1"): "UTF-16",
    (HEAD + "C!").encode("utf-16-le").decode("latin-1"): "UTF-16",
    (HEAD + "C!").encode("utf-16-be").decode("latin-1"): "UTF-16",
    "\x89PNG\r\n\x1a\n\0\0\0\rIHDR": "PNG",
    "PK\x03\x04\x14\0": "zip",
    "\xef\xbb\xbf" + HEAD + "C!": "byte order mark",
    "\x7fELF\x02\x01\x01\0": "not a text",
    "[M2] (golly 3.3)\n": "macrocell",
}
# Words of a link that are at fault.
LINK_FAULTS = {
    "speed": "abc",
    "view": "1,2",
    "context": "7",
    "cycles": "99999999",
    "gen": "9e99",
    "play": "yes",
    "repeat": "2",
    "theme": "blue",
    "sped": "1",
}
BAD_WORDS = ["a0=01", "en", "en=2x", "en=01 en=11", "en=01 x=", "q=01"]
LAMPS = (
    "#C lamp 0 2700 1800 96 12\n#C lamp 1 2796 1812 12 96\nx = 3000, y = 2000, rule = WireWorld\n1800$2680.BA114C$!\n"
)
# The contrast of two colours #rrggbb, as the Web Content Accessibility Guidelines count it.
CONTRAST = """(...colours) => {
  const linear = (it) => (it <= 0.04045 ? it / 12.92 : ((it + 0.055) / 1.055) ** 2.4);
  const part = (it, k) => linear(parseInt(it.slice(1 + 2 * k, 3 + 2 * k), 16) / 255);
  const light = (it) => [0.2126, 0.7152, 0.0722].reduce((sum, share, k) => sum + share * part(it, k), 0.05);
  const [low, high] = colours.map(light).sort((a, b) => a - b);
  return high / low;
}"""
# The heads of successive cycles meet on a wire that has no room for them.
LOUD = "#C BLIFWW 2 P 1 L 3 C 1\n#C BLIFWW IN 0 0 a\n#C BLIFWW OUT 3 0 y\nx = 4, y = 1, rule = WireWorld\n4C!\n"


def made(pattern_of, examples):
    """Gives, of patterns that are no examples, a title, the pattern, the words, and the commands whose lines it has."""
    toggle = (examples / "toggle.blif").read_text()
    compiled, plain = pattern_of("toggle"), (examples / "or.rle").read_text()
    words = ["0:en=11011101", "1:en=01100110"]
    two = printed(["compile", "--contexts", "2", "1:q=1"], toggle)
    yield "two contexts", two, " ".join(words), [["simulate", "--cycles", "8", *words]]
    many = [f"{c}:en={c % 2}10{c // 2 % 2}1" for c in range(7)]
    yield "seven contexts", printed(["compile", "--contexts", "7", "3:q=1"], toggle), " ".join(many), [
        ["simulate", "--cycles", "5", *many]
    ]
    older = plain.replace("BLIFWW 2 P 32 L 32 C 1", "BLIFWW 1 P 32 L 32")
    yield "a table of version 1", older, "a=00110101 b=01010011", [
        ["simulate", "--cycles", "8", "a=00110101", "b=01010011"]
    ]
    for name in ("toggle", "traffic"):
        yield f"the tape of {name}", (examples / f"{name}.tape.rle").read_text(), "--cycles 10", [
            ["simulate", "--cycles", "10"]
        ]
    odd = "%e<n=\xc3\xbc"  # its last two bytes are a letter in UTF-8
    renamed = printed(["compile"], toggle.replace(" en", f" {odd}"))
    yield "an odd name", renamed, f"{odd}=11011101", [["simulate", "--cycles", "8", f"{odd}=11011101"]]
    spaced = ["\xc3\xa0 b=0011", "b=0101"]  # a letter in UTF-8, and a blank
    yield "a name with a blank", plain.replace(" 8 a\n", " 8 %C3%A0%20b\n"), " ".join(spaced), [
        ["simulate", "--cycles", "4", *spaced]
    ]
    shown = ["--cycles", "8", "en=11011101"]
    yield "a net", compiled, "en=11011101", [["simulate", *shown], ["probe", "--net", "n", *shown]]
    bits = ["a0=1111", "a1=0101", "a2=0101", "a3=0011", "b0=0010", "b1=1000", "b2=0000", "b3=0110", "ci=0111"]
    yield "numbers", pattern_of("adder"), "a=1,7,9,15 b=2,8,9,-8 ci=0111", [
        ["simulate", "--cycles", "4", *numbered(bits, "b3", "0111")]
    ]


ROUTED = (
    "#C gate XOR-E 8 1 7\n#C gate OR-E 18 4 17\n#C gate LONE-E 1 1 0\n#C gate LONE-E 1 7 0\n#C gate LONE-E 1 10 0\n"
    "#C gate LONE-E 26 6 25\n#C gate XOR-E 0 0 0\n#C wire 1 1 E 8 1 -\n#C wire 1 7 E 8 7 -\n#C wire 12 4 E 18 4 -\n"
    "#C wire 1 10 E 18 8 -\n#C wire 20 6 E 26 6 01\n#C wire 8 7 E 8 1 -\n"
    "#C BLIFWW 2 P 20 L 25 C 1\n#C BLIFWW IN 1 1 a\n#C BLIFWW IN 1 7 b\n#C BLIFWW IN 1 10 c\n#C BLIFWW OUT 26 6 y\n"
    "#C BLIFWW NET 12 4 11 n -\nx = 27, y = 11, rule = WireWorld\n"
    "$.8C$9.C$8.4C$8.C2.8C$8.4C7.C$9.C8.9C$.8C10.C$18.C$17.C$.16C!\n"
)  # an XOR and an OR; a gate that is not there, and a wire that leads elsewhere, count for nothing


def numbered(bits, name, word):
    return [f"{name}={word}" if it.startswith(f"{name}=") else it for it in bits]


def transfer(files=(), text=""):
    """The JavaScript that makes what a drop or a paste carries."""
    adds = "".join(f"it.items.add(new File([{json.dumps(body)}], {json.dumps(name)}));" for name, body in files)
    adds += f"it.setData(`text/plain`, {json.dumps(text)});" if text else ""
    return f"(() => {{ const it = new DataTransfer(); {adds} return it; }})()"


def drop(**given):
    facts = f"{{ bubbles: true, cancelable: true, dataTransfer: {transfer(**given)} }}"
    return f"do document.dispatchEvent(new DragEvent('drop', {facts}))"


def paste(text):
    facts = f"{{ bubbles: true, clipboardData: {transfer(text=text)} }}"
    return f"do document.body.dispatchEvent(new ClipboardEvent('paste', {facts}))"


def linked():
    """Gives acts that open a pattern with odd names, and then the link to what the page shows."""
    names = [
        f"#C BLIFWW {it}\n"
        for it in ("1 P 32 L 32", "IN 0 0 \xc3\xa9", "OUT 32 0 y", "NET 1 0 1 a,b -", "NET 2 0 2 a%2Cb -")
    ]
    text = json.dumps("".join(names) + "x = 33, y = 1, rule = WireWorld\n33C!\n")
    opened = f"do openText({text}, 'a text'); feed('\\u00c3\\u00a9=0110'); addNet('a%2Cb'); addNet('a,b')"
    names = "page.chosen.map((it) => it.label).join()"
    yield opened, "page.chosen.length === 2"
    yield "do page.link = linkOf().split('#')[1], openExample('or')", "page.name === 'or'"
    wanted = f"page.machine.pattern.text === {text} && {names} === 'a%2Cb,a,b'"
    yield "do attempt(() => openLink(new Link(page.link)))", wanted


def routed():
    """Gives acts on a routed circuit: what is told of its gates and wires, and that all of it is shown at first."""
    told = "$('tip').hidden ? '' : $('tip').textContent"
    title = "((x, y) => page.routed.describe(page.routed.partAt(x, y, 0)).join(': '))"
    yield f"do openText({json.dumps(ROUTED)}, 'two gates'), pause()", "page.routed.gates.length === 6"
    yield "do 0", "page.routed.wires.length === 5 && plane.isFitted && $('grid').hidden && !$('nets').hidden"
    yield "do 0", f"{title}(10, 4) === 'XOR: 1 if exactly one of the two inputs is 1.'"
    yield "do 0", f"{title}(12, 1) === 'XOR: 1 if exactly one of the two inputs is 1.'"
    yield "do 0", f"{title}(4, 1) === 'wire of a: from input a to XOR, 7 cells long'"
    yield "do 0", f"{title}(15, 4) === 'wire of n: from XOR to OR, 6 cells long'"
    yield "do 0", f"{title}(23, 6) === 'wire: 2 latches, which start with 01; from OR to output y, 6 cells long'"
    yield "do 0", "page.routed.partAt(23, 10, 0) === null && page.routed.partAt(23, 8, 2).kind === 'wire'"
    yield "over 10,3", f"({told}).startsWith('XOR')"
    yield "over 15,4", f"({told}).startsWith('wire of n') && plane.marked.length === 5"
    yield "over 23,10", f"({told}) === '' && plane.marked.length === 0"
    yield "cell 15,4", "page.chosen.map((it) => it.label).join() === 'n'"
    bare = "!page.routed.gates.length && !$('grid').hidden && page.routed.partAt(1, 8, 0) === null"
    yield "do openExample('or')", bare


def hands(pattern_of):
    """Gives a name, a link, and acts, each with what must hold after it."""
    toggle = {"example": "toggle", "words": "en=11011101"}
    yield "keys", toggle, [
        ("key .", "page.machine.generation === 1"),
        ("key ,", "page.machine.generation === 0"),
        ("key n", "page.machine.generation === 448 && !page.isRunning"),
        ("key r", "page.machine.generation === 608 && !page.isRunning"),
        ("key p", "page.machine.generation === 448"),
        ("key Home", "page.machine.generation === 0"),
        ("key 1", "page.machine.streams[0][0].at(0) === 0"),
        ("key space", "page.isRunning && page.machine.generation > 5"),
        ("key space", "!page.isRunning"),
        ("key g", "plane.shows.grid"),
        ("key t", "plane.shows.nets"),
        ("key l", "!plane.shows.trail"),
        ("key e", "page.isRepeating"),
        ("key +", "!plane.isFitted"),
        ("do page.was = plane.left", "page.was === plane.left"),
        ("key ArrowLeft", "plane.left === page.was - 60"),
        ("key 0", "plane.isFitted"),
        ("key ]", "Number($('speed').value) === stepOf(112) + 1"),
        ("key ?", "$('helping').open"),
    ]
    playing = {"example": "toggle", "words": "en=10011000", "nets": "n", "repeat": 1, "play": 1}  # README's link
    for act in ("key n", "click cycle", "axis 1"):
        yield f"while it plays, {act}", playing, [
            ("do 0", "page.isRunning && page.machine.generation > 60"),
            (act, "page.machine.generation === 448 && !page.isRunning"),
        ]
    yield "while it plays, a cycle back", {**playing, "gen": 1000}, [
        ("do 0", "page.isRunning && page.machine.generation > 1020"),
        ("axis 1", "page.machine.generation === 448 && !page.isRunning"),
    ]
    yield "while it plays, key r", playing, [
        ("do 0", "page.isRunning && page.machine.generation > 60"),
        ("key r", "page.machine.generation === 160 && !page.isRunning"),
        ("key r", "page.machine.generation === 608 && !page.isRunning"),
    ]
    yield "while it plays, n twice", playing, [
        ("do 0", "page.isRunning && page.machine.generation > 60"),
        ("do command('cycle'), command('cycle')", "page.machine.generation === 896 && !page.isRunning"),
    ]
    yield "while it plays, the result of the last cycle", {**playing, "gen": 3200}, [
        ("do 0", "page.isRunning && page.machine.generation > 3210"),
        ("key r", "page.machine.generation === 3296 && !page.isRunning"),
    ]
    yield "a click while a large one plays", {"example": "gcd", "play": 1}, [
        ("do 0", "page.isRunning && page.machine.generation > 100"),
        (
            "do page.was = performance.now(), command('cycle'), page.took = performance.now() - page.was",
            "page.took < 150 && page.machine.generation === page.machine.pattern.table.period",
        ),
    ]
    yield "a far generation", {"example": "toggle", "gen": "4e8"}, [
        ("do 0", "$('message').textContent.startsWith('On the way to generation 400,000,000.') && page.isRunning"),
        ("click run", "!page.isRunning && $('message').hidden"),
    ]
    yield "a far generation, and on", {"example": "cpu", "gen": "1e6", "play": 1}, [
        ("do 0", "page.machine.generation > 1e6 && page.isRunning && !page.isAsked && $('message').hidden")
    ]
    for key, word in LINK_FAULTS.items():
        told = json.dumps("theme=blue" if key == "theme" else key)
        is_kept = "page.name === 'toggle' && page.chosen.length === 1"
        yield f"a link with {key}={word}", {"example": "toggle", "words": "en=1", "nets": "n", key: word}, [
            ("do 0", f"$('message').textContent.includes({told}) && {is_kept}")
        ]
    yield "a fault and the rest", {"example": "toggle", "speed": "abc", "gen": 5}, [
        ("do 0", "!$('message').hidden && page.machine.generation === 5")
    ]
    yield "buttons", toggle, [
        ("click cycle", "page.machine.generation === 448"),
        ("click step", "page.machine.generation === 449"),
        ("click back", "page.machine.generation === 448"),
        ("click result", "page.machine.generation === 608"),
        ("click restart", "page.machine.generation === 0"),
        ("click theme", "document.documentElement.dataset.theme === 'light'"),
        ("click run", "page.isRunning"),
        ("port en", "page.machine.streams[0][0].at(page.machine.open(0)) === 0"),
        ("click export", "$('showing').open"),
    ]
    yield "files that are dropped", {}, [
        (
            drop(files=[("x.rle", pattern_of("gray")), ("x.words", "--cycles 3 reset=000 step=111\n")]),
            "page.name === 'x.rle' && page.machine.cycles === 3",
        ),
        ("do 0", "page.isRunning && page.isRepeating && page.machine.generation > 20"),
        (
            drop(text="reset=01 step=11"),
            "page.machine.cycles === 2 && page.isRunning && page.machine.generation < 4000",
        ),
        (drop(files=[("own.rle", LAMPS)]), "page.name === 'own.rle' && page.isRunning && !plane.isFitted"),
        ("do 0", "(230 * plane.size) / plane.ratio > 60"),
        (drop(files=[("bad.rle", HEAD + "C Q!")]), "$('message').textContent.startsWith('G4 BadItem line 2: ')"),
    ]
    yield "texts that are pasted", {}, [
        (paste(pattern_of("gray")), "page.machine.table.inputs.length === 2"),
        (paste("reset=01 step=11"), "page.machine.cycles === 2"),
        (paste("clk=01"), "$('message').textContent.startsWith('stream: UnknownInput clk=01: ')"),
    ]
    yield "what moves at first", {}, [("do 0", "page.isRunning && page.isRepeating && page.machine.generation > 20")]
    yield "repeat", {"example": "or", "words": "a=01 b=00", "speed": 1000, "repeat": 1, "play": 1}, [
        ("do globalThis.most = 0", "(most = Math.max(most, page.machine.generation)) > 50"),
        ("do globalThis.least = 99", "(least = Math.min(least, page.machine.generation)) < 30"),
    ]
    yield "a link", {}, list(linked())
    yield "contexts", {"example": "toggle.contexts", "context": 1}, [
        ("do 0", "page.context === 1 && $('context').value === '1'")
    ]
    yield "a routed circuit", {}, list(routed())
    yield "a view", {"example": "toggle", "view": "160,0,65,64"}, [
        ("do 0", "!plane.isFitted && plane.shown()[2] < 240")
    ]
