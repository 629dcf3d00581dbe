"""Streams: the words that drive a circuit, numbers for its buses, and the lines `name=bits` that it shows."""
import re

from . import buses, command

MOST_CYCLES = 1 << 20


def words_in(text):
    """Returns the words of a file: `--cycles N` and streams, with blanks between them."""
    return [it for it in re.split("[ \t\n\v\f\r]", text) if it]


def beside(file, ending):
    """Returns the file beside a netlist that has its name and another ending, or that of its name before the last
    `-`."""
    own = file.with_suffix(ending)
    return own if own.exists() or "-" not in own.stem else own.with_stem(own.stem.rpartition("-")[0])


def split(words):
    """Returns the number of cycles that words name, or None, and the other words."""
    cycles, streams, rest = None, [], list(words)
    while rest:
        word = rest.pop(0)
        if word == "--":
            streams += rest
            break
        if word == "--cycles":
            word = f"--cycles={rest.pop(0) if rest else ''}"
        if word.startswith("--cycles="):
            cycles = cycles_of(word.partition("=")[2])
        else:
            streams.append(word)
    return cycles, streams


def cycles_of(word):
    """Returns the number of cycles that a word says."""
    if not re.fullmatch("[0-9]{1,9}", word) or not 1 <= int(word) <= MOST_CYCLES:
        raise ValueError(f"--cycles says how many cycles there are, 1 to {MOST_CYCLES}, and not {word or 'nothing'}")
    return int(word)


def place_of(word, contexts):
    """Returns the context and the name that a word says. Raises ValueError, with the program's line, where it says
    none."""
    name, sign, _ = word.rpartition("=")
    found = re.fullmatch(r"(0|[1-9][0-9]*):(.*)", name, re.S) if contexts > 1 else None
    if not sign:
        raise ValueError(f"stream: NoEquals {word}")
    if contexts > 1 and not (found and int(found[1]) < contexts):
        raise ValueError(f"stream: BadContext {word}")
    return (int(found[1]), found[2]) if found else (0, name)


def bits_in(word, name, inputs, given):
    """Returns the bits that a word says for an input, or by numbers for those of a bus, {name: bits}; `given` are
    inputs that have bits already."""
    bits = word.rpartition("=")[2]
    bus = None if name in inputs else next((it for it in buses.buses_of(inputs) if it.is_bus and it.name == name), None)
    if name not in inputs and not bus:
        raise ValueError(f"stream: UnknownInput {word}")
    if any(it in given for it in (bus.bits.values() if bus else [name])):
        raise ValueError(f"stream: TwiceInput {word}")
    if bus:
        try:
            return bits_of_numbers(numbers_of(bits, bus), bus)
        except ValueError:
            raise ValueError(f"stream: BadBit {word}") from None
    if set(bits) - set("01"):
        raise ValueError(f"stream: BadBit {word}")
    return {name: bits}


def read(words, inputs, contexts=1, is_whole=False):
    """Returns the number of cycles and the streams {(context, name): bits} that words say; without --cycles that of
    the longest stream. With `is_whole` each input has a bit in each cycle, and there is a cycle. Raises ValueError,
    with the program's line, at the first fault.
    """
    said, rest = split(words)
    streams, word_of = {}, {}
    for word in rest:
        context, name = place_of(word, contexts)
        own = bits_in(word, name, inputs, {it for at, it in streams if at == context})
        streams.update({(context, it): bits for it, bits in own.items()})
        word_of.update({(context, it): word for it in own})
    cycles = said or max(map(len, streams.values()), default=0)
    if is_whole and not cycles:
        raise ValueError("there is no cycle: give --cycles N, or streams")
    odd = next((it for it, bits in streams.items() if len(bits) != cycles), None)
    if is_whole and odd:
        raise ValueError(f"stream: BadLength {word_of[odd]}")
    missing = next(
        ((context, name) for context in range(contexts) for name in inputs if (context, name) not in streams), None
    )
    if is_whole and missing:
        raise ValueError(f"stream: MissingInput {f'{missing[0]}:' * (contexts > 1)}{missing[1]}")
    return cycles, streams


def words_of(streams, contexts=1):
    """Gives streams as words of a command."""
    return [(f"{context}:" if contexts > 1 else "") + f"{name}={bits}" for (context, name), bits in streams.items()]


def for_command(cycles, words):
    """Returns the words of a command for so many cycles."""
    return ["--cycles", str(cycles), *(["--"] if any(it.startswith("-") for it in words) else []), *words]


def numbers_of(listed, bus):
    """Returns the numbers that a list with commas says for a bus."""
    numbers = []
    for it in listed.split(","):
        if not re.fullmatch("-?([0-9]+|0[xX][0-9a-fA-F]+|0[bB][01]+)", it):
            raise ValueError(f"{bus.name}={listed} has what is no number")
        bare = it.lstrip("-")
        number = int(bare, 0 if bare[:2].lower() in ("0x", "0b") else 10) * (-1 if it[0] == "-" else 1)
        if not -(1 << bus.width() >> 1) <= number < 1 << bus.width():
            raise ValueError(f"{it} does not fit the {bus.width()} bits of {bus.name}")
        numbers.append(number)
    return numbers


def bits_of_numbers(numbers, bus):
    """Returns the streams of the bits of a bus, {name: bits}; its lowest bit counts 1."""
    return {name: "".join(str(it >> bit - bus.low() & 1) for it in numbers) for bit, name in bus.bits.items()}


def bus_among(name, inputs):
    """Returns the bus of that name among inputs. Raises ValueError where there is none."""
    if name in inputs:
        return buses.Bus(name, bits={0: name})
    found = next((it for it in buses.buses_of(inputs) if it.is_bus and it.name == name), None)
    if found is None:
        raise ValueError(f"no input is named {name}; the inputs are {' '.join(inputs)[:200] or 'none'}")
    return found


def read_lines(text, letters="01"):
    """Returns the bits of each line `name=bits`, all of one length, {name: bits}."""
    shown, cycles = {}, None
    for line in text.split("\n"):
        name, sign, bits = line.rpartition("=")
        if not line:
            continue
        if not sign or set(bits) - set(letters):
            raise ValueError(f"{line[:60]} is not name=bits")
        if cycles not in (None, len(bits)):
            raise ValueError(f"{line[:60]} has not as many cycles as the lines before")
        shown[name], cycles = bits, len(bits)
    return shown


def words_beside(file):
    """Returns the words of the file beside a netlist."""
    return words_in(command.read(beside(file, ".words")))
