"""Letters of five by eight points, for the scripts that draw: of each letter of ASCII five columns from the left, as
two hexadecimal digits each, whose lowest bit is the top point."""

FIRST = " "
COLUMNS = """
0000000000 00005f0000 0007000700 147f147f14 242a7f2a12 2313086462 3649562050 0005030000 001c224100 0041221c00
2a1c7f1c2a 08083e0808 0080703000 0808080808 0060600000 2010080402 3e5149453e 00427f4000 4261514946 2141454b31
1814127f10 2745454539 3c4a494930 0171090503 3649494936 064949291e 0036360000 0080763600 0008142241 1414141414
4122140800 0201590906 3e415d594e 7e1111117e 7f49494936 3e41414122 7f4141413e 7f49494941 7f09090901 3e4149497a
7f0808087f 00417f4100 2040413f01 7f08142241 7f40404040 7f020c027f 7f0408107f 3e4141413e 7f09090906 3e4151215e
7f09192946 4649494931 01017f0101 3f4040403f 1f2040201f 3f4038403f 6314081463 0304780403 6151494543 007f414100
0204081020 0041417f00 0402010204 4040404040 0003070800 2054545478 7f48444438 3844444428 384444487f 3854545418
00087e0902 18a4a4a47c 7f08040478 00447d4000 4080847d00 007f102844 00417f4000 7c04180478 7c08040478 3844444438
fc24242418 18242424fc 7c08040408 4854545424 043f444020 3c4040207c 1c2040201c 3c4030403c 4428102844 1ca0a0a07c
4464544c44 0008364100 00007f0000 0041360800 0201020402
""".split()
UNKNOWN = "7f4141417f"
WIDE, HIGH = 6, 8  # a letter's points, with the empty column behind it
ROWS = [
    bytes(255 * (column >> y & 1) for column in range(256)) for y in range(HIGH)
]  # of each row the mask of a column there


def columns_of(letter):
    """Returns the columns of a letter, as numbers."""
    place = ord(letter) - ord(FIRST)
    return bytes.fromhex(COLUMNS[place] if 0 <= place < len(COLUMNS) else UNKNOWN)


def masks_of(text, size):
    """Returns the rows of a text's points, each `size` points square, from the top: bytes, 255 where the text is and
    0 beside it."""
    columns = b"".join(columns_of(it) + b"\0" for it in text)
    wide = bytes(it for it in columns for _ in range(size))
    return [wide.translate(it) for it in ROWS for _ in range(size)]


def grown(masks):
    """Returns masks which mark what is beside a marked point, too: they begin a row higher and a column further
    left, and end so much later."""
    own = [int.from_bytes(b"\0" + it + b"\0", "big") for it in masks]
    across = [it << 8 | it | it >> 8 for it in own]
    rows = zip([0, 0, *across], [0, *across, 0], [*across, 0, 0])
    return [(above | row | below).to_bytes(len(masks[0]) + 2, "big") for above, row, below in rows]
