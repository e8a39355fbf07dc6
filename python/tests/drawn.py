"""Files of drawn pieces of PBN, the same for the same seed: games that end in many ways, tags in many forms, comments and strings left open."""
import random
from typing import Iterator, List

NORTH = b"N:J6.72.AQ7643.AJ7 Q9842.Q854.T.K42 AT75.AT9.KJ8.T83 K3.KJ63.952.Q965"
EAST = b"E" + NORTH[1:]
# The results of NORTH by DDS, strains from spades to notrump, declarers from North clockwise.
RESULTS = ((7, 6, 7, 6), (6, 7, 6, 7), (10, 3, 10, 3), (7, 6, 7, 6), (9, 3, 9, 3))

PIECES: List[bytes] = [
    b"\n",
    b"\r\n",
    b"\n\n",
    b"\n\n",
    b'\n\n[Event ""]\n',
    b'[Board "1"]\n',
    b'[Board "12"]',
    b'[Board "7777777777777777777777777777777"]\n',
    b'[Board "77777777777777777777777777777777"]\n',
    b'[Board "777777777777777777777777777777777777777777777777"]{ }\n',
    b'[Board "1\\"2\\\\3"]\n',
    b'[Board\n"5"]\n',
    b'[Board "#"]\n',
    b'[Board ""]\n',
    b'[Deal "' + NORTH + b'"]\n',
    b'[Deal "' + NORTH + b'"]\n',
    b'[Deal "' + EAST + b'"]\r\n',
    b'[Deal "' + NORTH + b'"]',
    b'[ Deal  "' + NORTH.lower().replace(b":", b" : ") + b' " ]\n',
    b'[Deal "##' + EAST + b'"]\n',
    b'[Deal "#"]\n',
    b'[Deal "N:J6.72.AQ7643.AJ7 Q9842.Q854.T.K42 - K3.KJ63.952.Q965"]\n',
    b'[Deal "N:J6.72.AQ7643.AJ7 Q9842.Q854.T.K42 AT75.AT9.KJ8.T83 K3.KJ63.952.Q966"]\n',
    b'[Deal "N:J6.72.AQ7643.AJ7 Q9842.Q854.T.K42 AT75.AT9.KJ8.T83 K3.KJ63.952.Q96"]\n',
    b'[Deal "N:J6.72.AQ7643.AJ7 Q9842.Q854.10.K42 AT75.AT9.KJ8.T83 K3.KJ63.952.Q965"]\n',
    b'[Deal "N:A"]\n',
    b'[Deal "N:... ... ... ..."]\n',
    b'[Deal "N:A... K... Q... J..."]\n',
    b'[Deal ""]\n',
    b'[Deal "?"]\n',
    b'[Dealer "N"]\n',
    b'[Dealer "w"]\n',
    b'[Dealer "X"]\n',
    b'[Dealer "North"]\n',
    b'[Dealer "#"]\n',
    b'[Vulnerable "None"]\n',
    b'[Vulnerable "NS"]\n',
    b'[Vulnerable "Both"]',
    b'[Vulnerable "##love"]',
    b'[Vulnerable "?"]\n',
    b'[DoubleDummyTricks "976a7976a73673636736"]\n',
    b'[DoubleDummyTricks "*"]\n',
    b'[OptimumScore "NS 400"]\n',
    b'[ParContract "NS 3NT="]\n',
    b'[OptimumResultTable "Declarer;Denomination\\2R;Result\\2R"]\nN NT  9\nN  S  7\n',
    b'[Event "x"]\n',
    b'[event "x"]\n',
    b'[Event\t"x"] \n',
    b'[Event "x" ]\n',
    b'[Event"x"]',
    b'[Event "a\\"b"]\n',
    b'[Event "a\\\\"]\n',
    b'[Event "a\\',
    b'[Event "x',
    b"[Event x]\n",
    b"[E\n",
    b'[;]\nEvent % \n"a" {]} ]\n',
    b'[\n% ]\nSite "a"\n% ]\n]',
    b'[Auction "N"]\n1NT Pass 3NT Pass\nPass Pass\n',
    b'[Play "W"]\nS4 S2 SK S3\n*\n',
    b'[Result "9"]',
    b"{ a comment }",
    b"{ a comment\nover two lines }\n",
    b"{ a comment\n\nwith an empty line }\n",
    b'{[Board "4"]}',
    b"{",
    b"}",
    b'; to the end of the line [Board "9"]\n',
    b'% an escape [Board "8"]\n',
    b'\n% an escape { "\n',
    b'"a string"',
    b'"a string with a \\" in it" ',
    b'"[Board \\"6\\"]"',
    b'"',
    b"\\",
    b" ",
    b"\t",
    b"    \n",
    b" \v\f\r\n",
    b"Pass 1NT Pass\n",
    b"[",
    b"]",
    b"\xef\xbb\xbf",
    b"\x00\xff\x80\n",
    b"M\xfcnchen \xc3\xbc\n",
    b"a text of some more than sixteen bytes, and of more than thirty-two ",
]
# How a long tag and a long line of blanks begin and end. What begins at a byte is judged by 65,536 bytes.
LONG = [(b'\n[Board "', b'"]\n', b"7"), (b'\n}  [Event "', b'"]\n', b"7"), (b'\n  [Board "', b'"]', b"7"), (b'\n[Event "x"]\n', b"\n", b" "), (b'\n[Site "x"] {', b"}]", b"\n")]
NEAR = 65_536


def drawn_files(seed: int, count: int, most: int) -> Iterator[bytes]:
    """So many files of up to so many pieces."""
    rng = random.Random(seed)
    for _ in range(count):
        pieces = rng.choices(PIECES, k=rng.randint(1, most))
        yield b"".join(piece * (rng.randint(2, 4) if rng.random() < 0.05 else 1) for piece in pieces)


def long_files(seed: int, count: int) -> Iterator[bytes]:
    """Files with a tag or a line that is about as long as what is looked at."""
    rng = random.Random(seed)
    for number in range(count):
        before, after = (b"".join(rng.choices(PIECES, k=rng.randint(1, 20))) for _ in range(2))
        head, tail, byte = LONG[number % len(LONG)]
        fill = byte * (NEAR - len(head) - len(tail) + rng.randint(-3, 6))
        yield before + b"\n}\n" + head + fill + tail + after
