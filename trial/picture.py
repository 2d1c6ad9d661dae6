"""Holds the picture of a season against the lines of its report.

Usage: picture.py SVG TITLE LINES. The picture must be XML with this title; each farm's row must tell its ten counts, and the pieces of its
bar, from left to right, must be its shares: as long as they should be but for a few units that very small ones are drawn wider.
"""

import re
import sys
import xml.etree.ElementTree as xml

SVG = "{http://www.w3.org/2000/svg}"
# The order of the report's counts, and that of the pieces of a bar.
STATES = ["S1", "S2", "S3", "S4", "S51", "S52"]
PIECES = ["S4", "S51", "S52", "S3", "S2", "S1"]
OTHERS = ["start", "acknowledged fault", "denial", "element"]
WIDER = 15.0


def told(row):
    """The counts that a row tells in words, by what is counted."""
    words = re.sub(r"(?<=\d)\s(?=\d{3})", "", row.find(f"{SVG}title").text)
    states = re.findall(r"(S\d+) [a-z ]+ (\d+) \(", words)
    others = re.findall(r"(\d+) (start|acknowledged fault|denial|element)", words)
    return words, dict([(state, int(count)) for state, count in states] + [(what, int(count)) for count, what in others])


def fail(why):
    sys.exit(f"picture: {why}")


def check_bar(farm, row, cycles):
    """The lengths of the pieces are the shares of the states that the farm was in."""
    pieces = [float(piece.get("width")) for piece in row.findall(f"{SVG}rect[@class='piece']")]
    shares = [cycles[state] for state in PIECES if cycles[state] > 0]
    if len(pieces) != len(shares):
        fail(f"farm {farm} has {len(pieces)} pieces for {len(shares)} states")
    for piece, share in zip(pieces, shares):
        if abs(piece - sum(pieces) * share / sum(shares)) > WIDER:
            fail(f"farm {farm} has a piece of {piece} for {share} of {sum(shares)} cycles")


def main():
    picture, title, lines = sys.argv[1:]
    root = xml.parse(picture).getroot()
    if root.find(f"{SVG}title").text != title:
        fail(f"the title is {root.find(f'{SVG}title').text}")
    rows = [row for row in root.iter(f"{SVG}g") if row.find(f"{SVG}title") is not None]
    with open(lines, encoding="ascii") as file:
        counts = [line.split()[1:] for line in file if line.startswith("r ")]
    if len(rows) != 16 or len(counts) != 16:
        fail(f"{len(rows)} rows for {len(counts)} lines")
    for row, (farm, *numbers) in zip(rows, counts):
        numbers = [int(number) for number in numbers]
        words, found = told(row)
        cycles = dict(zip(STATES, numbers))
        meant = {state: count for state, count in cycles.items() if count > 0}
        meant.update(zip(OTHERS, numbers[6:]))
        if not words.startswith(f"Farm {farm}: ") or found != meant:
            fail(f"farm {farm} has {numbers}, and its row says: {words}")
        check_bar(farm, row, cycles)


if __name__ == "__main__":
    main()
