"""Round and square brackets: which well-formed text of ten signs is worth most?

A decision is a sign: 0 opens a round bracket, 1 opens a square one, and 2 closes the last one that is open. A sign has a worth
at each place. The state is what is open, from the outside in; at most three brackets are open at once.

    python3 tools/table.py examples/table/brackets.py > brackets.json
"""

ROUND = [3, 1, 4, 1, 5, 0, 2, 6, 5, 3]
SQUARE = [2, 7, 1, 8, 2, 8, 1, 8, 2, 8]
CLOSE = [0, 5, 7, 7, 2, 1, 5, 6, 6, 4]
MOST_OPEN = 3

layers = len(CLOSE)


def initial():
    return ""


def decisions(place, opened):
    left = layers - place
    signs = []
    if len(opened) < min(MOST_OPEN, left - 1):
        signs += [0, 1]
    if opened:
        signs.append(2)
    return signs


def step(place, opened, sign):
    return opened[:-1] if sign == 2 else opened + "(["[sign]


def gain(place, opened, sign):
    if sign == 2:
        # A square bracket is worth one more when it closes.
        return CLOSE[place] + (opened[-1] == "[")
    return (ROUND, SQUARE)[sign][place]
