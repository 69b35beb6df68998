"""A lot sizing: how many units are to be made in each of eight weeks?

A decision is the number of units, 0 to 5. The state is the stock at the beginning of the week. Making any units at all costs
the set-up, each unit costs its price, and each unit that is kept until the next week costs the storage. Every demand is met.

    python3 tools/table.py examples/table/lots.py > lots.json
"""

DEMAND = [2, 3, 1, 4, 2, 0, 3, 2]
SET_UP = 9
PRICE = [3, 3, 4, 4, 2, 2, 5, 5]
STORAGE = 1
MOST_MADE = 5
MOST_STOCK = 6

layers = len(DEMAND)


def initial():
    return 0


def decisions(week, stock):
    return [made for made in range(MOST_MADE + 1) if 0 <= stock + made - DEMAND[week] <= MOST_STOCK]


def step(week, stock, made):
    return stock + made - DEMAND[week]


def gain(week, stock, made):
    set_up = SET_UP if made > 0 else 0
    return -(set_up + PRICE[week] * made + STORAGE * step(week, stock, made))


def merge(week, first, second):
    """The greater stock: what is in stock need not be made."""
    return max(first, second)
