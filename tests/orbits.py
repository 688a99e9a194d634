"""The classes of a plane group's repeat, by enumerating images: no homes, no folds.

Written from docs/RULES.md alone, to check the counts on the cards.
"""

GROUPS = {
    "p1": "x,y",
    "p2": "x,y; -x,-y",
    "pm": "x,y; -x,y",
    "pg": "x,y; -x,y+h",
    "cm": "x,y; -x,y; x+h,y+h; -x+h,y+h",
    "p2mm": "x,y; -x,-y; -x,y; x,-y",
    "p2mg": "x,y; -x,-y; -x+h,y; x+h,-y",
    "p2gg": "x,y; -x,-y; -x+h,y+h; x+h,-y+h",
    "c2mm": "x,y; -x,-y; -x,y; x,-y; x+h,y+h; -x+h,-y+h; -x+h,y+h; x+h,-y+h",
    "p4": "x,y; -x,-y; -y,x; y,-x",
    "p4mm": "x,y; -x,-y; -y,x; y,-x; -x,y; x,-y; y,x; -y,-x",
    "p4gm": "x,y; -x,-y; -y,x; y,-x; -x+h,y+h; x+h,-y+h; y+h,x+h; -y+h,-x+h",
    "p3": "x,y; -y,x-y; -x+y,-x",
    "p3m1": "x,y; -y,x-y; -x+y,-x; -y,-x; -x+y,y; x,x-y",
    "p31m": "x,y; -y,x-y; -x+y,-x; y,x; x-y,-y; -x,-x+y",
    "p6": "x,y; -y,x-y; -x+y,-x; -x,-y; y,-x+y; x-y,x",
    "p6mm": "x,y; -y,x-y; -x+y,-x; -x,-y; y,-x+y; x-y,x; -y,-x; -x+y,y; x,x-y; y,x; x-y,-y; -x,-x+y",
}


def positions(symbol, p, q):
    """Each position as a map of the torus of p by q cells, with its determinant."""
    maps = []
    for position in GROUPS[symbol].split(";"):
        fx, fy = (part.strip() for part in position.split(","))

        def carry(x, y, fx=fx, fy=fy):
            return (
                eval(fx, {"x": x, "y": y, "h": p // 2}) % p,
                eval(fy, {"x": x, "y": y, "h": q // 2}) % q,
            )

        def linear(f, x, y):
            return eval(f, {"x": x, "y": y, "h": 0})

        determinant = linear(fx, 1, 0) * linear(fy, 0, 1) - linear(fx, 0, 1) * linear(fy, 1, 0)
        maps.append((carry, determinant))
    return maps


def census(symbol, p, q):
    """How many classes the repeat has, and how many of them an improper operation carries a cell of to itself."""
    maps = positions(symbol, p, q)
    seen, classes, mirrored = set(), 0, 0
    for y in range(q):
        for x in range(p):
            if (x, y) in seen:
                continue
            seen.update(carry(x, y) for carry, _ in maps)
            classes += 1
            mirrored += any(carry(x, y) == (x, y) and determinant < 0 for carry, determinant in maps)
    return classes, mirrored
