"""Draws the measured times as an SVG: a bar for each case, and the cost of a run against its entries. Usage: picture.py TIMES"""
import math
import sys

from times import Times

WIDTH, LEFT, RIGHT = 940, 370, 60
BAR, GAP, TOP = 18, 8, 74
CHART = 280
BLUE, ORANGE, GREY, INK = "#1f6fb4", "#d2691e", "#c8c8c8", "#222222"


def text(x, y, words, size=13, anchor="start", colour=INK, weight="normal"):
    words = words.replace("&", "&amp;").replace("<", "&lt;")
    return f'<text x="{x:.1f}" y="{y:.1f}" font-size="{size}" text-anchor="{anchor}" fill="{colour}" font-weight="{weight}">{words}</text>'


def line(x1, y1, x2, y2, colour=GREY, width=1):
    return f'<line x1="{x1:.1f}" y1="{y1:.1f}" x2="{x2:.1f}" y2="{y2:.1f}" stroke="{colour}" stroke-width="{width}"/>'


def nice_step(largest, steps):
    """A step of 1, 2 or 5 times a power of ten, so that about so many reach the largest."""
    power = 10 ** math.floor(math.log10(largest / steps))
    return next(k * power for k in (1, 2, 5, 10) if k * power * steps >= largest)


def bars(cases):
    """How many times as long as plain C the library takes. On this scale twice and half lie equally far from 1."""
    ratios = [c.ratio() for c in cases]
    low, high = min(0.5, *ratios), max(2.0, *ratios) * 1.1
    scale = (WIDTH - LEFT - RIGHT) / math.log(high / low)
    place = lambda r: LEFT + math.log(r / low) * scale
    bottom = TOP + len(cases) * (BAR + GAP)
    out = [text(20, 28, "Time taken by the library, as a multiple of plain C's", 17, weight="bold")]
    out.append(text(20, 48, "Below 1 the library is the faster one. The scale is logarithmic.", 12))
    for tick in (0.5, 1, 2, 5, 10, 20, 50, 100):
        if low <= tick <= high:
            out.append(line(place(tick), TOP - 6, place(tick), bottom, INK if tick == 1 else GREY))
            out.append(text(place(tick), bottom + 14, f"{tick:g}", 12, "middle"))
    for i, case in enumerate(cases):
        y, a, b = TOP + i * (BAR + GAP), *sorted((place(1), place(case.ratio())))
        out.append(text(LEFT - 12, y + 14, case.words, 13, "end"))
        out.append(f'<rect x="{a:.1f}" y="{y}" width="{max(b - a, 1):.1f}" height="{BAR}" fill="{BLUE}"/>')
        out.append(text(b + 6, y + 14, f"{case.ratio():.{1 if case.ratio() >= 10 else 2}f}", 13))
    return out, bottom + 24


def growth(times, top):
    """Two lines: the library and plain C."""
    most_x, most_y = times.growth[-1][0], max(max(g[1:]) for g in times.growth) / 1e6
    x0, x1, y0, y1 = 80, WIDTH - 190, top + 60 + CHART, top + 60
    step_x, step_y = nice_step(most_x, 6), nice_step(most_y, 5)
    high_y = step_y * math.ceil(most_y / step_y)
    across = lambda n: x0 + (x1 - x0) * n / most_x
    up = lambda ms: y0 - (y0 - y1) * ms / high_y
    out = [text(20, top + 28, "Time of a run against its entries", 17, weight="bold")]
    out.append(text(20, top + 46, "All entries performed, one core after the other. Milliseconds.", 12))
    for k in range(round(high_y / step_y) + 1):
        out.append(line(x0, up(k * step_y), x1, up(k * step_y)))
        out.append(text(x0 - 8, up(k * step_y) + 4, f"{k * step_y:g}", 12, "end"))
    for k in range(int(most_x // step_x) + 1):
        out.append(text(across(k * step_x), y0 + 18, f"{int(k * step_x):,}", 12, "middle"))
    out.append(text((x0 + x1) / 2, y0 + 38, "entries", 13, "middle"))
    for column, name, colour in ((1, "library", BLUE), (2, "plain C", ORANGE)):
        points = " ".join(f"{across(g[0]):.1f},{up(g[column] / 1e6):.1f}" for g in times.growth)
        out.append(f'<polyline points="{points}" fill="none" stroke="{colour}" stroke-width="2.5"/>')
        end = up(times.growth[-1][column] / 1e6)
        out.append(text(x1 + 10, end, name, 14, colour=colour, weight="bold"))
        out.append(text(x1 + 10, end + 17, f"{times.growth_by_entry(column):.1f} ns an entry", 13, colour=colour))
    return out, y0 + 56


def main():
    times = Times(sys.argv[1])
    upper, middle = bars(times.cases)
    lower, height = growth(times, middle)
    print(f'<svg xmlns="http://www.w3.org/2000/svg" viewBox="0 0 {WIDTH} {height}" width="{WIDTH}" height="{height}" font-family="sans-serif">')
    print(f'<rect width="{WIDTH}" height="{height}" fill="white"/>')
    print("\n".join(upper + lower))
    print("</svg>")


main()
