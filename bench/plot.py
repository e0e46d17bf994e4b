"""Draws the times that bench/compare printed over the numbers of threads, by gnuplot. Then it adds to each picture other
colours for a dark page, and a title and a text for readers by ear."""
import os
import re
import shutil
import subprocess
import sys
from xml.sax.saxutils import escape

# Each picture, with its title and the row that it shows.
PICTURES = {
    "push": ("A push, on fresh memory", "push, fresh memory"),
    "growth": ("A growth of 64 values, on fresh memory", "growths of 64 without tokens, fresh memory"),
    "buffered": ("A push by a writer with a buffer of 64, on fresh memory", "pushes by a buffer of 64, fresh memory"),
    "at": ("at: a read at a random place", "at without a token, random places"),
}
# Rows that compare with boxcar, and the row of the picture that shows its times.
BOXCAR = {
    "push, beside the kit boxcar": "push, fresh memory",
    "at, beside get of the kit boxcar": "at without a token, random places",
}

# Each colour on a light page and on a dark one.
PAGE, INK, LINE = ("#ffffff", "#0d1117"), ("#1f2328", "#e6edf3"), ("#d1d9e0", "#3d444d")
# Each vector, with its colour and the shape of its points.
VECTORS = {
    "this vector": (("#0550ae", "#79c0ff"), 7),
    "oneTBB": (("#bc4c00", "#ffa657"), 5),
    "locked vector": (("#8250df", "#d2a8ff"), 9),
    "boxcar": (("#1a7f37", "#56d364"), 13),
}

PANELS = """\
set terminal svg size 860,380 font 'sans-serif,13' background '{page}'
set output '{file}'
set multiplot layout 1,2 margins 0.07,0.985,0.14,0.75 spacing 0.09,0
set border 3 linecolor rgb '{line}'
set tics nomirror scale 0.5,0 textcolor rgb '{ink}'
set grid ytics linecolor rgb '{line}' linetype 1 linewidth 0.6
set logscale x 2
set xrange [0.92:4.35]
set xtics (1, 2, 4)
set xlabel 'threads' textcolor rgb '{ink}' offset 0,0.4
set logscale y 10
set ytics ({tics})
set label 1 '{title}' at screen 0.015,0.94 font 'sans-serif,17' textcolor rgb '{ink}'
set key at screen 0.985,0.965 right top horizontal Left reverse samplen 1.6 textcolor rgb '{ink}'
set title 'nanoseconds a call, logarithmic' textcolor rgb '{ink}' offset 0,-0.3
plot [][{least}:{most}] {times}
unset label 1
unset key
set title 'millions of calls a second of all threads, logarithmic' textcolor rgb '{ink}' offset 0,-0.3
plot [][{least_rate}:{most_rate}] {rates}
"""
TICS = ", ".join(f"{digit}e{power}" for power in range(-2, 6) for digit in (1, 2, 5))


def is_there():
    """Whether gnuplot is installed; if not, says so."""
    if not shutil.which("gnuplot"):
        print("--plot needs gnuplot (Debian: gnuplot-nox)", file=sys.stderr)
    return bool(shutil.which("gnuplot"))


def times_of(text):
    """The nanoseconds in what bench/compare printed: for each row and vector a list of pairs, threads and time."""
    found = {}
    for line in text.split("\n"):
        numbers = re.findall(r"[\d.]+", line[42:])
        name, threads = line[:42].strip(), numbers[:1]
        if len(numbers) == 8:
            pairs = zip(("this vector", "oneTBB", "locked vector"), (numbers[1], numbers[2], numbers[6]))
        elif name in BOXCAR and len(numbers) == 4:
            name, pairs = BOXCAR[name], [("boxcar", numbers[2])]
        else:
            continue
        for vector, time in pairs:
            found.setdefault(name, {}).setdefault(vector, []).append((int(threads[0]), float(time)))
    return found


def rates_of(times):
    """The millions of calls that all threads make in a second."""
    return {vector: [(threads, 1000 * threads / time) for threads, time in points] for vector, points in times.items()}


def span(lines):
    """The range of an axis that shows all points."""
    values = [value for points in lines.values() for _, value in points]
    return min(values) / 1.4, max(values) * 1.4


def blocks(prefix, lines):
    """The points as data of gnuplot, and the words that draw them as lines."""
    data, words = "", []
    for at, (vector, points) in enumerate(lines.items()):
        (light, _), shape = VECTORS[vector]
        rows = "".join(f"{threads} {value:.2f}\n" for threads, value in points)
        data += f"${prefix}{at} << END\n{rows}END\n"
        look = f"linecolor rgb '{light}' linewidth 2.2 pointtype {shape} pointsize 0.8"
        words.append(f"${prefix}{at} using 1:2 with linespoints {look} title '{vector}'")
    return data, ", ".join(words)


def sentences(times):
    """The points in words."""
    for vector, points in times.items():
        numbers = "; ".join(f"{time:g}" for _, time in points)
        yield f"{vector}: {numbers} nanoseconds a call, at {'; '.join(str(threads) for threads, _ in points)} threads."


def for_all_readers(text, title, told):
    """gnuplot's picture with a dark page too, and with a title and a text."""
    colours = [PAGE, INK, LINE, *(colours for colours, _ in VECTORS.values())]
    parts = ("fill", "stroke", "color")
    rules = "".join(f'[{part}="{light}"]{{{part}:{dark}}}' for light, dark in colours for part in parts)
    text = re.sub(r"rgb\( *(\d+), *(\d+), *(\d+)\)", lambda it: "#%02x%02x%02x" % tuple(map(int, it.groups())), text)
    text = re.sub(r"<title>.*?</title>", f'<title id="title">{escape(title)}</title>', text, count=1, flags=re.DOTALL)
    style = f"<style>@media(prefers-color-scheme:dark){{{rules}}}</style>"
    text = re.sub(r"<desc>.*?</desc>", f'<desc id="told">{escape(told)}</desc>\n{style}', text, count=1, flags=re.DOTALL)
    return text.replace("<svg", '<svg role="img" aria-labelledby="title told"', 1)


def draw(text, folder):
    """Draws a picture of each row that was printed, in a folder."""
    os.makedirs(folder, exist_ok=True)
    every = times_of(text)
    for name, (title, row) in PICTURES.items():
        if row not in every:
            continue
        times, file = every[row], os.path.join(folder, f"{name}.svg")
        (data, lines), (more, others) = blocks("times", times), blocks("rates", rates_of(times))
        (least, most), (least_rate, most_rate) = span(times), span(rates_of(times))
        words = {"page": PAGE[0], "ink": INK[0], "line": LINE[0], "tics": TICS, "file": file, "title": title}
        words |= {"times": lines, "least": least, "most": most}
        words |= {"rates": others, "least_rate": least_rate, "most_rate": most_rate}
        subprocess.run(["gnuplot"], input=data + more + PANELS.format(**words), text=True, check=True)
        with open(file, encoding="utf-8") as drawn:
            picture = for_all_readers(drawn.read(), title, " ".join(sentences(times)))
        with open(file, "w", encoding="utf-8") as drawn:
            drawn.write(picture)
