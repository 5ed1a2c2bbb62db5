"""Draws docs/two-chains.svg: how the hash that a program gets follows from the RFCs, once by the proofs and once by
./check, and where each of the two is only tested or trusted."""

from common import write

PICTURE, TITLE = 'docs/two-chains.svg', 'How does a hash follow from the RFCs?'
# In pixels: the picture, both columns, and a box.
WIDTH, LEFT, RIGHT, HALF, TOP, BOX = 480, 14, 250, 216, 44, 30
# What each step of a chain rests on, with the colours of docs/what-is-proved.svg.
COLOURS = {'proved': '#009e73', 'checked': '#56b4e9', 'tested': '#e69f00', 'trusted': '#8a8d91', 'read': '#cc79a7'}
STYLE = '''text { font: 14px system-ui, sans-serif; fill: #6e7781 }
.title { font-size: 16px; font-weight: 600 }
.box { font-weight: 600; text-anchor: middle }
.note { font-size: 13px; text-anchor: middle }
.frame { fill: none; stroke: #8b949e }
.line { stroke: #8b949e; stroke-width: 1.5 }
@media (prefers-color-scheme: light) { text { fill: #24292f } }
@media (prefers-color-scheme: dark) { text { fill: #d0d7de } }
.word { font-size: 13px; fill: #000; text-anchor: middle }'''


def box(x, y, width, words):
    return (f'<rect class="frame" x="{x}" y="{y}" width="{width}" height="{BOX}" rx="4"/>'
            f'<text class="box" x="{x + width / 2:g}" y="{y + 20}">{words}</text>')


def step(x, y, height, how, lines):
    """A step down: how it is known, and by what. The line pauses where the text stands."""
    texts = ''.join(f'<text class="note" x="{x}" y="{y + 47 + 16 * at}">{line}</text>' for at, line in enumerate(lines))
    return (f'{line_down(x, y, y + 34)}<rect x="{x - 32}" y="{y + 8}" width="64" height="24" rx="3" '
            f'fill="{COLOURS[how]}"/><text class="word" x="{x}" y="{y + 25}">{how}</text>{texts}'
            f'{line_down(x, y + 38 + 16 * len(lines), y + height)}')


def line_down(x, begin, end):
    return f'<line class="line" x1="{x}" x2="{x}" y1="{begin}" y2="{end}"/>'


def column(x, width, y, steps):
    """Steps down and the boxes below them, and where they end."""
    parts = []
    for how, lines, height, below in steps:
        parts.append(step(x + width // 2, y, height, how, lines))
        y += height
        if below:
            parts.append(box(x, y, width, below))
            y += BOX
    return parts, y


def drawn():
    """The picture's elements, and its height."""
    whole = WIDTH - 2 * LEFT
    left, low = column(LEFT, HALF, TOP + BOX, [
        ('read', ['by you: docs/DEFINITIONS.md'], 82, 'definitions in Rattle'),
        ('proved', ['by a closed prover'], 82, 'code in Rattle'),
        ('trusted', ['the compiler'], 82, '')])
    right, _ = column(RIGHT, HALF, TOP + BOX, [
        ('read', ['by you, and tested with vectors'], 82, 'definitions in Python'),
        ('checked', ['by Z3: the functions that', 'machine_code/ lists as covered'], 90, ''),
        ('tested', ['the others, by random hashes'], low - TOP - 2 * BOX - 82 - 90, '')])
    below, end = column(LEFT, whole, low + BOX, [
        ('checked', ['by Z3: C passes arguments and verdicts on'], 70, 'calls of the C library'),
        ('tested', ['memory, threads, and the packages'], 70, 'your program')])
    return [f'<text x="{LEFT}" y="26" class="title">{TITLE}</text>', box(LEFT, TOP, whole, 'RFC 9106 and RFC 7693'),
            *left, *right, box(LEFT, low, whole, 'machine code in release/'), *below], end + LEFT


def write_all():
    parts, height = drawn()
    head = (f'<svg xmlns="http://www.w3.org/2000/svg" width="{WIDTH}" height="{height}" viewBox="0 0 {WIDTH} {height}" '
            f'role="img">')
    write(PICTURE, '\n'.join([head, f'<title>{TITLE}</title>', f'<style>{STYLE}</style>', *parts, '</svg>', '']))
