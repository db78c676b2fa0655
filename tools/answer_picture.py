"""An answer as a picture: particles coloured by pressure, arrows for wall forces. SVG."""
import math

from answer_files import alarms, decimal, doubts, ended, finite, held
from answer_text import placing
from commands import Misused, Wrong, counted

# The colours of pressures: ever darker, so that they read in grey too.
STOPS = (255, 247, 188), (254, 196, 79), (236, 112, 20), (153, 52, 4), (60, 15, 10)
# Lengths in pixels; the last two are those of the longest arrow and of a warning above it all.
WIDE, HIGH, LEFT, TOP, LEGEND, LONGEST, BANNER = 640, 480, 40, 56, 190, 54, 40


def colour(share):
    """From pale (0) to dark (1)."""
    at = min(max(share, 0.0), 1.0) * (len(STOPS) - 1)
    k = min(int(at), len(STOPS) - 2)
    return "#%02x%02x%02x" % tuple(round(a + (b - a) * (at - k)) for a, b in zip(STOPS[k], STOPS[k + 1]))


def nice(x):
    """The greatest of 1, 2 and 5 times a power of ten that is at most x."""
    power = 10.0 ** math.floor(math.log10(x))
    return max(k * power for k in (0.5, 1, 2, 5) if k * power <= x)


def arrow(x, y, dx, dy):
    """A line with a head, from x, y on, with a white edge."""
    long = math.hypot(dx, dy)
    head = min(9.0, long) / long
    back, side = (x + dx - dx * head, y + dy - dy * head), (dy * head / 2.5, dx * head / 2.5)
    tip = x + dx, y + dy, back[0] - side[0], back[1] + side[1], back[0] + side[0], back[1] - side[1]
    shape = '<path d="M%.1f %.1fL%.1f %.1f"/><path d="M%.1f %.1fL%.1f %.1fL%.1f %.1fz"/>' % (x, y, *back, *tip)
    return ('<g stroke="#fff" stroke-width="5">%s</g><g stroke="#123a7a" fill="#123a7a" stroke-width="2">%s</g>'
            % (shape, shape))


def label(x, y, text, more=""): return '<text x="%.1f" y="%.1f" %s>%s</text>' % (x, y, more, text)


def frame(particles, a, b):
    """Where a particle stands in the picture by its axes a and b, how large a length of 1 is, and a
    particle's radius."""
    low, high = ([pick(p.position[k] for p in particles) for k in (a, b)] for pick in (min, max))
    span = max(high[0] - low[0], (high[1] - low[1]) * (WIDE - 120) / (HIGH - 120)) or 1.0
    if not 1e-290 < span < 1e290:
        raise Wrong("the particles are too far apart, or too close, to be drawn; `csv` has their positions")
    size = (WIDE - 120) / span

    middle = [x / 2 + y / 2 for x, y in zip(low, high)]

    def spot(p):
        right, up = p.position[a] - middle[0], p.position[b] - middle[1]
        return round(LEFT + WIDE / 2 + right * size, 2), round(TOP + HIGH / 2 - up * size, 2)

    apart = {(x // 8, y // 8) for x, y in map(spot, particles)}
    area = max(high[0] - low[0], span / 8) * max(high[1] - low[1], span / 8) * size * size
    return spot, size, max(3.0, min(26.0, 0.4 * math.sqrt(area / len(apart))))


def loads(walls, spot, a, b):
    """Forces, added up over the wall particles that stand behind each other in the picture."""
    found = {}
    for w in walls:
        if w.force and finite(w):
            x, y = found.get(spot(w), (0.0, 0.0))
            found[spot(w)] = x + w.force[a], y + w.force[b]
    return found


def squares(walls, spot, radius):
    return ['<rect x="%.1f" y="%.1f" width="%.1f" height="%.1f" fill="#9aa3ad"/>'
            % (x - radius / 2, y - radius / 2, radius, radius)
            for x, y in sorted(set(map(spot, walls)))]


def circles(fluid, spot, radius, least, most):
    """Coloured from the least pressure to the most, the highest on top."""
    out, part = [], 2 if math.isinf(most - least) else 1      # halves, where the difference overflows
    for p in sorted(fluid, key=lambda p: p.pressure):
        share = (p.pressure / part - least / part) / (most / part - least / part) if most > least else 0.0
        out.append('<circle cx="%.1f" cy="%.1f" r="%.1f" fill="%s" stroke="#555">'
                   '<title>fluid %d, particle %d: pressure %s</title></circle>'
                   % (*spot(p), radius, colour(share), p.model, p.number, decimal(p.pressure)))
    return out


def plane_of(axes, plane):
    """The axes that go right and up: the first and the last one, where no plane is given."""
    usual = axes[0] + axes[-1]
    plane = usual if plane is None else plane
    if len(plane) != 2 or plane[0] == plane[1] or not set(plane) <= set(axes):
        raise Misused("--plane takes two of the letters %s, as in: --plane %s"
                      % (", ".join(axes), usual))
    return plane


def across(walls, axes, plane):
    """Remarks on forces that the plane does not show."""
    return ["left out: what wall forces have along %s, across the picture" % axis
            for k, axis in enumerate(axes)
            if axis not in plane and any(w.force and finite(w) and w.force[k] for w in walls)]


def picture(answer, plane=None):
    """The text of an SVG file, and notes on what it leaves out."""
    plane = plane_of(answer.axes, plane)
    a, b = map(answer.axes.index, plane)
    fluid, walls, notes = [p for p in answer.fluid if finite(p)], [w for w in answer.wall if w.position], []
    if len(fluid) < len(answer.fluid):
        notes.append("left out: %s with a number that is not finite; see `table`"
                     % counted(len(answer.fluid) - len(fluid), "fluid particle"))
    if any(w.force for w in answer.wall if not w.position):
        notes.append("left out: wall forces, since no wall positions were given; "
                     + placing(answer))
    if not fluid and not walls:
        raise Wrong("there is no particle with a place to draw; "
                    + "; ".join(notes or ["take a scene that has fluid particles"]))
    spot, size, radius = frame([*fluid, *walls], a, b)
    forces = loads(walls, spot, a, b)
    strongest = max([math.hypot(*force) for force in forces.values()] or [0.0])
    drawable = 1e-290 < strongest < 1e290
    if strongest and not drawable or any(w.force and not finite(w) for w in walls):
        notes.append("left out: wall forces that are too large, too small or not finite; see `table`")
    least, most = min([p.pressure for p in fluid] + [0.0]), max([p.pressure for p in fluid] + [0.0])
    out = squares(walls, spot, radius) + circles(fluid, spot, radius, least, most)
    shown = [spot for spot, force in sorted(forces.items()) if drawable and math.hypot(*force) > strongest / 50]
    out += [arrow(x, y, forces[x, y][0] / strongest * LONGEST, -forces[x, y][1] / strongest * LONGEST)
            for x, y in shown]
    faint = sum(any(force) for force in forces.values()) - len(shown)
    remarks = [note.split(";")[0] for note in doubts(answer) + notes]      # without the advice
    if drawable and faint:
        remarks.append("left out: %s below a fiftieth of the strongest" % counted(faint, "wall force"))
    remarks += across(walls, answer.axes, plane)
    return svg(answer, plane, remarks, out + scales(least, most, strongest if drawable else 0.0, size)), notes


def scales(least, most, strongest, size):
    """What colours, arrows and lengths mean, to the right of the picture."""
    x, y, tall, steps = LEFT + WIDE + 30, TOP + 30, 240, 48 if most > least else 1
    out = [label(x, y - 10, "pressure")]
    out += ['<rect x="%d" y="%.1f" width="22" height="%.1f" fill="%s"/>'
            % (x, y + tall - (k + 1) * tall / steps, tall / steps + 0.5, colour(k / 47))
            for k in range(steps)]
    out += [label(x + 30, y + tall - k * tall / 4 + 4, decimal(least * (1 - k / 4) + most * (k / 4)))
            for k in range(5 if most > least else 1)]
    if strongest:
        out += [label(x, y + tall + 46, "wall force " + decimal(nice(strongest))),
                arrow(x, y + tall + 62, LONGEST * nice(strongest) / strongest, 0.0)]
    bar, low = nice(130 / size), TOP + HIGH
    return out + ['<path d="M%d %d v-8 v4 h%.1f v-4 v8" fill="none" stroke="#222"/>' % (x, low - 20, bar * size),
                  label(x, low, "length " + decimal(bar))]


def banner(text):
    """Red, over the whole width."""
    return ('<rect width="100%%" height="%d" fill="#b00020"/>' % BANNER
            + label(LEFT, BANNER - 15, text, 'font-size="15" font-weight="bold" fill="#fff"'))


def svg(answer, plane, remarks, drawn):
    there = "behind each other" if len(answer.axes) > 2 else "at one place"
    heads = ["%s to the right, %s up; of particles %s the highest pressure shows, "
             "and wall forces are added up" % (*plane, there), held(answer)[2:], *remarks]
    banners = list(map(banner, alarms(answer)))
    top = BANNER * len(banners)
    down = top + 18 * (len(heads) - 1)      # by so much the picture makes room for what is above it
    wide, high = LEFT + WIDE + LEGEND, TOP + HIGH + 50 + down
    size = 'width="%d" height="%d" viewBox="0 0 %d %d"' % (wide, high, wide, high)
    out = ['<svg xmlns="http://www.w3.org/2000/svg" %s font-family="sans-serif" font-size="13" fill="#222">' % size,
           '<rect width="100%" height="100%" fill="#fff"/>', *banners,
           label(LEFT, top + 28, ended(answer), 'font-size="17"')]
    out += [label(LEFT, top + 48 + 18 * k, head) for k, head in enumerate(heads)]
    return "\n".join([*out, '<g transform="translate(0 %d)">' % down, *drawn, "</g>", "</svg>"]) + "\n"
