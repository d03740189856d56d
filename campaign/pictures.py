"""The pictures of the report, as inline SVG: bars of outcomes, histograms, and a run at one of its ticks."""
from html import escape

COLOURS = ("#0072b2", "#d55e00", "#009e73", "#cc79a7", "#b8860b", "#56a4d9")
BINS = 24


def svg(width, height, *parts):
    return f'<svg width="{width}" height="{height}" viewBox="0 0 {width} {height}" role="img">{"".join(parts)}</svg>'


def line(x1, y1, x2, y2, more=""):
    return f'<line x1="{x1:.1f}" y1="{y1:.1f}" x2="{x2:.1f}" y2="{y2:.1f}" stroke="var(--line)" {more}/>'


def label(x, y, text, anchor="start"):
    return f'<text x="{x:.1f}" y="{y:.1f}" text-anchor="{anchor}">{escape(text)}</text>'


def plain(value):
    """A number for an axis."""
    return f"{value:,.0f}" if abs(value) >= 100 else f"{value:.3g}"


def bar(counts):
    """The parts of the outcomes as one bar."""
    whole, x, parts = sum(counts.values()), 0.0, []
    for outcome, count in counts.items():
        wide = 160 * count / whole
        if count:
            parts.append(f'<rect x="{x:.1f}" y="3" width="{max(wide, 1):.1f}" height="12" fill="var(--{outcome})">'
                         f"<title>{count:,} {outcome}</title></rect>")
        x += wide
    return svg(162, 18, *parts)


def histogram(values, title):
    """How many values are in each of some parts of their range."""
    low, high = min(values), max(values)
    wide = (high - low) / BINS or 1
    counts = [0] * BINS
    for value in values:
        counts[min(int((value - low) / wide), BINS - 1)] += 1
    most, left, bottom, step = max(counts), 40, 120, 14
    right, bars = left + BINS * step, []
    for k, count in enumerate(counts):
        if count:
            high, ends = 100 * count / most, f"{plain(low + k * wide)} to {plain(low + (k + 1) * wide)}"
            bars.append(f'<rect x="{left + k * step + 1}" y="{bottom - high:.1f}" width="{step - 2}" height="{high:.1f}" fill="var(--run)">'
                        f"<title>{ends}: {count:,}</title></rect>")
    axes = [line(left, bottom, right, bottom), label(left - 6, 24, f"{most:,}", "end"), label(left - 6, bottom, "0", "end"),
            label(left, bottom + 15, plain(low)), label(right, bottom + 15, plain(low + BINS * wide), "end"), label(left, bottom + 33, title)]
    return svg(right + 20, 160, *axes, *bars)


def run(of, tick):
    """A run: from above at one of its ticks, and over time how far each vehicle is ahead of the first one, its speed and its lane."""
    traces = of["traces"][:len(COLOURS)]
    first = traces[0][1]
    ahead = [(name, [(it[1] - base[1]) / 1e6 for it, base in zip(samples, first)]) for name, samples in traces]
    speeds = [(name, [it[2] / 1e3 for it in samples]) for name, samples in traces]
    lanes = [(name, [it[0] for it in samples]) for name, samples in traces]
    seconds = of.get("tick", 100) / 1000
    charts = [chart(ahead, tick, seconds, f"ahead of {traces[0][0]}, m", 0, False), chart(speeds, tick, seconds, "speed, m/s", 310, True),
              chart(lanes, tick, seconds, "lane", 620, True)]
    names = [f'<circle cx="{8 + 120 * k}" cy="10" r="5" fill="{colour}"/>{label(18 + 120 * k, 14, name)}'
             for k, ((name, _), colour) in enumerate(zip(traces, COLOURS))]
    others = len(of["traces"]) - len(traces)
    more = [label(8 + 120 * len(traces), 14, f"and {others} others")] if others else []
    above, height = road(traces, tick, seconds)
    return svg(920, 175 + height, *names, *more, *above, f'<g transform="translate(0 {30 + height})">', *charts, "</g>")


def road(traces, tick, seconds):
    """The lanes from above at a tick, with the way of a second before and after it; and how high that is."""
    count, around = max(it[0] for _, samples in traces for it in samples), round(1 / seconds)
    near = [it[1] / 1e6 for _, samples in traces for it in samples[max(tick - around, 0):tick + around + 1]]
    low, scale = min(near) - 5, 880 / (max(near) - min(near) + 10)
    place = lambda it: (20 + (it[1] / 1e6 - low) * scale, 34 + 26 * (count - it[0]) + 13)  # noqa: E731 (it is used in this function alone)
    parts = [f'<rect x="20" y="34" width="880" height="{26 * count}" fill="var(--area)"/>']
    parts += [line(20, 34 + 26 * k, 900, 34 + 26 * k, 'stroke-dasharray="14 10"' if 0 < k < count else "") for k in range(count + 1)]
    for (name, samples), colour in zip(traces, COLOURS):
        way = " ".join("{:.1f},{:.1f}".format(*place(it)) for it in samples[max(tick - around, 0):tick + around + 1])
        x, y = place(samples[tick])
        parts.append(f'<polyline points="{way}" fill="none" stroke="{colour}" stroke-opacity="0.45" stroke-width="2"/>'
                     f'<path d="M{x:.1f} {y:.1f} l-11 -6 v12 z" fill="{colour}"><title>{escape(name)}</title></path>')
    high = 34 + 26 * count
    parts += [label(16, 34 + 26 * k + 17, str(count - k), "end") for k in range(count)]
    parts += [label(20, high + 14, f"{low:.0f} m"), label(460, high + 14, f"from above at {tick * seconds:.2f} s, driving to the right", "middle"),
              label(900, high + 14, f"{low + 880 / scale:.0f} m", "end")]
    return parts, high


def chart(lines, tick, seconds, title, left, stepped):
    """Some values over the ticks, with a mark at one tick."""
    values = [it for _, its in lines for it in its]
    low, high = min(values), max(values)
    high = high if high > low else low + 1
    ticks = max(len(lines[0][1]) - 1, 1)
    across, up = (lambda t: left + 44 + 236 * t / ticks), (lambda v: 110 - 90 * (v - low) / (high - low))
    parts = [line(left + 44, 110, left + 280, 110), line(left + 44, 20, left + 44, 110),
             line(across(tick), 20, across(tick), 110, 'stroke-dasharray="3 3"'), label(left + 44, 12, title),
             label(left + 38, 26, plain(high), "end"), label(left + 38, 110, plain(low), "end"),
             label(left + 44, 125, "0 s"), label(left + 280, 125, f"{ticks * seconds:.1f} s", "end")]
    for (_, its), colour in zip(lines, COLOURS):
        points = [(t, v) for k, v in enumerate(its) for t in ([k, k + 1] if stepped and k < len(its) - 1 else [k])]
        way = " ".join(f"{across(t):.1f},{up(v):.1f}" for t, v in points)
        parts.append(f'<polyline points="{way}" fill="none" stroke="{colour}" stroke-width="1.6"/>')
    return "".join(parts)
