"""Draws a plan as a picture, with matplotlib."""

import fractions
import os

from lib import decimals
from lib.program import Failed

FORMS = (".png", ".svg")
DAY = 24 * 60
MISSING = "matplotlib isn't here: apt-get install python3-matplotlib"
NET_COLOR, FLOW_COLOR, LEVEL_COLOR, PEAK_COLOR = "#9a9a9a", "#0b62a4", "#3a8f3a", "#b3331c"


def form_of(path):
    """The form of a picture by the end of its name."""
    form = os.path.splitext(path)[1].lower()
    if form not in FORMS:
        raise Failed(f"{path}: a picture ends with .png or .svg")
    return form[1:]


def library():
    """The parts of matplotlib that are used."""
    try:
        import matplotlib
        from matplotlib import pyplot, ticker
    except ImportError:
        raise Failed(MISSING) from None
    pyplot.switch_backend("agg")
    # the same picture each time
    matplotlib.rcParams["svg.hashsalt"] = "plan"
    return pyplot, ticker


def kilowatts(watts, _place=None):
    """A power in W as a text in kW."""
    return decimals.text_of(fractions.Fraction(watts) / 1000)


def title_of(plan):
    """The title: the month, the bill and what it is without the battery."""
    least = "least bill" if plan.value("verdict") == "least" else "bill"
    # two dollar signs would begin and end a formula
    label = plan.value("label").replace("$", r"\$")
    text = f"{label}, {plan.value('month')}: {least} {plan.value('bill')} USD, without the battery {plan.value('metered')} USD"
    lower = plan.value("lower")
    return f"{text}\nno schedule has a bill below {lower} USD" if lower else text


def draw_peaks(axes, plan, powers):
    """The peaks that are charged as lines; where none is, the greatest power of the month."""
    peaks = plan.peaks() or [("greatest import", max(0, *powers))]
    for style, (name, watts) in zip(("--", ":", "-.") * len(peaks), peaks):
        axes.axhline(watts, color=PEAK_COLOR, linestyle=style, linewidth=1, label=f"{name}: {kilowatts(watts)} kW")


def draw_power(axes, ticker, plan, net, begins):
    """Draws the power through the meter, with and without the battery where that is known."""
    hour = 60 // plan.minutes()
    powers = [interval.flow * hour for interval in plan.intervals]
    if net is not None:
        readings = [reading * hour for reading in net]
        axes.step(begins, readings + readings[-1:], where="post", color=NET_COLOR, linewidth=1, label="without the battery")
    axes.step(begins, powers + powers[-1:], where="post", color=FLOW_COLOR, linewidth=1, label="with the battery")
    draw_peaks(axes, plan, powers)
    axes.axhline(0, color="black", linewidth=0.5)
    axes.set_ylabel("import (below 0: export), kW")
    axes.yaxis.set_major_formatter(ticker.FuncFormatter(kilowatts))
    axes.legend(loc="upper center", bbox_to_anchor=(0.5, -0.01), ncol=4, frameon=False, fontsize="small")
    axes.set_title(title_of(plan))


def draw_levels(axes, ticker, plan, begins):
    """Draws the level behind each interval, over the days of the month."""
    levels = [interval.level for interval in plan.intervals]
    axes.step(begins, levels[:1] + levels, where="pre", color=LEVEL_COLOR, linewidth=1)
    axes.set_ylabel("level")
    axes.set_ylim(bottom=0)
    axes.yaxis.set_major_locator(ticker.MaxNLocator(integer=True))
    axes.set_xlim(begins[0], begins[-1])
    axes.set_xticks(range(0, begins[-1], 2 * DAY), range(1, begins[-1] // DAY + 1, 2))
    axes.set_xlabel(f"day of {plan.value('month')}")


def draw(plan, net, target, form):
    """Draws a plan into a file: the power above and the level below."""
    pyplot, ticker = library()
    # in minutes of the month, with its end
    begins = [plan.minutes() * place for place in range(len(plan.intervals) + 1)]
    figure, (above, below) = pyplot.subplots(2, 1, sharex=True, figsize=(13, 7), gridspec_kw={"height_ratios": (3, 1)})
    draw_power(above, ticker, plan, net, begins)
    draw_levels(below, ticker, plan, begins)
    figure.tight_layout()
    figure.savefig(target, format=form, dpi=100, metadata={"Date": None} if form == "svg" else {"Software": None})
    pyplot.close(figure)
