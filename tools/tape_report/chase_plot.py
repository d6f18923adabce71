"""The error of a chase over its steps, as a picture: whole and near the lock."""
from collections.abc import Iterable

from .faults import Nothing
from .plot import Points

# A frame has so many subframes.
SUBFRAMES = 80
CHASE = """
set terminal pngcairo size 1000,520 font "sans,11"
set multiplot layout 2,1
set xrange [0:*]
set lmargin 10
set rmargin 4
set grid ytics
set offsets 0, 1, graph 0.15, 0
set key outside top center horizontal reverse Left samplen 1 width 2
set ylabel "error, in frames"
plot "idle" using 1:2 with points pt 6 ps 0.7 lc rgb "#808080" title "waiting, locating", \\
     "pulling" using 1:2 with points pt 7 ps 0.7 lc rgb "#bf3f1f" title "pulling", \\
     "locked" using 1:2 with points pt 7 ps 0.7 lc rgb "#1f7f3f" title "locked", \\
     NaN with points pt 11 ps 1.4 lc rgb "#000000" title "lock lost", \\
     "first" using 1:2:3 with labels left offset 1,0 font "sans,10" notitle, \\
     "last" using 1:2:3 with labels right offset 0,1 font "sans,10" notitle
set key off
set xlabel "step, a frame each"
set ylabel "near the lock, in subframes"
set yrange [-80:80]
set ytics 40
plot 40 with lines dt 2 lc rgb "#606060", -40 with lines dt 2 lc rgb "#606060", \\
     "loss" using 1:3 with impulses lc rgb "#b0b0b0", "loss" using 1:(-$3) with impulses lc rgb "#b0b0b0", \\
     "idle" using 1:3 with points pt 6 ps 0.7 lc rgb "#808080", \\
     "pulling" using 1:3 with points pt 7 ps 0.7 lc rgb "#bf3f1f", \\
     "locked" using 1:3 with points pt 7 ps 0.7 lc rgb "#1f7f3f", \\
     "cause" using 1:2 with points pt 11 ps 1.4 lc rgb "#000000", \\
     "cause" using 1:2:3 with labels left offset 1,0 font "sans,10"
unset multiplot
"""


def error_of_trace(lines: Iterable[str]) -> tuple[Points, str]:
    """The points of a trace, and what draws them."""
    points: Points = {name: [] for name in ("idle", "pulling", "locked", "loss", "cause", "first", "last")}
    for line in lines:
        words = line.split()
        if words[:1] != ["step"]:
            continue
        step, state, error, cause, position = words[1], words[2], int(words[4]), words[8], words[10]
        points[state if state in points else "idle"].append(f"{step} {error / SUBFRAMES} {error}\n")
        if cause != "none":
            points["loss"].append(f"{step} 0 75\n")
            points["cause"].append(f"{step} 75 {cause}\n")
        end = f"{step} {error / SUBFRAMES} {position}\n"
        points["first"] = points["first"] or [end]
        points["last"] = [end]
    if not points["first"]:
        raise Nothing("no step in the trace")
    # gnuplot ends by a fault of its own where labels are all at no place; this one lies outside of the picture.
    points["cause"] = points["cause"] or ['0 1000 ""\n']
    return points, CHASE
