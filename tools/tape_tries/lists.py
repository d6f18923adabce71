"""What machines read: JSON, edit decision lists, Avid logs, and the page of an archive."""
import json
import os
import re
import sys

from .making import TOP, code, intervals, wav
from .running import ARCHIVE, TAPE, has, run, tape, want

sys.path.insert(0, os.path.join(TOP, "tools"))
from tape_report.row import COLUMNS

CMX_EVENT = re.compile(r"(\d{3})  ([A-Z0-9]{1,8} *) (AA|V|A|B|A2)( +)([CDWK])( +)((?:\d\d:\d\d:\d\d[:;]\d\d ?){4})$")


def try_json(room):
    """A JSON object a line, of each file, with a version and the fields of the table."""
    made = code(48_000, intervals("30d", "10:00:00;00", 90, rate=30 / 1.001), lead=480)
    first, second = wav(os.path.join(room, "a.wav"), 48_000, [made]), wav(
        os.path.join(room, "b.wav"), 48_000, [[0] * 999]
    )
    ended, out, _ = run(TAPE, "--json", first, second, os.path.join(room, "none.wav"))
    assert ended == 3, ended
    told = [json.loads(line) for line in out.splitlines()]
    assert [it["status"] for it in told] == ["code", "none", "failed"] and {it["version"] for it in told} == {1}, out
    one = told[0]
    wanted = {
        "rate": "29.97",
        "drop": "yes",
        "front_end": "plain",
        "sure": "yes",
        "stamp": "yes",
        "jumps": 0,
        "track": 1,
    }
    assert {name: one[name] for name in wanted} == wanted, one
    assert (
        one["seconds"] == round(len(made) / 48_000, 3) and one["spans"][0]["count"] == "30d" and one["reference"] > 0
    ), one


def lists_of(room):
    """A folder of tapes of several counts, one that runs backward, and its output with all lists."""
    want("parallel")
    folder, out = os.path.join(room, "folder"), os.path.join(room, "out")
    os.mkdir(folder)
    for name, count, label, way in (
        ("Reel 1.wav", "25", "10:00:00:00", "forward"),
        ("reel-1.wav", "25", "11:00:00:00", "backward"),
        ("film.wav", "24", "01:00:00:00", "forward"),
        ("drop.wav", "30d", "00:09:59;00", "forward"),
    ):
        wav(
            os.path.join(folder, name),
            48_000,
            [code(48_000, intervals(count, label, 75, way, 30 / 1.001 if count == "30d" else None))],
        )
    wav(os.path.join(folder, "silent.wav"), 48_000, [[0] * 4800])
    ended, told, notes = run(ARCHIVE, folder, out, "--edl", "--ale")
    assert ended == 0, told + notes
    return out


def frames_in(label):
    """The number of a label, by the rule of its count: 25 frames a second, or drop-frame."""
    hours, minutes, seconds, frames = (int(it) for it in re.split("[:;]", label))
    whole = 60 * hours + minutes
    return (
        ((60 * whole + seconds) * 30 + frames - 2 * (whole - whole // 10))
        if ";" in label
        else (60 * whole + seconds) * 25 + frames
    )


def try_edl(room):
    """The lists are of the written form of CMX 3600, with each span's labels and as long a record."""
    out = lists_of(room)
    assert sorted(name for name in os.listdir(out) if name.endswith(".edl")) == [
        "archive-24.edl",
        "archive-25.edl",
        "archive-29.97d.edl",
    ], os.listdir(out)
    for name, mode in (("archive-25.edl", "NON-DROP FRAME"), ("archive-29.97d.edl", "DROP FRAME")):
        with open(os.path.join(out, name), encoding="ascii", newline="") as file:
            lines = file.read().split("\r\n")
        assert lines[0].startswith("TITLE: ") and lines[1] == "FCM: " + mode and lines[-1] == "", lines
        events = [CMX_EVENT.match(line) for line in lines if line[:3].isdigit()]
        assert events and all(events), lines
        assert [int(it[1]) for it in events] == list(range(1, len(events) + 1)), lines
        record = None
        for event in events:
            begin, end, into, out_of = map(frames_in, event[7].split())
            assert end - begin == out_of - into > 60 and record in (None, into), event[0]
            record = out_of
    with open(os.path.join(out, "archive-25.edl"), encoding="ascii") as file:
        text = file.read()
    has(text, "001  REEL1    AA    C        10:00:00:00 10:00:0", "002  REEL12   AA    C        10:59:57:0")
    has(text, "M2   REEL12         -025.0                10:59:57:0", "* FROM CLIP NAME: reel-1.wav")


def try_ale(room):
    """The logs are of the written form: heading, columns, and a row a clip, with as many fields as columns."""
    out = lists_of(room)
    for name, rate, count in (
        ("archive-25.ale", "25", 2),
        ("archive-24.ale", "24", 1),
        ("archive-29.97d.ale", "29.97", 1),
    ):
        with open(os.path.join(out, name), encoding="utf-8", newline="") as file:
            heading, column, data = re.split(r"(?:Column|Data)\r\n", file.read())
        has(heading, "Heading\r\nFIELD_DELIM\tTABS\r\n", f"FPS\t{rate}\r\n", "AUDIO_FORMAT\t48kHz")
        columns = column.strip().split("\t")
        rows = [line.split("\t") for line in data.strip("\r\n").split("\r\n")]
        assert len(rows) == count and {len(row) for row in rows} <= {len(columns), len(columns) - 1}, rows
        assert all(
            re.fullmatch(r"\d\d:\d\d:\d\d[:;]\d\d", row[columns.index(it)]) for row in rows for it in ("Start", "End")
        ), rows


def try_index(room):
    """The page of an archive has the table as JSON, and needs no network; the objects are those of the table."""
    out = lists_of(room)
    with open(os.path.join(out, "index.html"), encoding="utf-8") as file:
        text = file.read()
    data = json.loads(re.search(r'<script type="application/json" id="data">(.*?)</script>', text, re.S)[1])
    assert len(data["tapes"]) == 5 and data["columns"][:2] == ["file", "status"], data
    assert not re.search(r"https?://|src=|@import", text), "the page wants a network"
    has(text, "5 tapes: 4 with code, 1 without, 0 failed, 0 not read")
    with open(os.path.join(out, "archive.jsonl"), encoding="ascii") as file:
        told = [json.loads(line) for line in file]
    assert [it["file"] for it in told] == [it["file"] for it in data["tapes"]]
    assert all(
        it[name] == other[name]
        for it, other in zip(told, data["tapes"])
        for name in data["columns"]
        if name in other and name != "spans"
    )


# The page sorts and filters as a click and a word typed would.
CLICKED = """<script>
const told = document.createElement("pre");
const files = () => [...document.querySelectorAll("td.file > a")].map(it => it.textContent).join("|");
told.textContent += "at first " + files() + "\\n";
const heads = [...document.querySelectorAll("#heads button")];
heads[0].click(); told.textContent += "by file " + files() + "\\n";
heads[0].click(); told.textContent += "turned " + files() + "\\n";
const filter = document.querySelectorAll("#filters input")[1];
filter.value = "none"; filter.dispatchEvent(new Event("input")); told.textContent += "without " + files() + "\\n";
document.body.append(told);
</script>"""


def try_index_in_browser(room):
    want("chromium")
    out = lists_of(room)
    page = os.path.join(out, "index.html")
    with open(page, "a", encoding="utf-8") as file:
        file.write(CLICKED)
    words = ["chromium", "--headless", "--no-sandbox", "--disable-gpu", "--user-data-dir=" + room, "--dump-dom"]
    _, told, _ = run(*words, "file://" + page)
    has(told, "at first silent.wav|", "by file drop.wav|film.wav|Reel 1.wav|reel-1.wav|silent.wav")
    has(told, "turned silent.wav|reel-1.wav|Reel 1.wav|film.wav|drop.wav", "without silent.wav\n")


# What a page draws as text, and how its head stands.
DRAWN = """<script>
const drawn = [], plainText = CanvasRenderingContext2D.prototype.fillText;
CanvasRenderingContext2D.prototype.fillText = function(text, ...at) {
  drawn.push(text);
  plainText.call(this, text, ...at);
};
draw();
const said = document.createElement("pre");
said.textContent = "drawn " + drawn.join("|");
document.body.append(said);
</script>"""
STANDS = """<script>
const said = document.createElement("pre"), buttons = () => document.querySelectorAll("#heads button").length;
said.textContent = "head " + getComputedStyle(document.querySelector("thead")).position + ", " + buttons() + " columns";
said.textContent += ", first " + document.querySelector("tbody tr:last-child td:first-child").firstChild.getAttribute("href");
document.querySelector("#same button").click();
said.textContent += ", unfolded " + buttons() + "\\n";
document.body.append(said);
</script>"""


def dumped(room, page, script):
    """What a browser makes of a page with a script behind it."""
    want("chromium")
    with open(page, "a", encoding="utf-8") as file:
        file.write(script)
    words = ["chromium", "--headless", "--no-sandbox", "--disable-gpu", "--user-data-dir=" + room, "--dump-dom"]
    return run(*words, "file://" + page)[1]


def try_page_with_a_jump(room):
    """The page and the picture of a tape draw a jump of 51 seconds, and the speed on the scale of what it does."""
    want("gnuplot")
    made = [code(48_000, intervals("25", label, 100, rate=25.1)) for label in ("10:00:00:00", "10:00:55:00")]
    path, page = wav(os.path.join(room, "cut.wav"), 48_000, [made[0] + made[1]]), os.path.join(room, "cut.html")
    picture = os.path.join(room, "cut.png")
    tape(path, "--page", page, "--picture", picture)
    has(dumped(room, page, DRAWN), "10:00:03:24 &gt; 10:00:55:00", "|1.000|1.005|1.010|")
    from tape_report.speed_plot import speed_of_report

    with open(os.path.join(room, "lines"), "w", encoding="ascii") as file:
        word = "word forward {} user 0 flags 0 balance 1 tick {} length 1920 speed 1004"
        labels = ("10:00:00:00", "10:00:00:01", "10:00:51:02")
        file.writelines(word.format(label, 1920 * n) + "\n" for n, label in enumerate(labels, 1))
    with open(os.path.join(room, "lines"), encoding="ascii") as lines:
        points, script = speed_of_report(lines, 48_000)
    assert len(points["jump"]) == 1 and "10:00:51:02" in points["named"][1], points
    assert "set yrange [0.99" in script, script


def try_head_of_the_page(room):
    """The head stays, the name leads to the tape's page, and what is equal for all tapes is folded away."""
    page = os.path.join(lists_of(room), "index.html")
    told = re.search(r"head (\w+), (\d+) columns, first (\S+), unfolded (\d+)", dumped(room, page, STANDS))
    assert told and told[1] == "sticky" and told[3].endswith("/page.html"), told
    assert int(told[2]) < int(told[4]) == len(COLUMNS), told


def try_several_files(room):
    """Each of several files is reported, and the status is the worst."""
    made = code(48_000, intervals("25", "10:00:00:00", 60))
    one, two = (wav(os.path.join(room, name), 48_000, [made]) for name in ("one.wav", "two.wav"))
    out, _ = tape(one, two)
    has(out, "one.wav\nsound", "\n\n" + two + "\nsound")
    out, _ = tape(one, two, "--csv")
    assert len(out.splitlines()) == 3 and out.count("relation") == 1, out
    out, notes = tape(one, os.path.join(room, "none.wav"), two, status=3)
    has(out, "two.wav")
    has(notes, "none.wav: no such file")
