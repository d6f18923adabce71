"""Edit decision lists of the form CMX 3600: the spans of all tapes, one behind another, each with the tape's labels
as source.
"""
from collections.abc import Iterator

from .clips import Clip, by_form, clips_of
from .labels import label_of, number_of
from .row import Told

# The form has three digits for an event and eight letters for a reel.
MOST_EVENTS, REEL_LETTERS = 999, 8
RECORD_BEGIN = {"30d": "01:00:00;00"}
# A motion line marks a source that runs backward, in frames a second.
MOTION = "M2   {reel:<8}       -{frames:05.1f}                {begin}"


def events(clips: list[Clip]) -> Iterator[str]:
    """The lines of the events. What is recorded begins at one o'clock."""
    count = clips[0].count
    record = number_of(count, RECORD_BEGIN.get(count, "01:00:00:00"))
    for number, clip in enumerate(clips, 1):
        out = record + clip.frames
        times = " ".join((clip.begin, clip.end, label_of(count, record), label_of(count, out)))
        yield f"{number:03}  {clip.reel:<8} AA    C        {times}"
        if clip.is_backward:
            yield MOTION.format(reel=clip.reel, frames=float(round(float(clip.rate))), begin=clip.begin)
        yield f"* FROM CLIP NAME: {clip.file}"
        if clip.comment:
            yield f"* COMMENT: {clip.comment}"
        record = out


def edl(title: str, clips: list[Clip]) -> str:
    mode = "DROP FRAME" if clips[0].count == "30d" else "NON-DROP FRAME"
    return "\r\n".join([f"TITLE: {title}", f"FCM: {mode}", *events(clips)]) + "\r\n"


def edl_files(tapes: list[Told]) -> dict[str, str]:
    """The lists by name: one a frame rate, and one more if there are more events than a list takes."""
    files = {}
    for form, clips in by_form(clips_of(tapes, REEL_LETTERS)).items():
        for number, begin in enumerate(range(0, len(clips), MOST_EVENTS), 1):
            name = f"archive-{form}" + (f"-{number}" if number > 1 else "")
            files[name + ".edl"] = edl(name, clips[begin : begin + MOST_EVENTS])
    return files
