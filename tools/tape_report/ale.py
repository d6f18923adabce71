"""Avid log exchange: the spans of all tapes as clips, tabulators between their fields, one file a frame rate."""
from .clips import Clip, by_form, clips_of
from .names import in_cell
from .row import Told

# The most letters that a tape's name may have there.
TAPE_LETTERS = 32
COLUMNS = ["Name", "Tracks", "Start", "End", "Tape", "Source File", "Comments"]


def ale(clips: list[Clip]) -> str:
    rates = {clip.samples_a_second for clip in clips}
    sound = f"{rates.pop() / 1000:g}kHz" if len(rates) == 1 else "48kHz"
    head = [
        "Heading",
        "FIELD_DELIM\tTABS",
        "VIDEO_FORMAT\tCUSTOM",
        f"AUDIO_FORMAT\t{sound}",
        f"FPS\t{clips[0].rate}",
        "",
    ]
    lines = ["Column", "\t".join(COLUMNS), "", "Data", *map(row, clips)]
    return "\r\n".join(head + lines) + "\r\n"


def row(clip: Clip) -> str:
    cells = (f"{clip.reel} {clip.begin}", f"A{clip.track}", clip.begin, clip.end, clip.reel, clip.file, clip.comment)
    return "\t".join(str(in_cell(cell.replace("\t", " "))) for cell in cells)


def ale_files(tapes: list[Told]) -> dict[str, str]:
    """The logs by name: one a frame rate."""
    return {f"archive-{form}.ale": ale(clips) for form, clips in by_form(clips_of(tapes, TAPE_LETTERS)).items()}
