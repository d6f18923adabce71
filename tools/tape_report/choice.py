"""The time code of a sound: each track and each system is tried; the best path, if frames are missing; other front ends
if neither hears code. The best is chosen, with how sure that is."""
from collections.abc import Sequence

from . import front_ends, levels
from .front_ends import FrontEnd
from .records import dataclass, field
from .slicing import Progress, read_track
from .sound import Sound
from .spans import Reading, some_words_in
from .witnesses import have_witnesses

SYSTEMS = (24, 25, 30)
# From fewer intervals nothing is concluded: they are clicks.
FEW_INTERVALS = 400
# The most intervals a second that hum has.
HUM_INTERVALS = 500
# A tape is heard well if at least this part of the code that is seen is heard, but for a few frames at its ends.
WELL, AT_ENDS = 0.98, 3
# From this number of frames on, labels that go on are code, and not chance.
FRAMES_OF_CODE = 3
# A frame has 80 intervals and one more a bit that is set, 13 of them in its sync word; a common one in all.
CELLS, SYNC_ONES, COMMON_INTERVALS = 80, 13, 105
# How many words, over the whole tape, are read to find how many intervals a frame has.
WORDS_ASKED = 1_000
# How many of many tracks are tried by other front ends: those of which the plain one hears most.
MOST_TRACKS_TRIED = 8


@dataclass(frozen=True)
class Wanted:
    """What is to be read, and how: each of them given or left to be found."""

    track: int | None = None
    system: int | None = None
    limit: int = 2
    front: FrontEnd | None = None
    all_words: bool = False

    @property
    def systems(self) -> Sequence[int]:
        return (self.system,) if self.system else SYSTEMS


@dataclass
class Tried:
    """The front ends that were tried on a track, and how many frames were heard before the best path was."""

    names: list[str] = field(default_factory=list)
    before_path: int | None = None


@dataclass
class Choice:
    """The reading that was chosen, and what goes with it."""

    reading: Reading
    # Each track's readings by the front end that was best for it.
    others: list[Reading]
    # The front ends that were tried on the track, if little was heard by the plain one.
    tried: list[str] = field(default_factory=list)
    # How many frames of it were heard before the best path was tried, if it was.
    before_path: int | None = None

    @property
    def is_found(self) -> bool:
        return self.reading.heard > 0

    @property
    def rival(self) -> Reading | None:
        """The same track by the next best system."""
        mine = self.reading
        rivals = [other for other in self.others if other.track == mine.track and other.system != mine.system]
        return best(rivals) if rivals else None

    @property
    def is_sure(self) -> bool:
        """No other system would make as much of the same words."""
        mine, rival = self.reading, self.rival
        if rival is None:
            return True
        if mine.heard < mine.system:
            return False
        return rival.heard < mine.heard or rival.refused > mine.refused or len(rival.spans) > len(mine.spans)

    @property
    def has_system(self) -> bool:
        """Enough is heard to speak of a system at all: a second of it, or one that was given."""
        return self.is_sure or self.reading.heard >= self.reading.system

    @property
    def sureness(self) -> str:
        """How sure the system is, and why: what the next best system would make of the same words."""
        mine, rival = self.reading, self.rival
        if rival is None:
            return "the system was given"
        if mine.heard < mine.system:
            fewer = f"{rival.system} frames a second read {rival.heard} frames of it"
            return f"not sure: less than a second of code, and {fewer}"
        if rival.heard < mine.heard or rival.refused > mine.refused:
            return f"sure: as {rival.system} frames a second {rival.refused} words are refused"
        if len(rival.spans) > len(mine.spans):
            return f"sure: as {rival.system} frames a second the labels do not go on"
        return f"not sure: {rival.system} frames a second fits as well"

    @property
    def best_of_tracks(self) -> list[Reading]:
        """The best reading of each track, in the order of the tracks."""
        return [best(group) for group in by_track(self.others)]


def best(readings: Sequence[Reading]) -> Reading:
    return max(readings, key=Reading.merit)


def by_track(readings: Sequence[Reading]) -> list[list[Reading]]:
    tracks = sorted({it.track for it in readings})
    return [[it for it in readings if it.track == track] for track in tracks]


def intervals_a_frame(reading: Reading) -> float:
    """How many intervals a frame of this code has, by words from all of it."""
    ones = []
    for word in some_words_in(reading.path, reading.words // WORDS_ASKED + 1):
        digits = int(word.label.replace(":", "").replace(";", ""), 16)
        ones.append(SYNC_ONES + digits.bit_count() + int(word.user, 16).bit_count() + word.flags.count("1"))
    return CELLS + sum(ones) / len(ones) if ones else COMMON_INTERVALS


def misses(reading: Reading) -> bool:
    """There are more intervals than the frames that were heard have, and time for more frames."""
    if reading.intervals < FEW_INTERVALS:
        return False
    if reading.of_a_frame is None:
        reading.of_a_frame = intervals_a_frame(reading)
    frames = reading.intervals / reading.of_a_frame
    if reading.frame:
        frames = min(frames, float(reading.ticks / reading.frame))
    return reading.heard < WELL * frames - AT_ENDS


def is_code(reading: Reading) -> bool:
    """Some of its labels go on: it was not made of noise."""
    return any(span.heard >= FRAMES_OF_CODE for span in reading.spans)


def choose(sound: Sound, wanted: Wanted, room: str, progress: Progress | None = None) -> Choice:
    """Each track and each system, or the given ones; the best reading. Its words stay in the room."""
    tracks = [wanted.track] if wanted.track else range(1, sound.tracks + 1)
    first = wanted.front or front_ends.PLAIN
    found = {track: first_read(sound, track, first, wanted, room, progress) for track in tracks}
    is_well = any(is_code(it) and not misses(it) for it in map(best, found.values()))
    tried: dict[int, Tried] = {}
    for track in sorted(found, key=lambda it: best(found[it]).merit(), reverse=True)[:MOST_TRACKS_TRIED]:
        readings = found[track]
        mine = best(readings)
        # If another track is heard well, one without any code is programme.
        if wanted.front is None and (mine.heard or not is_well):
            found[track], tried[track] = tried_further(sound, readings, wanted, room, progress)
    chosen = best([best(readings) for readings in found.values()])
    others = [it for readings in found.values() for it in readings]
    mine = tried.get(chosen.track, Tried())
    return Choice(chosen, others, mine.names, mine.before_path)


def first_read(
    sound: Sound, track: int, front: FrontEnd, wanted: Wanted, room: str, progress: Progress | None
) -> list[Reading]:
    """A track, first with all words, which takes a fifth of the time: if each of them has its witness, the same words
    are read where one is asked for.
    """
    systems, limit = wanted.systems, wanted.limit
    if not wanted.all_words and not front.is_path:
        readings = read_track(sound, track, systems, front, limit, room, True, progress)
        if all(map(have_witnesses, readings)):
            return readings
    return read_track(sound, track, systems, front, limit, room, wanted.all_words, progress)


def tried_further(
    sound: Sound, readings: list[Reading], wanted: Wanted, room: str, progress: Progress | None
) -> tuple[list[Reading], Tried]:
    """The readings by the front end that hears most, and those that were tried: the path where frames are missing, and
    others as long as there is no code.
    """
    tried, mine = Tried(), best(readings)
    if wants_path(sound, mine):
        tried.before_path = mine.heard
        readings = better(sound, readings, front_ends.BEST_PATH, wanted, room, tried, progress)
        readings = path_twice(sound, readings, wanted, room, tried, progress)
    if is_code(best(readings)):
        return readings, tried
    for front in front_ends_for(sound, mine):
        readings = better(sound, readings, front, wanted, room, tried, progress)
        if is_code(best(readings)) and not misses(best(readings)):
            break
    return readings, tried


def better(
    sound: Sound,
    readings: list[Reading],
    front: FrontEnd,
    wanted: Wanted,
    room: str,
    tried: Tried,
    progress: Progress | None,
) -> list[Reading]:
    """The readings by this front end, if it hears more."""
    tried.names.append(front.name)
    words, track = wanted.all_words, readings[0].track
    found = read_track(sound, track, wanted.systems, front, wanted.limit, room, words, progress)
    return found if is_code(best(found)) and best(found).merit() > best(readings).merit() else readings


def path_twice(
    sound: Sound, readings: list[Reading], wanted: Wanted, room: str, tried: Tried, progress: Progress | None
) -> list[Reading]:
    """The readings by the path through a filter that is fitted to it, if the path was taken, misses frames, and hears
    more so.
    """
    mine = best(readings)
    if not mine.made.is_path or not misses(mine):
        return readings
    # Few tapes need it, and what it stands on takes its time to be loaded.
    from . import twice

    front = twice.front_of(sound, mine)
    if front is None:
        return readings
    found = better(sound, readings, front, wanted, room, tried, progress)
    for again in found:
        if again.made.taps:
            again.moved = twice.moved(mine, again)
    return found


def wants_path(sound: Sound, mine: Reading) -> bool:
    """Frames are missing; or no code is heard where there are as many crossings as code has, or more."""
    if sound.place_of(mine.track)[0].rate < front_ends.PATH_RATE:
        return False
    return misses(mine) or not is_code(mine) and has_many_crossings(sound, mine)


def has_many_crossings(sound: Sound, mine: Reading) -> bool:
    return mine.intervals / max(1.0, sound.seconds or 1.0) > HUM_INTERVALS


def front_ends_for(sound: Sound, mine: Reading) -> list[FrontEnd]:
    """What is worth a try on a track in which neither the plain front end nor the path hears code: all if there are
    many crossings; of few a low threshold on a quiet track, and a filter where a hum may cover the code.
    """
    if misses(mine) or has_many_crossings(sound, mine):
        return front_ends.others(mine.rate)
    if mine.heard:
        return []
    level = levels.level_of(sound, mine.track)
    if level.is_quiet:
        return [front_ends.QUIET]
    return [] if level.is_silent else [front for front in front_ends.others(mine.rate) if front.high_pass]
