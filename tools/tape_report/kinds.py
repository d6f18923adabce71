"""What a file is by its ending: a tape, no sound for sure, or unknown."""
import os

from .wave import LETTERS

# Sound and video that Debian's ffmpeg decodes, but for raw samples, which do not say what they are.
TAPES = frozenset(
    "." + ending
    for ending in (
        "wav wave bwf rf64 w64 aif aiff aifc afc flac caf au snd mp1 mp2 mp3 m2a mpa m4a m4b m4r aac adts ac3 eac3 ec3"
        " dts dtshd mlp thd ogg oga ogv opus spx wma mka mks wv tta tak ape apl mac mpc shn amr awb ra ram rm rmvb voc"
        " sph nist sf ircam avr paf fap pvf svx 8svx iff aa aax aa3 oma omg aea gsm g722 722 g729 sbc msbc aptx aptxhd"
        " qcp vqf vqe vql daud 302 dss dsf dff wsd mov qt mp4 m4v 3gp 3g2 f4v f4a ismv isma ism mj2 psp mxf mkv mk3d"
        " webm avi divx mpg mpeg mpe mpv m1v m2v m2p m2t ts m2ts mts mod tod trp vob evo vro vdr ty dv dif wmv asf"
        " wtv dvr-ms flv swf gxf lxf imx nut nuv y4m ivf h261 h26l h263 h264 264 avc h265 265 hevc vc1 rcv obu av1"
        " drc dav ivr kux viv vivo nsv roq smk bik flm mjpg mjpeg cdxl xl xmv mvi moflex v210 yuv10"
        " 3dostr str acm adf adp dtk ads ss2 adx aix ast avs avs2 avs3 bfstm bcstm binka bit bmv brstm c2 cdg cgi"
        " dcstr dfpwm epaf fsb fwse g723_1 tco rco genh hca ifv ipu lvf mca mods msf mtaf musx mxg nsp redspark rsd"
        " rso sdr2 sds sdx ser sga vb son simbiosis_imx sln svag svs truehd vag vpk xvag yop"
    ).split()
)
# Text, pictures that stand, subtitles, projects and what systems leave in folders: there is no sound in them.
OTHERS = frozenset(
    "." + ending
    for ending in (
        "txt md rst log csv tsv xml json jsonl yaml yml ini cfg conf html htm css js pdf doc docx odt rtf xls xlsx ods"
        " ppt pptx"
        " jpg jpeg png gif bmp tif tiff webp svg psd ico heic dpx exr tga jp2 j2k cr2 nef arw dng avif"
        " srt vtt sub idx sup ass ssa scc stl ttml dfxp sami smi edl ale aaf otio fcpxml xmp cue m3u m3u8 pls nfo diz"
        " md5 sha1 sha256 sha512 mhl par2 sfv asc sig zip tar gz bz2 xz zst 7z rar iso img dmg ppj prproj ptx ptf"
        " aup aup3 rpp logicx py sh pl c h cpp java bat ps1 exe dll so db sqlite ds_store bak tmp lock pek pkf reapeaks"
        " asd"
    ).split()
)
# What systems leave in folders.
NAMES = frozenset("thumbs.db desktop.ini .ds_store .directory .gitignore .nfs .fseventsd .volumeicon.icns".split())
TAPE, OTHER, UNKNOWN = "tape", "other", "unknown"


def ending_of(name: str) -> str:
    return os.path.splitext(name)[1].lower()


def kind_by_name(name: str) -> str:
    """What a file is by its name alone."""
    if ending_of(name) in TAPES:
        return TAPE
    is_other = ending_of(name) in OTHERS or os.path.basename(name).lower() in NAMES
    return OTHER if is_other else UNKNOWN


def kind_of(path: str) -> str:
    """The same, and a tape whatever its name if it begins as a sound file does. Raises if it can't be opened."""
    kind = kind_by_name(path)
    if kind == TAPE:
        return kind
    with open(path, "rb") as file:
        return TAPE if file.read(4) in LETTERS else kind
