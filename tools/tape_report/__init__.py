"""The parts of `tape` and `archive`: sound or video files as reports, pages, tables and stamped copies.

The way of a tape: `source` (the file as it was named), `sound` (its tracks; `wave` and `decoder` under it),
`slicing`, `track` and `spans` (what `tc` says of a track), `choice` with `front_ends` and `twice` (which track, system
and way of reading), `place` (where it lies in the day) and `breaks`; then `report`, `page`, `row`, `stamp`. `work` does
all of it for a tape, and `tape` is the tool. `rates` says by what a frame rate is known, `codes` which tracks have their
own, and `kept` what a copy has not kept.

`archive` is the tool for folders: `folder` with `kinds` and `probing` (what lies there), `output` and `lock` (whose the
output is), `store`, `jobs`, `table`, `remarks`, `index`, `clips`, `edl` and `ale`. `drawing` has the tools that draw,
by `plot`, and `line_files` those for lines of video. Every file that is written goes through `targets`, and each tool
ends by `endings`.
"""
