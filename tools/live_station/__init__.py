"""The parts of `live`: linear time code as it comes, shown, sent, served and logged.

The way of a sample: `capture` (a card, JACK, a file at its own pace, standard input), `chain` (the pipe of `tc` that
it is handed to, in blocks) and `midi` (a pipe of its own, so that nothing else delays it). What `tc` prints goes
through `lines` to `code`, which says what is known of the code now and what happened; `system` finds the frames a
second, `level` the level, `hints` what to do while nothing is heard. `station` is the loop of it all, in the main
thread. What it shows is one value (`shown`), which others read in threads of their own: `terminal` (`digits` and
`screen` draw it), `page` (`reader` is one browser) and `log`. `children` starts and ends all processes.
"""
