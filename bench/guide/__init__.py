"""The parts of bench/guided: blocks, runs, cases, changes, judgement, the work of a job, and what was never reached."""
