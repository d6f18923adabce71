"""The tries of `tools/tape` and `tools/archive`, a module a subject. `tools/try_tapes` runs them."""
