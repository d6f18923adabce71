"""The tries of `tools/live`, a module a subject. `tools/try_live` runs them."""
