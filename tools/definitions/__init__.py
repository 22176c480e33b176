"""The definitions of crates/*/specs, read, translated and run. See tools/definitions.py."""
