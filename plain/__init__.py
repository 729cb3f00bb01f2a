"""The profile a second time, as a plain program, and what it is compared with (README.md)."""
