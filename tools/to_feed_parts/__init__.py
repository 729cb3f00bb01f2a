"""The parts of tools/to_feed.py."""
