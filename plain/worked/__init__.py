"""Worked rows: what is asked, and the answer that was written out by hand."""
