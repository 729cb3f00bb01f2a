"""Random inputs for the comparison: valid ones of every form, and ones with one or several damages."""
