"""A validator of CoverageJSON by the standard alone (OGC 21-069r2, CoverageJSON 1.0), which uses nothing of the profile."""
