"""The profile's chapters "CoverageJSON as written", "Tables" and "CoverageJSON as read" (OGC 21-069r2)."""
