"""The profile's chapter "Targets"."""
