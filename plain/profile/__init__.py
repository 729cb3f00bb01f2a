"""The program, by the chapters of docs/PROFILE.md."""
