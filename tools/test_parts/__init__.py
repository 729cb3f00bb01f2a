"""The parts of the tests of tools."""
