"""The cases of tests/tools."""
