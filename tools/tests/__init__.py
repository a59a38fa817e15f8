"""Unit tests of the tools, run by .ci/tools."""
