"""Tests of the tools beside the program."""
