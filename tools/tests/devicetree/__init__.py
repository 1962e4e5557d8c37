"""Tests of netconf-import: trees with their transcripts, and judges of what is imported."""
