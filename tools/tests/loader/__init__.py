"""Tests of what stands between a dump and a machine: the header in C, layouts, dumps, trees of pages and audits."""
