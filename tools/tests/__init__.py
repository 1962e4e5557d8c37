"""The tests of the tools. Each folder is a part, which a script beside it runs."""
