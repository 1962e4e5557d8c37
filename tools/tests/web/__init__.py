"""Tests of the page that runs netconf in a browser."""
