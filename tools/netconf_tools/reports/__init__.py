"""Answers and findings in forms that other programs read: JSON, SARIF, JUnit, Markdown and HTML."""
