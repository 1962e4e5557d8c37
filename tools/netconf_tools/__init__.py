"""The tools beside netconf, the program that compiles the description of a platform to a net and answers what each bus
master sees.

- ``limits``: the limits of the program
- ``text``: runs the program, and reads its replies
- ``source``: reads a description as the program does, with the lines of its parts
- ``grants``: which commands of a description are refused, and why
- ``rows``, ``views``: what agents see, as the program's views have it
- ``claims``, ``differences``: what is claimed of views, and how two views differ
- ``dump``, ``audit``: images of tables, and what a description makes of them
- ``layout``, ``layout_text``: the shapes and windows that an image leaves out
- ``ending``, ``version``: how a tool ends, and which version it is
- ``drawing``: pictures of nets, views and images
- ``devicetree``: descriptions from device trees
- ``cli``: the tools, each with a call ``main``
"""
