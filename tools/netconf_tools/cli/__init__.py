"""The tools, each a module with a call ``main``, which reads the words of the command line and returns the status.

While a tool is imported, an interrupt ends it with no word: there is nothing to say yet. `main` then takes over."""

import signal

if signal.getsignal(signal.SIGINT) is signal.default_int_handler:
    signal.signal(signal.SIGINT, signal.SIG_DFL)
