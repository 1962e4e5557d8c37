"""Calls tools in the process of a test, which takes a tenth of the time that a start of Python takes."""

import contextlib
import gc
import importlib
import io
import pathlib
from collections.abc import Callable


def called(name: str, *words: object, folder: str | pathlib.Path = ".") -> tuple[int, str, str]:
    """The status, the output and the errors of the tool of a module of netconf_tools.cli over words, in a folder."""
    main: Callable[[list[str]], int] = importlib.import_module(f"netconf_tools.cli.{name}").main
    data, errors = io.BytesIO(), io.StringIO()
    output = io.TextIOWrapper(data, "utf-8")
    try:
        with contextlib.chdir(folder), contextlib.redirect_stdout(output), contextlib.redirect_stderr(errors):
            status = main([str(word) for word in words])
    except SystemExit as ending:
        status = int(ending.code or 0)
    finally:
        # netconf-lint stops the collector for its whole process, which ends with it otherwise.
        gc.enable()
    output.flush()
    return status, data.getvalue().decode("utf-8", "surrogateescape"), errors.getvalue()
