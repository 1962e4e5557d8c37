"""The one error that ends an import."""


class Fault(Exception):
    """A tree or a command line that cannot be imported; each of its arguments is a line that says why, as a rule one. A
    line may have letters of the tree that no terminal should get: who writes it sees to that."""
