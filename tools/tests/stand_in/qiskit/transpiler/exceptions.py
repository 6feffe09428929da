"""What goes wrong."""


class TranspilerError(Exception):
    pass
