"""python -m kaldvemir: the command-line program."""

from .cli import main

main()
