"""Groups of commands, each a module that `main` finds here.

A module has ORDER, its place in the help, and add(commands), which calls commands.add(name, run, summary, description, examples) for each of its
commands; that answers an argparse parser, for options. run(library, arguments) answers an Outcome, or raises what `outcomes` has for refusals.
"""
