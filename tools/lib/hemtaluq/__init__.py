"""The command `hemtaluq`: plants with names in; verdicts of the proved calls in words, drawings and sheets out.

`binding` calls the shared library; `plants`, `plant_text`, `plant_files`, `amounts`, `cycle_sets` and `events` bring what people write to it, `calls`
and `watchers` make the calls, `words`, `drawing` and `page` say what they answer, and `printing` prints it. A file in `commands` is a group of
commands, and `main` finds it there.
"""
