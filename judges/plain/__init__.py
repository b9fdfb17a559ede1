"""Second readers and writers of the formats, made of docs/FORMATS.md alone: plain and slow, and apart from the program and from all that it is made
of. What they work out of an input is what the program has to say of it; judge_terms.py, judge_read_dumps.py, judge_read_tables.py,
judge_read_legacy.py, judge_read_structures.py, judge_builds.py, judge_loads.py and judge_install.py of judges/ compare the two. Of the tools they have a memory in rows
of 16 bytes, and the spelling of a dump (tools/memory_dump.py). What changes in docs/FORMATS.md is changed here by what that says, and not by the
program's code.
"""
