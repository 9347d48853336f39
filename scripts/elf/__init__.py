"""ELF-64 objects and executables, and archives, for all scripts: names and numbers (`constants`), reading (`read`), writing (`write`).

Fields and names are those of the System V gABI and of the RISC-V ELF psABI; all numbers are little endian. Two things stand apart: the readers of
`compare/reference_link.py`, which say the checks of a link once more and so read field by field, and `rvld_ld`, which is installed alone.
"""
