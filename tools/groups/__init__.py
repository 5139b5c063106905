"""The groups of tools/check: each module has one, whose function `checks` answers what it tries."""
