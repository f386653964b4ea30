"""What the scripts of tests/ and bench/ share: the program that they run, how a run is timed, and what is read and
written."""
