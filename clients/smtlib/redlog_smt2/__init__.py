"""A solver for linear SMT-LIB that asks the program redlog. Nothing here is proved."""
VERSION = "0.1.0"
