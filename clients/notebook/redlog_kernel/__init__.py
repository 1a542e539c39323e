"""A Jupyter kernel that keeps a session with the program redlog. Nothing of it is proved."""
