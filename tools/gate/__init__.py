"""What checks the program, the pages and the tables of this repository. Each module that is a check is called by a script of ``.ci``."""
