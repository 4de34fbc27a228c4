"""The front end of cryptree: what `cryptree-folder` does, every step of it a call of the proved program."""

VERSION = "0.1.0"     # the program's, which `cryptree --version` prints
