"""The program's limits (docs/FORMAT.md, docs/PROGRAM.md): each stands here once for the front end. `checks/figures` tells where one isn't
the program's."""
NAME, DEPTH = 64, 64            # bytes of a name, names in a path
FILE = 1_048_576                # bytes of a file
STORE = 1_073_741_824           # bytes of a store
INPUT = 67_108_864              # bytes that one session takes, the owner's line among them
SESSIONS = 256                  # that one `serve` begins
