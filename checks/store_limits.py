"""The limits of stores and of the program, as docs/FORMAT.md and docs/PROGRAM.md say them: each stands here once for checks/ and bench/.
`checks/figures` tells where the pages, the front end, bench/plain or the program's code have another figure."""
NAME_LIMIT, DEPTH = 64, 64      # bytes of a name, names in a path
FILE_LIMIT = 1_048_576          # bytes of a file
STORE_LIMIT = 1_073_741_824     # bytes up to the end of a log
INPUT_LIMIT = 67_108_864        # bytes of one input
AHEAD = 65_536                  # bytes that may be taken behind the line at which a call ends
SESSIONS = 256                  # how many one `serve` begins
GENERATED = 50_000              # lines of `gen` behind its opening
