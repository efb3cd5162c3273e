"""What the tools beside strm share, on Python's standard library alone."""
import os
import sys

# An older Python ends here with a line that says so, before it reads what it does not know.
if sys.version_info < (3, 8):
    tool = os.path.basename(sys.argv[0])
    sys.stderr.write("{}: needs Python 3.8 or later, and this is {}.{}\n".format(tool, *sys.version_info))
    sys.exit(2)
