"""make_examples.py FOLDER: writes the paper's example sheets there, each as a sheet and as text."""

import os
import sys

from cases import write_file
from examples import SHEETS
from text import listed

for name, sheet in SHEETS.items():
    path = os.path.join(sys.argv[1], name)
    write_file(path + ".sheet", sheet)
    write_file(path + ".txt", b"# Example %s of the scope paper\n" % name.capitalize().encode() + listed(sheet))
