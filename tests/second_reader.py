"""The second reader: the operations of document 01 in Python.

Written from documents 00 and 01 alone. It is slow and plain on purpose.
Every operation either returns its answer or raises Refused(number, place).
The parts stand in reader_commands, reader_bundles, reader_order,
reader_verdicts and reader_builds; this module gives all of their names.
Of document 02's requests, rewriting (A.1) stands in reader_rewriting,
elements (A.2) in reader_order, carried by the races of reader_verdicts,
the locks held around a region (A.3) in reader_verdicts, cut chunks (A.4)
in reader_commands, reader_bundles and, their edges, in reader_verdicts,
wide sites (A.6) in reader_commands, reader_bundles and reader_converting, and
interval rows (A.7) in reader_rows.
"""

from reader_commands import *
from reader_bundles import *
from reader_order import *
from reader_verdicts import *
from reader_builds import *
from reader_rewriting import *
from reader_converting import *
from reader_rows import *
