"""What `python -m fancy` runs where `fancy.py` is installed, as the file `__init__.py` of a package that this one is in."""

import sys

if sys.argv[1:2] == ["extract"]:
    from fancy_extract import main

    sys.exit(main(sys.argv[2:]))

from fancy import _main  # noqa: E402

sys.exit(_main())
