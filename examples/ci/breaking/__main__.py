"""The same as `avro-breaking`: `python3 -m breaking`, from the folder above this one."""

import sys

from .run import main

if __name__ == "__main__":
    sys.exit(main(sys.argv[1:]))
