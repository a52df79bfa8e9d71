"""All proofs and all tests: `python3 -m gate`, which ./test calls."""
import sys

from gate import proofs_and_tests

if __name__ == "__main__":
    sys.exit(proofs_and_tests.main())
