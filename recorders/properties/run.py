#!/usr/bin/env python3
"""run.py PROGRAM: the three property-based tests, each with what it needs from Debian 12, which is installed by apt-get
where it is missing (as root). Two minutes at most, most of it for building Rust crates.

Of each file the first test must pass, and the second, of an engine with a fault, must fail with the smallest recording
found and the program's report on it. Prints that and ends with status 1 where it is not so, and with 2 where it could not be tried."""
from __future__ import print_function

import os
import sys

# All of this file is in words that Python 2.7 can read, so that an older Python says which one is needed, and not that it can't read this.


def end(*fault):
    """Ends with 2 at what nobody has thought of, also while this is loaded: 1 is said of the tests."""
    sys.__excepthook__(*fault)
    os._exit(2)


if __name__ == "__main__":
    sys.excepthook = end
    if sys.version_info < (3, 9):
        sys.stderr.write("run.py: this needs Python 3.9 or later, and is run by %d.%d\n" % sys.version_info[:2])
        sys.exit(2)

import subprocess
import tempfile
from pathlib import Path

HERE = Path(__file__).parent
sys.path.insert(0, str(HERE.parent / "engines"))
from random_sessions import DEBIAN_CRATES, install

CARGO = DEBIAN_CRATES + """
mkdir -p "$OUT/src"
cp "$HERE/with_proptest.rs" "$OUT/src/lib.rs"
cp "$HERE/../domepeeler.rs" "$HERE/../domepeeler_native.rs" "$OUT/src"
cat > "$OUT/Cargo.toml" <<END
[package]
name = "properties"
version = "0.1.0"
edition = "2021"
[dev-dependencies]
crdts = "7.2"
proptest = { version = "1.0", default-features = false, features = ["std"] }
[features]
native = []
[profile.dev]
debug = 0
END
cd "$OUT"
LIBRARY=$(dirname "$(dirname "$DOMEPEELER")")/lib
if [ -f "$LIBRARY/libdomepeeler.a" ]; then
    echo "judged by $LIBRARY/libdomepeeler.a"
    unset DOMEPEELER
    RUSTFLAGS="-L $LIBRARY" cargo test --quiet --offline --features native 2>&1
else
    cargo test --quiet --offline 2>&1
fi
"""

# Of each test: packages, the command, what it must say of the engine without a fault and of the other.
TESTS = {
    "Hypothesis": (["python3-hypothesis", "python3-pytest"],
                   'cd "$OUT" && /usr/bin/python3 -m pytest -q -p no:cacheprovider --hypothesis-seed=1 "$HERE/with_hypothesis.py"',
                   ["1 failed, 1 passed", "'verdict': 'refused'", "0 ins e0 0 : e0"]),
    "Node's test runner": (["nodejs", "node-yjs"], 'cd "$OUT" && node --test --test-reporter=tap "$HERE/with_node_test.mjs"',
                           ["ok 1 - Yjs", "not ok 2 - a list by fractions", '"verdict":"position"']),
    "proptest": (["librust-proptest+std-dev", "librust-crdts-dev"], CARGO,
                 ["1 passed; 1 failed", "Contents { at: ", "minimal failing input"]),
}


def main():
    if len(sys.argv) != 2 or not os.access(sys.argv[1], os.X_OK):
        sys.stderr.write("usage: run.py PROGRAM\n")
        sys.exit(2)
    failed = 0
    for name, (packages, command, wanted) in TESTS.items():
        install(packages)
        with tempfile.TemporaryDirectory() as folder:
            surroundings = dict(os.environ, DOMEPEELER=os.path.abspath(sys.argv[1]), HERE=str(HERE.resolve()), OUT=folder,
                                NODE_PATH="/usr/share/nodejs", HYPOTHESIS_STORAGE_DIRECTORY=folder, PYTHONDONTWRITEBYTECODE="1")
            said = subprocess.run(["sh", "-ec", command], capture_output=True, env=surroundings).stdout.decode()
        missing = [words for words in wanted if words not in said]
        print(said)
        print("%s: %s" % (name, "MISSING %s" % missing if missing else "one passes, one fails, as they are meant to"))
        failed += bool(missing)
    sys.exit(1 if failed else 0)


if __name__ == "__main__":
    main()
