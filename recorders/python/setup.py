"""The recorder is the one file beside this folder: it becomes the package's `__init__.py` where the package is built. So does the library stand in the
package where it is there: that which DOMEPEELER_LIBRARY names, or the one that tools/install has put below the same prefix as this folder."""
import os
from pathlib import Path

from setuptools import Distribution, setup
from setuptools.command.build_py import build_py

HERE = Path(__file__).resolve().parent
RECORDER = HERE.parent / "domepeeler.py"
NAME = "libdomepeeler.so.0"
LIBRARY = Path(os.environ.get("DOMEPEELER_LIBRARY") or HERE.parents[3] / "lib" / "domepeeler" / NAME)

try:
    from wheel.bdist_wheel import bdist_wheel
except ImportError:  # where no wheel is made
    bdist_wheel = object


class WithRecorder(build_py):
    """Builds the package, and puts the recorder and the library into it."""

    def run(self) -> None:
        super().run()
        package = Path(self.build_lib, "domepeeler")
        package.mkdir(parents=True, exist_ok=True)
        (package / "__init__.py").write_bytes(RECORDER.read_bytes())
        if LIBRARY.is_file():
            (package / NAME).write_bytes(LIBRARY.read_bytes())


class WithLibrary(Distribution):
    """A package that has the library is one for this kind of machine."""

    def has_ext_modules(self) -> bool:
        return LIBRARY.is_file()


class AnyPython(bdist_wheel):
    """A wheel for each Python, since the library asks for none."""

    def get_tag(self) -> tuple:
        _python, _abi, platform = super().get_tag()
        return "py3", "none", platform


setup(cmdclass={"build_py": WithRecorder, **({"bdist_wheel": AnyPython} if bdist_wheel is not object else {})}, distclass=WithLibrary)
