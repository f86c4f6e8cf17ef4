"""Makes a wheel for x86-64 Linux and any Python: the package has a shared object, and no module that is compiled for Python."""
from pathlib import Path

from setuptools import Distribution, setup

try:
    from setuptools.command.bdist_wheel import bdist_wheel
except ImportError:
    # (before setuptools 70.1)
    from wheel.bdist_wheel import bdist_wheel


class PlatformDistribution(Distribution):
    def has_ext_modules(self):
        return True


class PlatformWheel(bdist_wheel):
    def get_tag(self):
        # (packaging/check-binaries checks that the shared object fits this tag)
        return "py3", "none", "manylinux_2_17_x86_64"


if not Path("src/provedown/libprovedown.so").exists():
    raise SystemExit("the package lacks its shared object: `make wheel` in packaging/ puts it there, and builds the wheel")

setup(distclass=PlatformDistribution, cmdclass={"bdist_wheel": PlatformWheel})
