"""Builds a wheel with libpp.so.1 in it: the one in the folder that PP_LIB_DIR names, else one that ../../install makes."""

import os
import shutil
import subprocess
import tempfile

from setuptools import Distribution, setup
from setuptools.command.build_py import build_py
from wheel.bdist_wheel import bdist_wheel

HERE = os.path.dirname(os.path.abspath(__file__))
INSTALL = os.path.join(HERE, "..", "..", "install")


class WithLibrary(build_py):
    """The Python, and the library beside it."""

    def run(self):
        super().run()
        with tempfile.TemporaryDirectory() as room:
            folder = os.environ.get("PP_LIB_DIR")
            if not folder:
                if not os.path.exists(INSTALL):
                    raise SystemExit("there is no libpp.so.1: PP_LIB_DIR has to name its folder")
                subprocess.run([INSTALL, "--shared", room], check=True)
                folder = os.path.join(room, "lib")
            shutil.copy(os.path.join(folder, "libpp.so.1"), os.path.join(self.build_lib, "libpp", "libpp.so.1"))


class ForPlatform(bdist_wheel):
    """For any Python 3 on this platform, as the library is for it."""

    def get_tag(self):
        return "py3", "none", super().get_tag()[2]


class WithMachineCode(Distribution):
    """Which is installed where such code belongs."""

    def has_ext_modules(self):
        return True


setup(cmdclass={"build_py": WithLibrary, "bdist_wheel": ForPlatform}, distclass=WithMachineCode)
