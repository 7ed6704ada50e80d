"""Tests that keep files in a folder of their own, which is removed after each."""
import os
import pathlib
import subprocess
import tempfile
import unittest


class Scratch(unittest.TestCase):
    def setUp(self):
        folder = tempfile.TemporaryDirectory()
        self.addCleanup(folder.cleanup)
        self.folder = pathlib.Path(folder.name)

    def kept(self, name, data):
        path = self.folder / name
        path.write_bytes(data)
        return path

    def shim(self, source):
        """The environment in which a program calls the functions of this C source in place of the system's."""
        shim = self.folder / 'shim.so'
        subprocess.run([os.environ.get('CC', 'cc'), '-shared', '-fPIC', '-xc', '-', '-ldl', '-o', shim], input=source, text=True, check=True)
        return dict(os.environ, LD_PRELOAD=str(shim))
