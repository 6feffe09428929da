"""Runs a tool, and makes files for it."""

import os
import subprocess
import tempfile
import unittest

TOP = os.path.dirname(os.path.dirname(os.path.dirname(os.path.realpath(__file__))))


class ToolTest(unittest.TestCase):
    def setUp(self):
        room = tempfile.TemporaryDirectory()
        self.addCleanup(room.cleanup)
        self.room = room.name

    def file(self, name, text):
        """The path of a new file with this text."""
        path = os.path.join(self.room, name)
        os.makedirs(os.path.dirname(path), exist_ok=True)
        with open(path, "wb") as file:
            file.write(text if isinstance(text, bytes) else text.encode())
        return path

    def run_tool(self, name, *words, given=b"", timeout=120, **more):
        """Status, standard output and standard error of a tool."""
        ran = subprocess.run(
            [os.path.join(TOP, "tools", name), *words],
            input=given if isinstance(given, bytes) else given.encode(),
            capture_output=True,
            timeout=timeout,
            **more,
        )
        return ran.returncode, ran.stdout.decode(), ran.stderr.decode()
