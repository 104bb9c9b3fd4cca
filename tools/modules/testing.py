"""What the tests of the tools share."""
import importlib.machinery, importlib.util, pathlib, subprocess, tempfile, unittest

TOOLS = pathlib.Path(__file__).resolve().parents[1]
ROOT = TOOLS.parent


def run(command, *words, given=b"", **more):
    """The status of a command of tools/, and what it wrote to standard output and error."""
    done = subprocess.run([str(TOOLS / command), *map(str, words)], input=given, stdout=subprocess.PIPE, stderr=subprocess.PIPE, **more)
    return done.returncode, done.stdout, done.stderr.decode()


def loaded(command):
    """A command as a module, which is not run."""
    loader = importlib.machinery.SourceFileLoader(command, str(TOOLS / command))
    module = importlib.util.module_from_spec(importlib.util.spec_from_loader(command, loader))
    loader.exec_module(module)
    return module


class InFolder(unittest.TestCase):
    """Each test has a folder of its own."""

    def setUp(self):
        kept = tempfile.TemporaryDirectory()
        self.addCleanup(kept.cleanup)
        self.folder = pathlib.Path(kept.name)

    def put(self, file, data):
        """A file of the folder, of a text or of bytes."""
        path = self.folder / file
        path.parent.mkdir(parents=True, exist_ok=True)
        path.write_bytes(data.encode() if isinstance(data, str) else data)
        return path

    def program(self, file, text):
        path = self.put(file, text)
        path.chmod(0o755)
        return path
