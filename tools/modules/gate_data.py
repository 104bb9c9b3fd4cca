"""What stands in data/ of the crates folders and histories, which run on the folders of samples/."""
import shutil

import samples

# folders in which this file cannot be read, and the folder and the files of it that stand beside
UNREAD = {
    "unread_source": ("source.tab", "p4", ("shape.tab",)), "unread_source8": ("source8.tab", "both_widths", ("source.tab", "shape.tab", "shape8.tab")),
    "unread_shape": ("shape.tab", "typed", ("source.tab", samples.TREE)), "unread_shape8": ("shape8.tab", "typed_wide", ("source8.tab", samples.TREE)),
    "unread_tree": (samples.TREE, "p4", ("source.tab",))}
NOT_WHOLE = "not whole\n"


def put(home, name, file, held):
    """A file of data/, in a folder that may not be there yet."""
    at = home / "data" / name / file
    at.parent.mkdir(parents=True, exist_ok=True)
    at.write_bytes(held)


def put_all(home, names):
    """data/ anew: the files of the named folders, copies, since the gate follows no link; and the folders that cannot be read, each with a folder in
    the place of the one file, so that it opens and no byte of it can be read."""
    shutil.rmtree(home / "data", ignore_errors=True)
    for name in names:
        for file in samples.read_files(samples.FOLDER / name):
            put(home, name, file.name, file.read_bytes())
    for name, (file, like, beside) in UNREAD.items():
        put(home, name, f"{file}/README.md", f"{file} is a folder here: it opens, and no byte of it can be read.\n".encode())
        for other in beside:
            put(home, name, other, (samples.FOLDER / like / other).read_bytes())
