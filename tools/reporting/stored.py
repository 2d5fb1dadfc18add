"""Files that appear under their names once they are whole."""
import contextlib, os, tempfile


class Stored:
    """A file that appears under its name once it is whole. What is there and is no regular file, as a pipe or a
    device, is written as the text comes, and stays what it is."""

    def __init__(self, name):
        self.name = name
        is_device = os.path.abspath(name).startswith(("/dev/", "/proc/"))
        self.is_special = os.path.exists(name) and not os.path.isfile(name) or is_device
        try:
            self.file = open(name, "w", encoding="utf-8") if self.is_special else self.beside(os.path.realpath(name))
        except OSError as why:
            raise OSError(why.errno, why.strerror, name) from None

    def beside(self, name):
        """A file that takes the place of the name when it is whole; a link stays one."""
        self.target = name
        return tempfile.NamedTemporaryFile("w", dir=os.path.dirname(name), prefix=f".{os.path.basename(name)}.",
                                           delete=False, encoding="utf-8")

    def keep(self):
        self.file.close()
        if not self.is_special:
            os.chmod(self.file.name, 0o644)
            os.replace(self.file.name, self.target)

    def drop(self):
        with contextlib.suppress(OSError):
            self.file.close()
        if not self.is_special:
            os.unlink(self.file.name)
