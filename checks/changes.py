"""What the files of edits hold: those of checks/edits and of checks/wrong-bodies."""
import os


class Changes:
    """Changes to files of a folder: pairs of an old and a new text, the old one standing once in its file; and the test
    that has to fail with them, where the file names one."""

    def __init__(self, file):
        self.name = os.path.basename(file).removesuffix(".edit")
        self.changes, self.test = [], None
        path = old = None
        with open(file, encoding="utf-8") as lines:
            for line in lines.read().split("\n"):
                if line.startswith("test: "):
                    self.test = line[6:]
                elif line.startswith("file: "):
                    path = line[6:].strip()
                elif line.startswith("old: "):
                    old = line[5:]
                elif line.startswith("new:"):
                    self.changes.append((path, old, line[4:].removeprefix(" ")))

    def apply(self, texts, folder):
        """Changes the texts, by their paths, and returns why that can't be done."""
        for path, old, new in self.changes:
            if path not in texts:
                with open(f"{folder}/{path}", encoding="utf-8") as file:
                    texts[path] = file.read()
            if texts[path].count(old) != 1:
                return f"its old text stands {texts[path].count(old)} times in {path}"
            texts[path] = texts[path].replace(old, new)
        return None if self.changes else "it changes nothing"
