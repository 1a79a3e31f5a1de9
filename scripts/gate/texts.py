"""What the checks of pages and sources share: the files of the repository as text, and lines 'ok ..' and 'failed ..'."""
import os

ROOT = os.path.dirname(os.path.dirname(os.path.dirname(os.path.realpath(__file__))))


def read(path):
    with open(os.path.join(ROOT, path), encoding="utf-8") as file:
        return file.read()


def write(path, text):
    with open(os.path.join(ROOT, path), "w", encoding="utf-8") as file:
        file.write(text)


def say(wrong, good, what=""):
    """prints what is wrong, or what is well; is all well?"""
    for it in wrong:
        print(f"failed {what}: {it}" if what else f"failed {it}")
    if not wrong:
        print(f"ok {good}")
    return not wrong
