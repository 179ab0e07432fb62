"""For the scripts that make a page or a picture of the repository: writes it, or compares it with what is there."""
import pathlib
import sys


def write_or_check(path, made):
    """Writes the file; with the word --check it says whether the file is the same, as 'N as wanted, M not'."""
    if "--check" not in sys.argv:
        path.write_text(made, encoding="utf-8")
        return
    same = path.exists() and path.read_text(encoding="utf-8") == made
    if not same:
        print(f"{path.name} is not what {pathlib.Path(sys.argv[0]).name} makes")
    print(f"{int(same)} as wanted, {int(not same)} not")
