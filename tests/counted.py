"""For the tests: notes how many cases one has run, in out/counts/NAME, from which tools/counts.py takes what the pages say."""
import pathlib

FOLDER = pathlib.Path(__file__).resolve().parent.parent / "out/counts"


def note(name, number):
    """Notes the number of cases of a test that has run all of them."""
    FOLDER.mkdir(parents=True, exist_ok=True)
    (FOLDER / name).write_text(f"{number}\n", encoding="utf-8")
