"""The files crates/CRATE/must-fail/*.edit and crates/CRATE/mutants/*.edit, as the commands beside it read them."""
import glob


# The file of an edit, and its pairs of a text and what comes in its place.
def parse(path):
    file, texts = None, {"old": [], "new": []}
    for line in open(path).read().split("\n"):
        key, _, text = line.partition(":")
        if key == "file":
            file = text.strip()
        elif key in texts:
            texts[key].append(text.removeprefix(" "))
    return file, list(zip(texts["old"], texts["new"]))


# The edits of the crate in a folder: those of the gate, and those that are tried by hand.
def edits_in(folder):
    return sorted(glob.glob(f"{folder}/must-fail/*.edit") + glob.glob(f"{folder}/mutants/*.edit"))
