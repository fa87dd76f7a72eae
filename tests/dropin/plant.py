"""plant.py EDIT FILE: prints the file with an edit's old line, which stands in it once, replaced by the new one. Edits are as those of the
crates' must-fail folders."""
import re
import sys

edit = open(sys.argv[1], encoding="utf-8").read()
old, new = re.search(r"^old: (.*)\nnew: (.*)", edit, re.M).groups()
text = open(sys.argv[2], encoding="utf-8").read()
if text.count(old) != 1:
    sys.exit(f"{sys.argv[1]}: the old text stands {text.count(old)} times in {sys.argv[2]}")
print(text.replace(old, new), end="")
