"""What crate_picture.py and shape_picture.py share: the font, and a picture's file."""

SANS = "Helvetica, Arial, sans-serif"


def kept(path, made, check, program):
    """Writes the picture; with `check` says whether the file is what would be written. The status."""
    if not check:
        path.write_text(made, encoding="utf-8")
        return 0
    same = path.is_file() and path.read_text(encoding="utf-8") == made
    name = "%s/%s" % (path.parent.name, path.name)
    print("%s is what would be written" % name if same else
          "%s is not what would be written; %s writes it" % (name, program))
    return 0 if same else 1
