"""The pictures of the documents, byte for byte with what makes them: docs/pictures/draw those of the definitions' tables,
and `tools/build/gallery` those of docs/learn/gallery.md, of what the program prints."""
import os
import subprocess
import sys

import places
import pytest

DRAW = os.path.join(places.TOP, "docs", "pictures", "draw")
PICTURES = os.path.join(places.TOP, "docs", "pictures")
gallery = places.tool("build/gallery")
COMMANDS = {gallery.stages_of(it)[2]: it for it in gallery.commands_of(places.text_of(gallery.PAGE))}


def bytes_of(path):
    with open(path, "rb") as file:
        return file.read()


def test_each_picture_of_a_definition_is_what_is_drawn(tmp_path):
    subprocess.run([sys.executable, "-B", DRAW, str(tmp_path)], check=True)
    names = sorted(os.listdir(tmp_path))
    assert names
    differing = [
        name
        for name in names
        if not os.path.exists(os.path.join(PICTURES, name))
        or bytes_of(os.path.join(PICTURES, name)) != bytes_of(tmp_path / name)
    ]
    assert not differing


@pytest.mark.slow
@pytest.mark.engine
@pytest.mark.parametrize("target", sorted(COMMANDS))
def test_a_picture_of_the_gallery_is_what_its_command_makes(target, proved_program):
    data = gallery.picture_of(COMMANDS[target], proved_program)
    assert data is not None, f"this program hasn't a command for {target}"
    assert bytes_of(os.path.join(places.TOP, target)) == data
