"""Where files are written: beside the study, but never into the repository unless the user says so."""
import os

from . import clone


class NoPlace(Exception):
    """There is no place to write to that the user did not have to name."""


def inside(path, folder):
    return bool(folder) and os.path.commonpath([os.path.realpath(path), os.path.realpath(folder)]) == os.path.realpath(folder)


def beside(study, ending, said):
    """STUDY with another ending; -o says another place. In the repository's own folders the current folder is taken, if that is not in it too."""
    if said:
        return said
    if study == '-':
        raise NoPlace('of a study on standard input the file has no place of its own: say where by -o')
    path = os.path.splitext(study)[0] + ending
    if inside(path, clone.top()):
        path = os.path.join(os.getcwd(), os.path.basename(path))
        if inside(path, clone.top()):
            raise NoPlace(f'{study} stands in the repository, where nothing is written by itself: say where by -o')
    return path
