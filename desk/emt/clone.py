"""In a clone: its top, and the library made there on first use. Where the package is installed none of this is done."""
import os
import subprocess
import sys

from . import library


class NotMade(Exception):
    """The library could not be made."""


def top():
    """The top of the clone that this package is run from, or '' where it is installed."""
    folder = os.path.dirname(os.path.dirname(os.path.dirname(os.path.abspath(__file__))))
    return folder if os.path.exists(os.path.join(folder, 'crates.txt')) else ''


def make_library():
    """Makes target/sharedlib/libemt.so where it is missing or older than the archive. Without an archive the crates are proved first, which takes minutes
    and is said."""
    if not top() or os.environ.get('EMT_LIBRARY') or os.environ.get('EMT_BRIDGE'):
        return
    archive = os.path.join(top(), 'target', 'staticlib', 'libemt.a')
    made = library.bridge_path() or next(iter(library.found('libemt.so')), None)
    if made and (not os.path.exists(archive) or os.path.getmtime(made) >= os.path.getmtime(archive)):
        return
    asked = dict(os.environ)
    if os.path.exists(archive):
        asked['LIBEMT'] = archive
    else:
        print('first use: proving and making the library, which takes some minutes; what the prover says goes to target/log/prove.log', file=sys.stderr)
    tool = 'sharedlib' if os.uname().machine == 'x86_64' else 'bridge'
    if subprocess.call([os.path.join(top(), 'tools', tool)], env=asked, stdout=sys.stderr):
        raise NotMade(f'the library is not made: tools/{tool} tells why')
