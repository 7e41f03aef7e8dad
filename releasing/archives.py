"""A tree of files as a tarball and as a Debian package. The same tree at the same time gives the same bytes: nothing of
the machine, its user or its clock goes in."""
import gzip
import hashlib
import io
import stat
import tarfile
from dataclasses import dataclass

PLAIN, PROGRAM, FOLDER = 0o644, 0o755, 0o755


@dataclass(frozen=True)
class File:
    """A file of a tree."""
    data: bytes
    mode: int = PLAIN


Tree = dict[str, File]


def folders(tree: Tree) -> list[str]:
    """The folders that the files of a tree stand in, each after the one around it."""
    found = set()
    for path in tree:
        parts = path.split('/')[:-1]
        found |= {'/'.join(parts[:depth]) for depth in range(1, len(parts) + 1)}
    return sorted(found)


def tarball(tree: Tree, top: str, time: int) -> bytes:
    """A tree below a folder, compressed."""
    held = io.BytesIO()
    with tarfile.open(fileobj=held, mode='w', format=tarfile.GNU_FORMAT) as tar:
        for path in ([top] if top != '.' else []) + [f'{top}/{folder}' for folder in folders(tree)]:
            tar.addfile(entry(path, tarfile.DIRTYPE, FOLDER, 0, time))
        for path, file in sorted(tree.items()):
            tar.addfile(entry(f'{top}/{path}', tarfile.REGTYPE, file.mode, len(file.data), time), io.BytesIO(file.data))
    return gzip.compress(held.getvalue(), mtime=0)


def entry(path: str, kind: bytes, mode: int, size: int, time: int) -> tarfile.TarInfo:
    """What a tarball says of a file: root's, and as old as the commit."""
    made = tarfile.TarInfo(path)
    made.type, made.mode, made.size, made.mtime = kind, mode, size, time
    made.uname = made.gname = 'root'
    return made


def debian(tree: Tree, control: str, time: int) -> bytes:
    """A Debian package of a tree, which it installs below /usr."""
    installed = {f'usr/{path}': file for path, file in tree.items()}
    sums = ''.join(f'{hashlib.md5(file.data).hexdigest()}  {path}\n' for path, file in sorted(installed.items()))
    size = sum(-(-len(file.data) // 1024) for file in tree.values()) + len(folders(installed))
    about = {'control': File(f'{control}Installed-Size: {size}\n'.encode()), 'md5sums': File(sums.encode())}
    return archive({'debian-binary': b'2.0\n', 'control.tar.gz': tarball(about, '.', time),
                    'data.tar.gz': tarball(installed, '.', time)}, time)


def archive(members: dict[str, bytes], time: int) -> bytes:
    """An archive as ar writes it."""
    whole = b'!<arch>\n'
    for name, data in members.items():
        head = f'{name:<16}{time:<12}{0:<6}{0:<6}{stat.S_IFREG | PLAIN:<8o}{len(data):<10}`\n'
        whole += head.encode() + data + b'\n' * (len(data) % 2)
    return whole
