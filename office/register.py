"""The register: the file that keeps marks, with the bytes of papers and answers, in SQLite.

What is added is kept whole or not at all, and is on the disk when the call returns. A register is told from any other
file before anything is written; a new one is made beside and linked to its name when it is whole.
"""
import contextlib
import os
import secrets
import signal
import sqlite3
import stat
from collections.abc import Iterator
from typing import Any

from office.command import Fault, begins_with, printable, tell
from office.marks import COLUMNS, HEAD, NO_MARK, Mark
from office.schema import APPLICATION, FORM, NAMED, SCHEMAS

# Seconds to wait for another desk: without a word, and then in all.
QUIET, PATIENCE = 2, 60
OLDEST = (3, 39)
# How a register of CSV began.
OLD = b'candidate,verdict,'
LASTING = ['journal_mode=DELETE', 'synchronous=EXTRA', 'locking_mode=NORMAL', 'foreign_keys=ON']
Query = tuple[str, tuple[object, ...]]


class Register:
    """A register that is open. Reading is by small questions; what is added stands between begin and commit, which
    adding() does."""

    def __init__(self, file: str, writing: bool):
        self.file, self.writing = file, writing
        self.connection = self.connected()
        # How to look for the last row of a transaction; marks in it; marks that were kept since the file was opened.
        self.last: Query | None = None
        self.under_way = self.kept = 0

    def connected(self) -> sqlite3.Connection:
        """A connection to the file, if it is a register of a form that is known. Who reads may have to mend first what
        a desk left that was killed, so the file is opened for writing where it may be."""
        from urllib.parse import quote_from_bytes  # which takes long to load, and not every mark is kept
        place = f'file://{quote_from_bytes(os.fsencode(os.path.abspath(self.file)))}'
        patience = QUIET if self.writing else PATIENCE
        made = sqlite3.connect(f'{place}?mode=rw', uri=True, isolation_level=None, timeout=patience)
        made.text_factory = lambda text: text.decode('utf-8', 'replace')
        try:
            application, form = (made.execute(f'PRAGMA {name}').fetchone()[0]
                                 for name in ('application_id', 'user_version'))
            if application != APPLICATION:
                raise sqlite3.DatabaseError('it is a database of another program')
            if form not in SCHEMAS:
                raise sqlite3.DatabaseError(f'it is a register of form {form}, and this desk knows forms up to {FORM}')
            for rule in LASTING if self.writing else ['query_only=ON']:
                made.execute(f'PRAGMA {rule}')
            if self.writing and made.execute('PRAGMA journal_mode').fetchone()[0] != 'delete':
                raise sqlite3.OperationalError('another program has it open in a mode of its own')
        except BaseException:
            made.close()
            raise
        return made

    def __enter__(self) -> 'Register':
        return self

    def __exit__(self, *_: object) -> None:
        self.connection.close()

    # ---- What is there

    def asked(self, query: str, *told: object) -> list[Any]:
        """The rows that a query gives."""
        try:
            return self.connection.execute(query, told).fetchall()
        except (sqlite3.Error, UnicodeError) as fault:
            raise unread(self.file, fault) from fault

    def marks(self, query: str, *told: object) -> list[Mark]:
        """The marks that the rest of a query chooses, from the table mark or the view register."""
        return [Mark(*row) for row in self.asked(f'SELECT {", ".join(COLUMNS)} FROM {query}', *told)]

    def current(self, candidate: str, paper: str) -> Mark | None:
        """The mark that holds today."""
        return next(iter(self.marks('register WHERE candidate = ? AND paper = ?', candidate, paper)), None)

    def end(self) -> tuple[int, str]:
        """The number of the last mark and its hash."""
        return next(iter(self.asked('SELECT seq, own FROM mark ORDER BY seq DESC LIMIT 1')), (0, NO_MARK))

    def head(self) -> str:
        """What is noted outside to know the register by."""
        return self.end()[1][:HEAD]

    def paper(self, sha256: str) -> tuple[str, bytes] | None:
        """The name and the text of a paper."""
        return next(iter(self.asked('SELECT name, text FROM paper WHERE sha256 = ?', sha256)), None)

    @property
    def form(self) -> int:
        """The number of its form."""
        (form,), = self.asked('PRAGMA user_version')
        return int(form)

    def names(self, paper: str) -> bytes | None:
        """The names of a paper's statements, as a file of them has it. The first form has none."""
        if self.form < FORM:
            return None
        return next((row[0] for row in self.asked('SELECT text FROM names WHERE paper = ?', paper)), None)

    def answer(self, sha256: str) -> bytes | None:
        return next((row[0] for row in self.asked('SELECT text FROM answer WHERE sha256 = ?', sha256)), None)

    def name(self, candidate: str) -> str | None:
        """The name of a candidate as people write it, if a list has told it."""
        return next((row[0] for row in self.asked('SELECT name FROM person WHERE id = ?', candidate)), None)

    def certificate(self, number: str) -> tuple[Mark, str] | None:
        """The mark that a certificate is for, and when it was given."""
        for seq, at in self.asked('SELECT mark, at FROM certificate WHERE number = ?', number):
            return self.marks('mark WHERE seq = ?', seq)[0], at
        return None

    # ---- What is added

    @contextlib.contextmanager
    def adding(self) -> Iterator[None]:
        """Keeps what is added inside, whole or not at all. A fault says whether it was kept; Ctrl-C waits for it."""
        self.last, self.under_way = None, 0
        try:
            self.patiently('BEGIN IMMEDIATE')
            before = signal.pthread_sigmask(signal.SIG_BLOCK, [signal.SIGINT])
            try:
                yield
                self.commit()
            finally:
                self.roll_back()
                signal.pthread_sigmask(signal.SIG_SETMASK, before)
        except sqlite3.Error as fault:
            raise Fault(f'cannot write {printable(self.file)}: {fault}; what was to be added was not kept') from fault

    def roll_back(self) -> None:
        """Takes back what was added, if that was not kept."""
        with contextlib.suppress(sqlite3.Error):
            if self.connection.in_transaction:
                self.connection.execute('ROLLBACK')

    def patiently(self, statement: str) -> None:
        """Does something for which others may have to end first; says so where it takes long."""
        self.connection.execute(f'PRAGMA busy_timeout={1000 * QUIET}')
        try:
            self.connection.execute(statement)
        except sqlite3.OperationalError as fault:
            if 'locked' not in str(fault):
                raise
            tell('desk', f'{printable(self.file)} is in use by another desk: waiting up to {PATIENCE} seconds')
            self.connection.execute(f'PRAGMA busy_timeout={1000 * (PATIENCE - QUIET)}')
            self.connection.execute(statement)

    def add(self, table: str, **row: object) -> None:
        """Adds a row, inside adding()."""
        names, places = ', '.join(row), ', '.join('?' * len(row))
        self.connection.execute(f'INSERT INTO {table} ({names}) VALUES ({places})', tuple(row.values()))
        first, value = next(iter(row.items()))
        self.last = f'SELECT 1 FROM {table} WHERE {first} = ?', (value,)

    def add_mark(self, mark: Mark) -> None:
        """Adds a mark, which is in the chain, inside adding()."""
        self.add('mark', **vars(mark))
        self.last = 'SELECT 1 FROM mark WHERE seq = ? AND own = ?', (mark.seq, mark.own)
        self.under_way += 1

    def add_paper(self, sha256: str, name: str, text: bytes) -> None:
        """Adds a paper that is not there yet, inside adding()."""
        if self.paper(sha256) is None:
            self.add('paper', sha256=sha256, name=name, text=text)

    def add_names(self, paper: str, text: bytes) -> None:
        """Adds the names of a paper's statements, or mends them, inside adding(). A register of the first form gets the
        newest."""
        if self.form < FORM:
            tell('desk', f'{printable(self.file)} gets form {FORM}, for the names of statements: an older desk will '
                 'not read it')
            for statement in [*NAMED, f'PRAGMA user_version={FORM}']:
                self.connection.execute(statement)
        known = self.names(paper)
        if known is None:
            self.add('names', paper=paper, text=text)
        elif known != text:
            self.connection.execute('UPDATE names SET text = ? WHERE paper = ?', (text, paper))
            self.last = 'SELECT 1 FROM names WHERE paper = ? AND text = ?', (paper, text)

    def add_answer(self, sha256: str, text: bytes) -> None:
        """Adds an answer's bytes that are not there yet, inside adding()."""
        if not self.asked('SELECT 1 FROM answer WHERE sha256 = ?', sha256):
            self.add('answer', sha256=sha256, text=text)

    def add_name(self, candidate: str, name: str) -> None:
        """Adds the name of a candidate, or mends it, inside adding()."""
        known = self.name(candidate)
        if known is None:
            self.add('person', id=candidate, name=name)
        elif known != name:
            self.connection.execute('UPDATE person SET name = ? WHERE id = ?', (name, candidate))
            self.last = 'SELECT 1 FROM person WHERE id = ? AND name = ?', (candidate, name)

    def add_certificate(self, mark: Mark, at: str) -> None:
        """Adds the certificate of a mark that has none yet, inside adding()."""
        if self.certificate(mark.certificate()) is None:
            self.add('certificate', number=mark.certificate(), mark=mark.seq, at=at)

    def commit(self) -> None:
        """Ends a transaction. Where that fails, what is in the file is looked up before anything is said."""
        try:
            self.patiently('COMMIT')
        except sqlite3.Error as fault:
            kept = self.looked_up()
            if kept is None:
                raise Fault(f'cannot write {printable(self.file)}: {fault}; it is not known whether what was to be '
                            'added was kept') from fault
            if not kept:
                raise
            tell('desk', f'{printable(self.file)}: {fault}; all the same what was added is there')
        self.kept += self.under_way

    def looked_up(self) -> bool | None:
        """Whether the last row that was added is in the file; None where that cannot be read."""
        self.roll_back()
        try:
            self.connection.close()
            self.connection = self.connected()
            return self.last is None or bool(self.connection.execute(*self.last).fetchall())
        except sqlite3.Error:
            return None


def unread(file: str, fault: Exception) -> Fault:
    return Fault(f'cannot read {printable(file)}: {printable(str(fault))}')


def opened(file: str, writing: bool = False) -> Register:
    """The register of a file. What is none is left alone."""
    if sqlite3.sqlite_version_info < OLDEST:
        raise Fault(f'the register wants SQLite 3.39, and python3 has {sqlite3.sqlite_version}')
    try:
        found = os.stat(file)
    except FileNotFoundError as fault:
        raise Fault(f'there is no register {printable(file)}: ./desk mark with --new makes one') from fault
    except OSError as fault:
        raise Fault(f'cannot read {printable(file)}: {fault.strerror}') from fault
    if not stat.S_ISREG(found.st_mode):
        raise Fault(f'{printable(file)} is there and no plain file, so it is no register')
    if found.st_size == 0:
        raise Fault(f'{printable(file)} is there and no register, so it is left alone: it is empty')
    try:
        return Register(file, writing)
    except sqlite3.OperationalError as fault:
        raise unread(file, fault) from fault
    except sqlite3.DatabaseError as fault:
        if begins_with(file, OLD):
            raise Fault(f'{printable(file)} is an old register: ./desk take-in takes it into a new one') from fault
        raise Fault(f'{printable(file)} is there and no register, so it is left alone: {fault}') from fault


@contextlib.contextmanager
def readable(file: str) -> Iterator[None]:
    """What is of another kind than a register has it is a fault of the file."""
    try:
        yield
    except (TypeError, ValueError, AttributeError) as fault:
        raise Fault(f'{printable(file)} is damaged: ./desk audit tells where') from fault


def to_write(file: str, new: bool) -> Register:
    """The register of a file to add to, a new one if that is asked for."""
    return made(file) if new else opened(file, writing=True)


def made(file: str) -> Register:
    """A new register, which its owner alone can read, where no file is yet."""
    place = os.path.abspath(file)
    beside = os.path.join(os.path.dirname(place), f'.desk-{secrets.token_hex(8)}.new')
    try:
        os.close(os.open(beside, os.O_CREAT | os.O_EXCL, 0o600))
        with contextlib.closing(sqlite3.connect(beside, isolation_level=None)) as fresh:
            for rule in [*LASTING, f'application_id={APPLICATION}', f'user_version={FORM}']:
                fresh.execute(f'PRAGMA {rule}')
            fresh.executescript(f'BEGIN; {SCHEMAS[FORM]} COMMIT;')
        os.link(beside, place)
        sync_folder(place)
    except FileExistsError as fault:
        raise Fault(f'{printable(file)} is there already: without --new marks are added to it') from fault
    except (OSError, sqlite3.Error) as fault:
        why = fault.strerror if isinstance(fault, OSError) else fault
        raise Fault(f'cannot write {printable(file)}: {why}') from fault
    finally:
        with contextlib.suppress(OSError):
            os.unlink(beside)
    return opened(file, writing=True)


def sync_folder(file: str) -> None:
    """Waits until the name of a new file is on the disk."""
    folder = os.open(os.path.dirname(file), os.O_RDONLY)
    try:
        os.fsync(folder)
    finally:
        os.close(folder)
