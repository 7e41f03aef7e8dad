"""The forms of the register in SQL: tables, what their rows must keep, and the view of the marks that hold today.

Rows are added and stay as they are. These rules keep from slips of the hand; that nobody changed a row by other means
is shown by the chain of marks.py. A form that registers have is never changed: a later one adds to it.
"""
from office.marks import NO_MARK

# "desk" in the header of the file, and the number of the newest form.
APPLICATION, FORM = 0x6465736B, 2
HASH = 64

TABLES = f"""
CREATE TABLE paper (
    sha256 TEXT NOT NULL PRIMARY KEY CHECK (length(sha256) = {HASH}),
    name TEXT NOT NULL CHECK (name <> ''),
    text BLOB NOT NULL
) STRICT;

CREATE TABLE answer (
    sha256 TEXT NOT NULL PRIMARY KEY CHECK (length(sha256) = {HASH}),
    text BLOB NOT NULL
) STRICT;

CREATE TABLE person (
    id TEXT NOT NULL PRIMARY KEY CHECK (id <> '' AND id = lower(id)),
    name TEXT NOT NULL CHECK (name <> '')
) STRICT;

CREATE TABLE sitting (
    head TEXT NOT NULL PRIMARY KEY CHECK (length(head) = {HASH}),
    paper TEXT NOT NULL REFERENCES paper (sha256),
    name TEXT NOT NULL,
    opened TEXT NOT NULL,
    closed TEXT NOT NULL,
    log BLOB NOT NULL
) STRICT;

CREATE TABLE mark (
    seq INTEGER NOT NULL PRIMARY KEY CHECK (seq >= 1),
    at TEXT NOT NULL CHECK (at <> ''),
    candidate TEXT NOT NULL CHECK (candidate <> '' AND candidate = lower(candidate)),
    paper TEXT NOT NULL REFERENCES paper (sha256),
    answer TEXT REFERENCES answer (sha256),
    verdict TEXT NOT NULL CHECK (verdict IN ('Best', 'Dearer', 'Uncut', 'Refused', 'Not read', 'Absent')),
    uncut INTEGER CHECK ((uncut IS NOT NULL) = (verdict = 'Uncut')),
    loop INTEGER CHECK ((loop IS NOT NULL) = (verdict = 'Dearer')),
    theirs INTEGER CHECK ((theirs IS NOT NULL) = (verdict = 'Dearer')),
    ours INTEGER CHECK ((ours IS NOT NULL) = (verdict = 'Dearer')),
    number INTEGER CHECK ((number IS NOT NULL) = (verdict = 'Refused')),
    line INTEGER CHECK ((line IS NOT NULL) = (verdict = 'Refused')),
    desk TEXT NOT NULL CHECK (desk <> ''),
    library TEXT NOT NULL CHECK (length(library) = {HASH}),
    who TEXT NOT NULL CHECK (who <> ''),
    replaces INTEGER UNIQUE REFERENCES mark (seq) CHECK (replaces < seq),
    reason TEXT CHECK ((reason IS NOT NULL) = (replaces IS NOT NULL) AND reason <> ''),
    sitting TEXT REFERENCES sitting (head),
    before TEXT NOT NULL CHECK (length(before) = {HASH}),
    own TEXT NOT NULL CHECK (length(own) = {HASH}),
    CHECK ((answer IS NULL) = (verdict IN ('Not read', 'Absent'))),
    CHECK (answer IS NOT NULL OR replaces IS NULL)
) STRICT;

CREATE INDEX mark_of ON mark (candidate, paper);

CREATE VIEW register AS
SELECT * FROM mark WHERE NOT EXISTS (SELECT 1 FROM mark AS later WHERE later.replaces = mark.seq);

CREATE TABLE certificate (
    number TEXT NOT NULL PRIMARY KEY CHECK (number <> ''),
    mark INTEGER NOT NULL UNIQUE REFERENCES mark (seq),
    at TEXT NOT NULL CHECK (at <> '')
) STRICT;
"""
TURN = f"""
CREATE TRIGGER mark_in_turn BEFORE INSERT ON mark
WHEN NEW.seq IS DISTINCT FROM (SELECT coalesce(max(seq), 0) + 1 FROM mark)
    OR NEW.before IS DISTINCT FROM coalesce((SELECT own FROM mark ORDER BY seq DESC LIMIT 1), '{NO_MARK}')
BEGIN SELECT RAISE(ABORT, 'a mark comes after the last one, with its hash'); END;

CREATE TRIGGER mark_replaces BEFORE INSERT ON mark
WHEN NEW.replaces IS DISTINCT FROM (
    SELECT seq FROM register WHERE candidate = NEW.candidate AND paper = NEW.paper)
BEGIN SELECT RAISE(ABORT, 'a mark replaces the one that its candidate has on its paper, and no other'); END;

CREATE TRIGGER certificate_of_best BEFORE INSERT ON certificate
WHEN NOT EXISTS (SELECT 1 FROM register WHERE seq = NEW.mark AND verdict = 'Best')
BEGIN SELECT RAISE(ABORT, 'a certificate is for a mark Best that holds today'); END;
"""
STAYS = ["""
CREATE TRIGGER {table}_is_changed BEFORE UPDATE{of} ON {table}
BEGIN SELECT RAISE(ABORT, 'what the register has stays as it is'); END;
""", """
CREATE TRIGGER {table}_is_removed BEFORE DELETE ON {table}
BEGIN SELECT RAISE(ABORT, 'what the register has stays as it is'); END;
"""]
# Of a person the name may be mended, and nothing else.
STAYING = {'paper': '', 'answer': '', 'person': ' OF id', 'sitting': '', 'mark': '', 'certificate': ''}


def staying(table: str, of: str) -> list[str]:
    """The rules by which rows of a table stay as they are, or some columns of them."""
    return [rule.format(table=table, of=of) for rule in STAYS]


# What the second form adds: the names of a paper's statements, a file of names.py. They may be mended.
NAMED = ["""
CREATE TABLE names (
    paper TEXT NOT NULL PRIMARY KEY REFERENCES paper (sha256),
    text BLOB NOT NULL
) STRICT;
""", *staying('names', ' OF paper')]
FIRST = TABLES + TURN + ''.join(rule for table in STAYING.items() for rule in staying(*table))
SCHEMAS = {1: FIRST, 2: FIRST + ''.join(NAMED)}
