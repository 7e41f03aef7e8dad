"""The page of a certificate: whose it is, what it says, what that claims, and how it is checked."""
import html

from office.command import as_called
from office.marks import Mark, sha256_of
from office.printed import begins, document, facts, paragraphs
from office.records import dataclass
from office.slip_pages import when
from office.stored import OnDesk
from office.words import BEST

KIND = 'certificate'
BEGINS = begins(KIND)
STYLE = """
body { text-align: center }
h1 { font-size: 26pt; letter-spacing: 1mm; margin: 10mm 0 4mm 0 }
h2 { font-size: 12pt; margin: 5mm 0 1mm 0 }
p { margin: 1mm 0 }
.office { font-size: 13pt; border-bottom: 0.4mm solid #17202a; padding-bottom: 3mm }
.name { font-size: 22pt; margin: 4mm 0 }
.number { font: bold 14pt "DejaVu Sans Mono", monospace }
.facts { margin: 6mm auto 0 auto; text-align: left; font-size: 9pt }
.claim { text-align: justify; hyphens: auto; font-size: 10pt }
.signed { display: grid; grid-template-columns: 1fr 1fr; gap: 20mm; margin-top: 18mm; text-align: left }
.signed p { border-top: 0.2mm solid #17202a; padding-top: 1mm }
"""
CLAIM = ('Best is the mark of a placement that is correct, as it stands in no barred gap and cuts every dependence of '
         'the paper, and than which no correct placement is better. Barriers are counted loop by loop, and the counts '
         'are compared from the innermost loops outwards: a barrier further in is called more often. This is no '
         'opinion, and no outcome of tests. That the desk works out such a placement for every paper that has one, and '
         'that it marks these placements with Best and no others, is a theorem. Its proof is about the text of the '
         'program that marked, and every step of it was checked by machine.')
CHECK = ('The number belongs to this mark alone: it is the beginning of the mark\'s hash in the register. The office '
         'that gave the certificate tells whether it has it and whether the mark still holds, by')
AGAIN = ('Whoever has the paper and the answer with these hashes can have them marked again, and the same must come '
         'out.')
ARGUED = ('That no correct placement is better can be checked without the desk, by outside/argument.py, a page of '
          'Python that shares nothing with the program that marked. It takes the paper, the answer and an argument: '
          'the text with the hash above, which the desk weighed for this certificate and writes by')


@dataclass(frozen=True)
class Office:
    """Who gives certificates, and where."""
    name: str
    place: str


def certificate_page(office: Office, called: str, on: OnDesk, mark: Mark, at: str, argument: bytes | None) -> bytes:
    """The certificate of a mark, which was given at a time, with an argument that holds of its answer, if one was
    found."""
    name, paper, number = html.escape(called), html.escape(on.text.name), mark.certificate()
    told = {'Candidate': mark.candidate, 'Paper': on.text.name, 'SHA-256 of the paper': mark.paper,
            'SHA-256 of the answer': mark.answer or '', 'Marked': when(mark.at), 'Desk': mark.desk,
            'SHA-256 of the library': mark.library}
    argued = ''
    if argument is not None:
        told |= {'SHA-256 of the argument': sha256_of(argument)}
        argued = f'<p>{html.escape(ARGUED)} <code>{as_called("./desk why")} PAPER --text</code>.</p>\n'
    body = [f'<p class="office">{html.escape(office.name)}<br>{html.escape(office.place)}</p>\n',
            f'<h1>Certificate</h1>\n<p>This is to certify that</p>\n<p class="name"><bdi>{name}</bdi></p>\n',
            f'<p>has placed the barriers of paper <b><bdi>{paper}</bdi></b> with the mark <b>{BEST}</b>.</p>\n',
            facts(told), f'<h2>What {BEST} claims</h2>\n<div class="claim">\n{paragraphs([CLAIM])}</div>\n',
            f'<h2>Number</h2>\n<p class="number">{number}</p>\n<h2>How to check it</h2>\n<div class="claim">\n'
            f'<p>{html.escape(CHECK)} <code>{as_called("./desk verify")} REGISTER {number}</code>. '
            f'{html.escape(AGAIN)}</p>\n{argued}</div>\n',
            f'<div class="signed">\n<p>{html.escape(office.place)}, {at[:10]}</p>\n<p>For the office</p>\n</div>\n']
    return document(KIND, f'Certificate {number}: {called}, {on.text.name}', STYLE, ''.join(body))
