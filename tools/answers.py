#!/usr/bin/env python3
"""Writes every stored answer of the repository anew:

    tools/answers.py

for the gate the files of crates/lister, test_listings, test_vectors and walker (stdin, args, data/, stdout), for readers the listings and
walks of samples/. A listing is that of the tree that the Rust module itself builds (`beside list`); a refusal and a walk are the
reference's, which was written from the document alone (`beside list`, `beside walk`). No answer comes from the programs
that are held to them. `tools/beside/build.sh FOLDER`, which takes the Rust's sources, is run first, by hand.
"""
import pathlib
import shutil
import subprocess
import sys
import tempfile
import zlib

ROOT = pathlib.Path(__file__).resolve().parent.parent
BESIDE = ROOT / 'tools/beside/target/release/beside'
CRATES = ROOT / 'crates'
SAMPLES = ROOT / 'samples'

sys.path.insert(0, str(ROOT / 'tools/sheets'))
sys.dont_write_bytecode = True
import sheets  # noqa: E402

# The hand-made sheets that the program test_listings is run on: document 01's cases, then its limits from both sides.
HAND = ('P6 P7 P8 P9 P10 P11 P12 extra orders clauses-32 clauses-33 nodes-1024 nodes-1025 bindings-4096 bindings-4097 depth-12 '
        'depth-13 patterns-192 long-list minus-zero leading-zero').split()
# A longer listing is stored by its first line, its length and its checksum, as the program test_listings writes it.
SHOWN_MOST = 20000

SEED, VECTORS = 7, 300


def beside(*words):
    return subprocess.run([str(BESIDE), *map(str, words)], check=True, stdout=subprocess.PIPE).stdout


def anew(folder):
    shutil.rmtree(folder, ignore_errors=True)
    folder.mkdir(parents=True)
    return folder


def shown(listing):
    if len(listing) <= SHOWN_MOST:
        return listing
    first = listing.split(b'\n')[0]
    return first + b'\n%d bytes, checksum %08x\n' % (len(listing), zlib.adler32(listing))


def lister(hand):
    shutil.copy(hand / 'P1.sheet', CRATES / 'lister/stdin')
    (CRATES / 'lister/stdout').write_bytes(beside('list', hand / 'P1.sheet'))


def listings(hand):
    data = anew(CRATES / 'test_listings/data')
    for name in HAND:
        shutil.copy(hand / f'{name}.sheet', data)
    # Nothing, and one byte more than a sheet may have.
    (data / 'empty.sheet').write_bytes(b'')
    (data / 'bytes-8193.sheet').write_bytes(bytes(8193))
    names = [f'{name}.sheet' for name in [*HAND, 'empty', 'bytes-8193']]
    (CRATES / 'test_listings/args').write_text(''.join(f'{name}\n' for name in names))
    answers = (f'{name}\n'.encode() + shown(beside('list', data / name)) for name in names)
    (CRATES / 'test_listings/stdout').write_bytes(b''.join(answers))


def vectors():
    data = anew(CRATES / 'test_vectors/data')
    beside('vectors', SEED, VECTORS, data / 'vectors')
    (CRATES / 'test_vectors/args').write_text('vectors\n')
    (CRATES / 'test_vectors/stdout').write_text(f'{VECTORS} vectors, 0 differ\n')


def walker():
    data = anew(CRATES / 'walker/data')
    text = sheets.parse((SAMPLES / 'station.txt').read_text(encoding='utf-8'))
    (data / 'station.sheet').write_bytes(sheets.sheet_file(text))
    (data / 'calibrate.panel').write_bytes(sheets.panel_file(text, 'calibrate'))
    (CRATES / 'walker/args').write_text('station.sheet\ncalibrate.panel\n')
    (CRATES / 'walker/stdout').write_bytes(beside('walk', data / 'station.sheet', data / 'calibrate.panel'))


def sample(path, work):
    text = sheets.parse(path.read_text(encoding='utf-8'))
    sheet, panel = work / 'sheet', work / 'panel'
    sheet.write_bytes(sheets.sheet_file(text))
    path.with_suffix('.listing').write_bytes(beside('list', sheet))
    walks = b''
    for name in text.panels:
        panel.write_bytes(sheets.panel_file(text, name))
        walks += f'panel {name}\n'.encode() + beside('walk', sheet, panel)
    path.with_suffix('.walks').write_bytes(walks)


def main():
    if not BESIDE.exists():
        sys.exit('answers.py: tools/beside/build.sh FOLDER comes first')
    with tempfile.TemporaryDirectory() as name:
        work = pathlib.Path(name)
        beside('hand', work / 'hand')
        lister(work / 'hand')
        listings(work / 'hand')
        vectors()
        for path in sorted(SAMPLES.glob('*.txt')):
            sample(path, work)
        walker()


main()
