#!/usr/bin/env python3
# Some theorems of specs/ stand in proofs/ of the same crate now, in the file of the same name. Mends the imports of them in every crate:
# `use Rattle.CRATE.specs.MODULE.{..}` becomes `use Rattle.CRATE.proofs.MODULE.{..}`, and a line that imports both moved names and others becomes
# two. Run in the repository's folder, as often as you like; with --tell it only says what it would do. It says each line that it changes, and
# `left:` with each that it can't: an import of the whole module (`use M`, `use M as X`, `use M.*`), a moved name written out in the text, or an
# import in the specs/ of the crate itself, which can't cite its own proofs/. Exits 1 if there is a `left:`.
import glob
import re
import sys

# crate, module, names (None: all of the module)
MOVED = [
    ('rows', 'Follows', None),
    ('rows', 'Balanced', {'run_balance', 'apply_balance'}),
    ('rows', 'Room', {'room_rows'}),
]


# the lines in place of this one, and what is to be told of it, or nothing
def mended(line, own_specs):
    told = ''
    for crate, module, names in MOVED:
        before = 'Rattle.%s.specs.%s' % (crate, module)
        found = re.search(re.escape(before) + r"(?![\w\-'])", line)
        if not found or line.lstrip().startswith(('--', '//')):
            continue
        after = 'Rattle.%s.proofs.%s' % (crate, module)
        if own_specs == crate:
            listed = line[found.end():]
            if names is None or any(re.search(r"(?<![\w\-'])" + re.escape(n) + r"(?![\w\-'])", listed) for n in names):
                told = 'specs/ of the crate cites its own proofs/'
            continue
        one = re.fullmatch(r'(\s*(?:pub )?(?:ghost )?(?:pub )?use )' + re.escape(before) + r'\.\{(.*)\}(;?\s*)', line)
        if one:
            listed = [it.strip() for it in one[2].split(',') if it.strip()]
            gone = [it for it in listed if names is None or it.split()[0] in names]
            stays = [it for it in listed if it not in gone]
            if gone:
                lines = [one[1] + path + '.{' + ', '.join(those) + '}' + one[3] for path, those in ((before, stays), (after, gone)) if those]
                return lines, told
            continue
        name = re.match(r"\.([^\s.{};,()]+)", line[found.end():])
        if name and (names is None or name[1] in names):
            # one name, written with its path
            line = line[:found.start()] + after + line[found.end():]
        elif not name:
            told = 'the whole module is imported, or the list goes over several lines: mend it by hand'
    return [line], told


def main():
    tell, changed, left = '--tell' in sys.argv[1:], 0, 0
    paths = [it for part in ('specs/**/*.antt', 'proofs/**/*.antt', 'src/**/*.rt') for it in glob.glob('crates/*/' + part, recursive=True)]
    for path in sorted(paths):
        folder = path.split('/')
        own_specs = folder[1] if folder[2] == 'specs' else ''
        with open(path, encoding='utf-8') as it:
            text = it.read()
        lines = []
        for number, line in enumerate(text.split('\n'), 1):
            new, told = mended(line, own_specs)
            if told:
                left += 1
                print('left: %s:%d: %s: %s' % (path, number, told, line.strip()))
            if new != [line]:
                changed += 1
                print('%s:%d: %s' % (path, number, ' | '.join(it.strip() for it in new)))
            lines += new
        if '\n'.join(lines) != text and not tell:
            with open(path, 'w', encoding='utf-8') as it:
                it.write('\n'.join(lines))
    print('imports changed=%d left=%d' % (changed, left))
    return 1 if left else 0


if __name__ == '__main__':
    sys.exit(main())
