"""include/kiluvsaat.h and the functions that the crate kiluvsaat exports are the same; the sizes are those of its specs."""
import glob
import os
import re
import sys

ROOT = os.path.join(os.path.dirname(os.path.abspath(__file__)), '..', '..')
HEADER = 'include/kiluvsaat.h'
SOURCES = 'crates/kiluvsaat/src/*.rt'
SIZES = 'crates/player/specs/Bytes.antt'
NUMBERS = {'bool': 'bool', 'usize': 'size_t', 'isize': 'ptrdiff_t'}
for bits in (8, 16, 32, 64):
    NUMBERS['u%d' % bits] = 'uint%d_t' % bits
    NUMBERS['i%d' % bits] = 'int%d_t' % bits

passed = 0
failed = 0


def check(ok, words):
    global passed, failed
    if ok:
        passed += 1
    else:
        failed += 1
        print('DIFFERENCE: ' + words)


def parts(text):
    """The parameters of a list; none for an empty one."""
    return [part.strip() for part in text.split(',') if part.strip() not in ('', 'void')]


def exported(text):
    """name -> prototype of each '#[unsafe(no_mangle)] pub extern "C" fn', as C declares it."""
    found = {}
    text = re.sub(r'//[^\n]*', '', text)
    for name, params, gives in re.findall(
            r'#\[unsafe\(no_mangle\)\]\s*pub\s+extern\s+"C"\s+fn\s+(\w+)\s*(?:<[^>]*>)?\s*\(([^)]*)\)\s*(?:->\s*(\w+))?', text):
        words = []
        for param in parts(params):
            label, kind = (side.strip() for side in param.split(':', 1))
            words += c_parameters(label, kind)
        found[name] = (NUMBERS.get(gives, gives) if gives else 'void', words)
    return found


def c_parameters(label, kind):
    """A slice is a pointer and a length, a reference to a number a pointer, a number itself."""
    slice_or_number = re.fullmatch(r"&\s*(?:'\w+\s+)?(mut\s+)?(?:\[\s*(\w+)\s*\]|(\w+))", kind)
    if not slice_or_number:
        return ['%s %s' % (NUMBERS.get(kind, kind), label)]
    mutable, element, number = slice_or_number.groups()
    kind = element or number
    pointer = '%s%s *%s' % ('' if mutable else 'const ', NUMBERS.get(kind, kind), label)
    return [pointer, 'size_t %s_len' % label] if element else [pointer]


def declared(text):
    """name -> prototype of each function of the header."""
    found = {}
    text = re.sub(r'/\*.*?\*/', '', text, flags=re.S)
    text = re.sub(r'^\s*#(?:[^\n\\]|\\\n|\\.)*', '', text, flags=re.M)
    for gives, name, params in re.findall(r'(\w+)\s+(\w+)\s*\(([^)]*)\)\s*;', text):
        found[name] = (gives, [re.sub(r'\s+', ' ', part).replace('* ', '*') for part in parts(params)])
    return found


def shown(name, prototype):
    return '%s %s(%s)' % (prototype[0], name, ', '.join(prototype[1]) or 'void')


def compare_functions(header):
    sources = sorted(glob.glob(SOURCES))
    there = exported('\n'.join(open(path).read() for path in sources))
    here = declared(header)
    if not there:
        check(False, 'the crate kiluvsaat exports nothing yet: no #[unsafe(no_mangle)] pub extern "C" fn in %s' % SOURCES)
        return
    for name in sorted(set(here) | set(there)):
        if name not in here:
            check(False, '%s does not declare %s' % (HEADER, shown(name, there[name])))
        elif name not in there:
            check(False, '%s declares %s, and the crate does not export it' % (HEADER, name))
        else:
            check(here[name] == there[name], '%s\n  header: %s\n  crate:  %s' % (
                name, shown(name, here[name]), shown(name, there[name])))


def compare_sizes(header):
    macros = dict(re.findall(r'#define (\w+) (\d+)\b', header))
    specs = dict(re.findall(r'^(\w+) = (\d+)$', open(SIZES).read(), flags=re.M))
    layout = open('docs/STATE.md').read()
    for macro, size, title in (('KILUVSAAT_SET_SIZE', 'set_size', 'Task set'),
                               ('KILUVSAAT_STATE_SIZE', 'state_size', 'Player state')):
        number = macros.get(macro)
        check(number is not None and number == specs.get(size),
              '%s is %s, and %s in %s is %s' % (macro, number, size, SIZES, specs.get(size)))
        check('## %s: %s bytes\n' % (title, number) in layout,
              '%s is %s, and docs/STATE.md has no title "%s: %s bytes"' % (macro, number, title, number))


os.chdir(ROOT)
text = open(HEADER).read()
compare_functions(text)
compare_sizes(text)
print('%d passed, %d failed' % (passed, failed))
sys.exit(1 if failed else 0)
