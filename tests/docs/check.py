"""Every path that a document names exists; every name that a document gives for a file stands in that file."""
import os
import re
import sys

ROOT = os.path.join(os.path.dirname(os.path.abspath(__file__)), '..', '..')
os.chdir(ROOT)
FOLDERS = ('crates', 'docs', 'tests', 'bench', 'include', 'examples', 'tools')
passed = 0
wrong = []


def check(ok, words):
    global passed
    if ok:
        passed += 1
    else:
        wrong.append(words)


def documents():
    yield 'README.md'
    for name in sorted(os.listdir('docs')):
        if name.endswith('.md'):
            yield os.path.join('docs', name)


def paths(text):
    return re.findall(r'`((?:%s)/[^`\s]*)`' % '|'.join(FOLDERS), text)


for document in documents():
    text = open(document).read()
    for path in sorted(set(paths(text))):
        check(os.path.exists(path), '%s names %s, which is not there' % (document, path))


def check_names(place, path, names):
    """The names, each between backticks, stand in the file."""
    if not os.path.isfile(path):
        check(False, '%s: no file %s' % (place, path))
        return
    text = open(path).read()
    for name in re.findall(r'`([^`]+)`', names):
        found = re.search(r'(?<![\w·-])' + re.escape(name) + r'(?![\w·-])', text)
        check(found, '%s: %s has no %s' % (place, path, name))


# a cell of PROMISES.md: `path`: `name`, `name`; `path`: `name`
for number, line in enumerate(open('docs/PROMISES.md'), 1):
    for path, names in re.findall(r'`([^`\s]+/[^`\s]+)`: ((?:`[^`]+`(?:, )?)+)', line):
        check_names('docs/PROMISES.md:%d' % number, path, names)

# elsewhere: `name`, `name` in `path`, where the path is a file's
for document in documents():
    for number, line in enumerate(open(document), 1):
        for names, path in re.findall(r'((?:`[^`\s]+`, )*`[^`\s]+`) in `((?:%s)/[^`\s]*\.\w+)`' % '|'.join(FOLDERS), line):
            check_names('%s:%d' % (document, number), path, names)

for words in wrong:
    print(words)
print('%d passed, %d failed' % (passed, len(wrong)))
sys.exit(1 if wrong else 0)
